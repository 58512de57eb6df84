# SPDX-License-Identifier: MIT OR Apache-2.0
"""What a base station reports by OML of itself (TS 12.21 clauses 8.8.1 and 8.8.2), and why it refuses a message. Not proved."""
from bsc_front.octets import oml

FAILURE_EVENT_REPORT = 0x62

# clause 9.4: attributes, by the octets of their values, or by those of their lengths
EVENT_TYPE, SEVERITY, PROBABLE_CAUSE, OPERATIONAL_STATE, NACK_CAUSE, ADDITIONAL_TEXT = 0x11, 0x43, 0x29, 0x24, 0x22, 0x03
OCTETS = {oml.ADMINISTRATIVE_STATE: 1, EVENT_TYPE: 1, SEVERITY: 1, PROBABLE_CAUSE: 3, OPERATIONAL_STATE: 1}

DISABLED = b"\x01"  # an operational state
OUT_OF_SERVICE = b"\x01", b"\x03"  # administrative states: locked, shutting down
CEASED = b"\x00"  # a severity
OPERATIONAL = {0x01: "disabled", 0x02: "enabled"}
ADMINISTRATIVE = {0x01: "locked", 0x02: "unlocked", 0x03: "shutting down"}
AVAILABILITY = {0x00: "in test", 0x01: "failed", 0x02: "power off", 0x03: "off line", 0x05: "dependency", 0x06: "degraded",
                0x07: "not installed", 0xFF: ""}
EVENT_TYPES = {0x00: "communication failure", 0x01: "quality of service failure", 0x02: "processing failure",
               0x03: "equipment failure", 0x04: "environment failure"}
SEVERITIES = {0x00: "ceased", 0x01: "critical", 0x02: "major", 0x03: "minor", 0x04: "warning", 0x05: "indeterminate"}
CLASSES = {oml.SITE_MANAGER: "site", oml.BTS: "BTS", oml.RADIO_CARRIER: "radio carrier", oml.CHANNEL: "timeslot",
           oml.BASEBAND_TRANSCEIVER: "baseband transceiver"}
MOST_TEXT = 80  # characters of a station's own text


def attributes(text: bytes) -> dict[int, bytes]:
    """The attributes of a report, each by its identifier; those that aren't known have a length in two octets."""
    found: dict[int, bytes] = {}
    at = 0
    while at < len(text):
        kind = text[at]
        head, octets = (1, OCTETS[kind]) if kind in OCTETS else (3, int.from_bytes(text[at + 1:at + 3], "big"))
        found.setdefault(kind, text[at + head:at + head + octets])
        at += head + octets
    return found


def name_of(which: oml.Object) -> str:
    """An object in words."""
    kind = CLASSES.get(which[0], f"object {which[0]:02x}")
    return f"{kind} {which[3]}" if which[0] == oml.CHANNEL else kind


def refusal(text: bytes) -> str:
    """Why a message is refused: the last attribute of a NACK, behind those of the message (clause 9.4.36)."""
    return f"cause {text[-1]:#04x}" if len(text) > 1 and text[-2] == NACK_CAUSE else "without a cause"


def word(names: dict[int, str], value: bytes) -> str:
    """A value of one octet in words."""
    return names.get(value[0], value.hex()) if value else ""


def own_text(value: bytes) -> str:
    """What the station adds in its own words."""
    text = "".join(letter if letter.isprintable() else "?" for letter in value.rstrip(b"\0").decode("ascii", "replace"))
    return f": {text[:MOST_TEXT]!r}" if text else ""
