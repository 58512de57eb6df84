# SPDX-License-Identifier: MIT OR Apache-2.0
"""What RSL says of a mobile's distance and power (TS 48.058), and power levels (TS 45.005 clause 4.1.1). Not proved."""
from dataclasses import dataclass

from bsc_front.octets import rsl
from bsc_front.octets.frequencies import DCS_1800, PCS_1900

# clause 9.3: elements
ACTIVATION_TYPE = 0x03
BS_POWER = 0x04
L1_INFORMATION = 0x0A
MS_POWER = 0x0D
ACCESS_DELAY = 0x11
TIMING_ADVANCE = 0x18
UPLINK_MEASUREMENTS = 0x19
MEASUREMENT_RESULT_NUMBER = 0x1B

# of a MEASUREMENT RESULT before its layer 3 message: octets of each element's contents, 0 where a length says so
OCTETS = {MEASUREMENT_RESULT_NUMBER: 1, UPLINK_MEASUREMENTS: 0, BS_POWER: 1, L1_INFORMATION: 2}

# clause 9.3.3: why a channel is activated
IMMEDIATE_ASSIGNMENT = 0
ASSIGNMENT = 1

MOST_ADVANCE = 63
# TS 45.005: the levels above 30 dBm, by their dBm, the highest first; from 30 dBm on the levels are 0, 1, .. in steps of 2 dB
ABOVE_30_DBM = {DCS_1800: ((36, 29), (34, 30), (32, 31)), PCS_1900: ((33, 30), (32, 31))}


@dataclass(frozen=True)
class Radio:
    """A mobile's power level, and its timing advance where it is known."""
    level: int
    advance: int | None = None


def power_level(band: str, dbm: int) -> int:
    """The lowest power of a mobile that isn't below so many dBm, or the highest that there is."""
    if band not in ABOVE_30_DBM:
        return min(max(2 + (39 - dbm) // 2, 2), 19) if dbm < 39 else 0
    for power, level in ABOVE_30_DBM[band]:
        if dbm >= power:
            return level
    return min(max((30 - dbm) // 2, 0), 15)


def activation_type(body: bytes) -> int:
    """Why CHANNEL ACTIVATION activates a channel, or -1 where it doesn't say so."""
    return body[5] & 7 if body[4:5] == bytes((ACTIVATION_TYPE,)) and len(body) > 5 else -1


def access_delay(body: bytes) -> int | None:
    """The access delay of a CHANNEL REQUIRED (clause 8.5.3), which is the timing advance of the mobile that asks."""
    return min(body[9], MOST_ADVANCE) if len(body) > 9 and body[8] == ACCESS_DELAY else None


def with_radio(body: bytes, radio: Radio) -> bytes:
    """A CHANNEL ACTIVATION (clause 8.4.1) with MS Power and Timing Advance, which come behind all that bsc writes in it."""
    advance = b"" if radio.advance is None else bytes((TIMING_ADVANCE, radio.advance))
    return body + bytes((MS_POWER, radio.level)) + advance


def element_at(body: bytes, wanted: int) -> int:
    """Where the contents of an element of a MEASUREMENT RESULT (clause 8.4.8) begin that comes before layer 3, or 0."""
    at, last = 4, len(body) - 2
    while at < last and body[at] != wanted:
        length = OCTETS.get(body[at])
        if length is None:
            return 0
        at += 1 + (length or 1 + body[at + 1])
    if at >= last:
        return 0
    return at + (3 if wanted == rsl.L3_INFORMATION else 1)


def layer_1_of(body: bytes) -> bytes:
    """The L1 information (clause 9.3.10) of a MEASUREMENT RESULT, or nothing."""
    at = element_at(body, L1_INFORMATION)
    return body[at:at + 2] if at else b""


def used(layer_1: bytes) -> Radio:
    """What a mobile uses by its own account: power is in the upper five bits of L1 information, the advance is its second octet."""
    return Radio(layer_1[0] >> 3, min(layer_1[1], MOST_ADVANCE))


def layer_3_at(body: bytes) -> int:
    """Where the layer 3 message of a MEASUREMENT RESULT begins, or 0."""
    return element_at(body, rsl.L3_INFORMATION)


def layer_3_of(body: bytes) -> bytes:
    """The layer 3 message of DATA REQUEST, DATA INDICATION and ESTABLISH INDICATION on the main signalling link, SAPI 0."""
    if body[4:6] != bytes((rsl.LINK_IDENTIFIER, 0x00)) or body[6:7] != bytes((rsl.L3_INFORMATION,)):
        return b""
    return body[9:9 + int.from_bytes(body[7:9], "big")]
