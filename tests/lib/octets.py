# SPDX-License-Identifier: MIT OR Apache-2.0
"""The messages of tests/model as octets, as stations and switch write and read them: RSL (TS 48.058), SCCP (Q.713) with BSSAP and
BSSMAP (TS 48.006, TS 48.008). Written are those of the peers, read are those of the controller.
"""
from model.controller import is_signalling

ABIS, SCCP, CCM = 0x00, 0xFD, 0xFE  # streams of IPA
PING, PONG = b"\x00", b"\x01"
RACH, MAIN, SACCH = 0x88, 0x00, 0x40
CHANNEL_NUMBER, LINK_IDENTIFIER, ACTIVATION_TYPE, HANDOVER_REFERENCE, LAYER_3, ASSIGN_INFORMATION = 0x01, 0x02, 0x03, 0x09, 0x0B, 0x2B
# elements of RSL: how many octets the value has, or how many those have that count them
FIXED = {0x01: 1, 0x02: 1, 0x03: 1, 0x04: 1, 0x08: 2, 0x09: 1, 0x0A: 2, 0x11: 1, 0x13: 3, 0x14: 1, 0x1B: 1}
COUNTED = {0x06: 1, 0x0B: 2, 0x16: 1, 0x19: 1, 0x1A: 1, 0x2B: 1}
RSL = {
    "DATA REQUEST": 0x0301, "DATA INDICATION": 0x0302, "ESTABLISH REQUEST": 0x0204, "ESTABLISH CONFIRM": 0x0205,
    "ESTABLISH INDICATION": 0x0206, "RELEASE INDICATION": 0x0209, "CHANNEL REQUIRED": 0x0C13, "IMMEDIATE ASSIGN COMMAND": 0x0C16,
    "CHANNEL ACTIVATION": 0x0821, "CHANNEL ACTIVATION ACK": 0x0822, "HANDOVER DETECTION": 0x0827, "MEASUREMENT RESULT": 0x0828,
    "RF CHANNEL RELEASE": 0x082E, "RF CHANNEL RELEASE ACK": 0x0833,
}
RSL_NAMES = {octets: name for name, octets in RSL.items()}
CR, CC, RLSD, RLC, DT1 = 0x01, 0x02, 0x04, 0x05, 0x06
BSSMAP = {
    0x01: "ASSIGNMENT REQUEST", 0x02: "ASSIGNMENT COMPLETE", 0x03: "ASSIGNMENT FAILURE", 0x17: "HANDOVER PERFORMED",
    0x20: "CLEAR COMMAND", 0x21: "CLEAR COMPLETE", 0x22: "CLEAR REQUEST", 0x25: "SAPI N REJECT", 0x57: "COMPLETE LAYER 3 INFORMATION",
}
CAUSE, RR_CAUSE, DLCI, LAYER_3_INFORMATION = 0x04, 0x15, 0x18, 0x17
SPEECH = "00 06 01 0b 03 01 08 01"  # ASSIGNMENT REQUEST
SWITCH_BASE = 0x800000  # the switch's number of its first connection is one more
CHANGES = {0x2B, 0x2E}  # types of HANDOVER COMMAND and ASSIGNMENT COMMAND


class Unread(Exception):
    """Octets that no peer reads."""


def frames_in(octets):
    """The whole frames of a link's first octets: stream, body, and where each ends."""
    place = 0
    while len(octets) >= place + 3 and len(octets) >= (end := place + 3 + int.from_bytes(octets[place:place + 2], "big")):
        yield octets[place + 2], bytes(octets[place + 3:end]), end
        place = end


def frame(stream, body):
    return len(body).to_bytes(2, "big") + bytes([stream]) + body


# ---- what a station writes

def link_of(channel, sapi):
    """The link identifier: short messages take the main link of an SDCCH and the SACCH of a TCH."""
    return sapi | (SACCH if sapi == 3 and not is_signalling(channel) else MAIN)


def rsl(name, channel, *others):
    return RSL[name].to_bytes(2, "big") + bytes([CHANNEL_NUMBER, channel]) + b"".join(others)


def link(channel, sapi):
    return bytes([LINK_IDENTIFIER, link_of(channel, sapi)])


def layer_3(text):
    return bytes([LAYER_3]) + len(text).to_bytes(2, "big") + text


def from_station(message):
    """The body of a station's message."""
    name, channel, *words = message
    if name == "CHANNEL REQUIRED":
        # the request reference begins with the mobile's number
        return rsl(name, RACH, bytes([0x13, channel, 0, 0, 0x11, 0]))
    if name == "MEASUREMENT RESULT":
        return rsl(name, channel, bytes([0x1B, words[0]]), layer_3(b"\x06\x15" + words[1]))
    if name in ("ESTABLISH INDICATION", "DATA INDICATION"):
        return rsl(name, channel, link(channel, words[0]), layer_3(words[1]) if words[1] else b"")
    if name in ("ESTABLISH CONFIRM", "RELEASE INDICATION"):
        return rsl(name, channel, link(channel, 3))
    # the frame number of the acknowledgement
    return rsl(name, channel, b"\x08\0\0" if name == "CHANNEL ACTIVATION ACK" else b"")


# ---- what it reads

def elements(octets):
    """The values of a message of RSL by their identifiers, the first of each."""
    found = {}
    while octets and (octets[0] in FIXED or octets[0] in COUNTED):
        begin = 1 + COUNTED.get(octets[0], 0)
        end = begin + (FIXED.get(octets[0]) or int.from_bytes(octets[1:begin], "big"))
        if len(octets) < end:
            raise Unread("an element is cut")
        found.setdefault(octets[0], octets[begin:end])
        octets = octets[end:]
    return found


def is_command(text):
    return text[:1] == b"\x06" and text[1:2] and text[1] in CHANGES


def to_station(body):
    """The message that a station reads."""
    name, found = RSL_NAMES.get(int.from_bytes(body[:2], "big")), elements(body[2:])
    if name is None or CHANNEL_NUMBER not in found:
        raise Unread(f"RSL {body.hex()}")
    channel = found[CHANNEL_NUMBER][0]
    if name == "CHANNEL ACTIVATION":
        reference = found.get(HANDOVER_REFERENCE)
        return name, channel, found[ACTIVATION_TYPE][0], reference[0] if reference else None
    if name == "IMMEDIATE ASSIGN COMMAND":
        # IMMEDIATE ASSIGNMENT: four octets, the channel description, the request reference
        return name, found[ASSIGN_INFORMATION][4], found[ASSIGN_INFORMATION][7]
    if name == "DATA REQUEST":
        text, sapi = found[LAYER_3], found[LINK_IDENTIFIER][0] & 7
        if found[LINK_IDENTIFIER][0] != link_of(channel, sapi):
            raise Unread(f"link identifier of {body.hex()}")
        return "COMMAND" if is_command(text) else name, channel, sapi, text
    return name, channel


def target_in(text, cells):
    """The station, the channel and the handover reference (None for an assignment) that a command names."""
    if text[1] == 0x2E:
        return None, text[2], None
    arfcn, bsic = (text[2] & 0xC0) << 2 | text[3], text[2] & 0x3F
    station = [number for number, cell in enumerate(cells, 1) if (cell["arfcn"], cell["bsic"]) == (arfcn, bsic)]
    if not station:
        raise Unread(f"HANDOVER COMMAND to no cell: {text.hex()}")
    return station[0], text[4], text[7]


# ---- what the switch writes

def reference(number):
    return number.to_bytes(3, "big")


def bssap(name, *words):
    """The data of a DT1."""
    if name == "DTAP":
        return bytes([1, words[0], len(words[1])]) + words[1]
    return bytes.fromhex(SPEECH) if name == "ASSIGNMENT REQUEST" else bytes([0, 4, 0x20, CAUSE, 1, words[0]])


def from_switch(message):
    """The body of the switch's message."""
    name, to, what = message
    if name == "DT1":
        data = bssap(*what)
        return bytes([DT1]) + reference(to) + bytes([0, 1, len(data)]) + data
    references = reference(to) + reference(SWITCH_BASE + what)
    return bytes([CC]) + references + b"\x02\x00" if name == "CC" else bytes([RLSD]) + references + b"\x00\x00"


# ---- what it reads

def parameters(octets):
    """The values of a message of BSSMAP by their identifiers."""
    found = {}
    while octets:
        end = 2 if octets[0] in (RR_CAUSE, DLCI) else 2 + octets[1]
        found[octets[0]], octets = octets[1 if end == 2 else 2:end], octets[end:]
    return found


def read_bssap(data):
    if data[0] == 1:
        return "DTAP", data[1] & 7, data[3:3 + data[2]]
    name, found = BSSMAP.get(data[2]), parameters(data[3:2 + data[1]])
    if name == "COMPLETE LAYER 3 INFORMATION":
        return name, found[LAYER_3_INFORMATION]
    return (name, found[CAUSE][0]) if CAUSE in found else (name,)


def to_switch(body):
    """The message that the switch reads."""
    kind, to = body[0], int.from_bytes(body[1:4], "big")
    if kind == CR:
        begin = 6 + body[6] + 2  # behind the option's identifier and length
        return "CR", to, read_bssap(body[begin:begin + body[begin - 1]])[1]
    if kind == RLC:
        return "RLC", to - SWITCH_BASE
    if kind == DT1:
        return "DT1", to - SWITCH_BASE, read_bssap(body[7:7 + body[6]])
    raise Unread(f"SCCP {body.hex()}")


# ---- both

def written(source, message):
    """The stream and the body of a peer's message."""
    return (SCCP, from_switch(message)) if source == 0 else (ABIS, from_station(message))


def read(link, body):
    """The message that the peer at this link reads."""
    try:
        return to_switch(body) if link == 0 else to_station(body)
    except (IndexError, KeyError, TypeError) as fault:
        raise Unread(f"link {link}: {body.hex()}") from fault
