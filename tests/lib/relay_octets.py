# SPDX-License-Identifier: MIT OR Apache-2.0
"""The other side of lib/octets: what a relay in Python reads from its peers, and what it writes to them."""
from lib.octets import (BSSMAP, CC, CR, DT1, HANDOVER_REFERENCE, LAYER_3, LINK_IDENTIFIER, RLC, RLSD, RSL, RSL_NAMES, SWITCH_BASE,
                        bssap, elements, layer_3, link, read_bssap, reference, rsl)

KINDS = {"immediate": 0, "assignment": 1, "handover": 2}
REQUEST_REFERENCE, RESULT_NUMBER = 0x13, 0x1B
BSSMAP_TYPES = {name: octet for octet, name in BSSMAP.items()}


def from_station(body):
    """The message of a station."""
    name, found = RSL_NAMES[int.from_bytes(body[:2], "big")], elements(body[2:])
    channel = found[1][0]
    if name == "CHANNEL REQUIRED":
        return name, found[REQUEST_REFERENCE][0]
    if name == "MEASUREMENT RESULT":
        return name, channel, found[RESULT_NUMBER][0], found[LAYER_3][2:]
    if name in ("ESTABLISH INDICATION", "DATA INDICATION"):
        return name, channel, found[LINK_IDENTIFIER][0] & 7, found.get(LAYER_3)
    return name, channel


def from_switch(body):
    """The message of the switch."""
    to, other = int.from_bytes(body[1:4], "big"), int.from_bytes(body[4:7], "big") - SWITCH_BASE
    if body[0] == DT1:
        return "DT1", to, read_bssap(body[7:7 + body[6]])
    return {CC: "CC", RLSD: "RLSD"}[body[0]], to, other


def to_station(message):
    """The body of a message for a station."""
    name, channel, *words = message
    if name == "CHANNEL ACTIVATION":
        kind, number = words
        behind = b"" if number is None else bytes([HANDOVER_REFERENCE, number])
        return rsl(name, channel, bytes([3, KINDS[kind]]), bytes.fromhex("06 04 00 03 01 00"), behind)
    if name == "IMMEDIATE ASSIGN COMMAND":
        text = bytes([0x2D, 6, 0x3F, 0, channel, 0, 0, words[0], 0, 0]) + bytes(13)
        return RSL[name].to_bytes(2, "big") + bytes([1, 0x90, 0x2B, len(text)]) + text
    if name in ("DATA REQUEST", "COMMAND"):
        return rsl("DATA REQUEST", channel, link(channel, words[0]), layer_3(words[1]))
    return rsl(name, channel, link(channel, 3) if name == "ESTABLISH REQUEST" else b"")


def to_switch(message):
    """The body of a message for the switch."""
    name, number, *words = message
    if name == "CR":
        text = bytes([BSSMAP_TYPES["COMPLETE LAYER 3 INFORMATION"], 0x17, len(words[0])]) + words[0]
        data = bytes([0, len(text)]) + text
        return bytes([CR]) + reference(number) + bytes.fromhex("02 02 04 02 42 fe 0f") + bytes([len(data)]) + data + b"\0"
    if name == "RLC":
        return bytes([RLC]) + reference(SWITCH_BASE + number) + bytes(3)
    what, *causes = words[0]
    data = bytes([BSSMAP_TYPES.get(what, 0)]) + (bytes([4, 1, causes[0]]) if causes and what != "DTAP" else b"")
    data = bssap(*words[0]) if what == "DTAP" else bytes([0, len(data)]) + data
    return bytes([DT1]) + reference(SWITCH_BASE + number) + bytes([0, 1, len(data)]) + data
