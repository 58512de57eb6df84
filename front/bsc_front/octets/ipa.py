# SPDX-License-Identifier: MIT OR Apache-2.0
"""IPA frames, and the identification of one side to the other (CCM). Not proved.

A frame is the body's length in two octets, a stream, and the body. CCM messages go over a stream of their own.
"""
import struct
from functools import cache

RSL = 0x00
SCCP = 0xFD
CCM = 0xFE
OML = 0xFF

PING = 0x00
PONG = 0x01
ID_GET = 0x04
ID_RESPONSE = 0x05
ID_ACKNOWLEDGE = 0x06

TAG_UNIT_NAME = 0x01
TAG_UNIT_ID = 0x08

# asks for serial number, name, two locations, type, version, IP address, MAC address and unit id of the other side
ASKED = bytes((ID_GET, 0x01, TAG_UNIT_ID, 0x01, 0x07, 0x01, 0x02, 0x01, 0x03, 0x01, 0x04, 0x01, 0x05, 0x01, TAG_UNIT_NAME,
               0x01, 0x00))

MOST_OCTETS = 2048  # in a frame that bsc takes


HEAD = struct.Struct(">HB")


def frame(stream: int, body: bytes) -> bytes:
    """A frame as it is sent."""
    return head(stream, len(body)) + body


@cache
def head(stream: int, length: int) -> bytes:
    """What goes before a body: its length, and its stream."""
    return HEAD.pack(length, stream)


def frames(octets: bytes, most: int) -> tuple[list[tuple[int, bytes]], int]:
    """The first whole frames, at most so many: of each its stream and its body; and how many octets they are."""
    found: list[tuple[int, bytes]] = []
    at, size, read = 0, len(octets), HEAD.unpack_from
    while at + 3 <= size and len(found) < most:
        length, stream = read(octets, at)
        end = at + 3 + length
        if end > size:
            break
        found.append((stream, octets[at + 3:end]))
        at = end
    return found, at


def take_frame(octets: bytearray) -> tuple[int, bytes] | None:
    """Takes the first frame away from what was read: its stream and its body; None where it isn't whole yet."""
    length = 3 + int.from_bytes(octets[:2], "big")
    if len(octets) < length:
        return None
    found = octets[2], bytes(octets[3:length])
    del octets[:length]
    return found


def read_identity(body: bytes) -> dict[int, str]:
    """The items of an ID RESPONSE: of each two octets of length, a tag, and a text ended by 00."""
    items: dict[int, str] = {}
    at = 1
    while at + 3 <= len(body):
        length = int.from_bytes(body[at:at + 2], "big")
        items[body[at + 2]] = body[at + 3:at + 2 + length].rstrip(b"\0").decode("ascii", "replace")
        at += 2 + max(length, 1)
    return items


def identity(name: str) -> bytes:
    """ID RESPONSE of this side: its unit name."""
    item = bytes((TAG_UNIT_NAME,)) + name.encode() + b"\0"
    return bytes((ID_RESPONSE,)) + len(item).to_bytes(2, "big") + item
