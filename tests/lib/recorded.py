# SPDX-License-Identifier: MIT OR Apache-2.0
"""Reads the files that `bsc run --record` writes: pcap, big-endian, of IPv4 packets without a link's header."""
import struct
from dataclasses import dataclass

FILE_HEADER = bytes.fromhex("a1b2c3d4 0002 0004 00000000 00000000 0000ffff 00000065")
CONTROLLER = bytes([10, 0, 0, 1])
TCP, UDP = 6, 17
FIN = 0x01
HEAD, PASSED, LOST = 1, 2, 3  # kinds of datagrams


class Unread(Exception):
    pass


@dataclass
class Entry:
    """A packet: 'head', 'passed' or 'lost' without a link; 'took', 'down' or 'put' with the number of one. Its octets are those of a
    piece of the head or of an IPA frame, `passed` the milliseconds of 'passed', the time is in microseconds since 1970."""
    what: str
    time: int
    link: int | None = None
    octets: bytes = b""
    passed: int = 0


def link_of(address):
    return 0 if address == bytes([10, 0, 0, 2]) else address[3]


def entry_of(time, packet):
    source, to, protocol = packet[12:16], packet[16:20], packet[9]
    if len(packet) != int.from_bytes(packet[2:4], "big"):
        raise Unread("a length of IPv4")
    if protocol == UDP:
        kind, rest = packet[28], packet[29:]
        if kind == HEAD:
            return Entry("head", time, octets=rest)
        if kind == PASSED:
            return Entry("passed", time, passed=int.from_bytes(rest, "big"))
        return Entry("lost", time)
    octets = packet[40:]
    if source == CONTROLLER:
        return Entry("put", time, link_of(to), octets)
    if packet[33] & FIN:
        return Entry("down", time, link_of(source))
    return Entry("took", time, link_of(source), octets)


def entries(octets):
    """The entries of the packets that are whole, and how many octets of another follow."""
    if octets[:24] != FILE_HEADER[:len(octets)]:
        raise Unread("the header of the file")
    found, at, numbers = [], 24, {}
    while at + 16 <= len(octets):
        seconds, microseconds, size, whole = struct.unpack(">IIII", octets[at:at + 16])
        if size != whole or microseconds >= 1_000_000:
            raise Unread(f"the header of packet {len(found) + 1}")
        packet = octets[at + 16:at + 16 + size]
        if len(packet) < size:
            break
        if int.from_bytes(packet[4:6], "big") != len(found) % 65536:
            raise Unread(f"the number of packet {len(found) + 1}")
        if packet[9] == TCP:
            way, sequence = packet[12:20], int.from_bytes(packet[24:28], "big")
            if sequence != numbers.get(way, 1):
                raise Unread(f"the sequence number of packet {len(found) + 1}")
            numbers[way] = (sequence + max(1, size - 40)) % 2 ** 32
        found.append(entry_of(seconds * 1_000_000 + microseconds, packet))
        at += 16 + size
    return found, max(0, len(octets) - at)


def whole_entries(path):
    """The entries of a file that ends with a whole packet."""
    found, left = entries(path.read_bytes())
    if left:
        raise Unread(f"{path}: {left} octets of a packet at the end")
    return found


def head_in(found):
    """The first line and the text of the settings in the head, and the entries behind it."""
    count = next((at for at, entry in enumerate(found) if entry.what != "head"), len(found))
    pieces = [entry.octets for entry in found[:count]]
    return pieces[0].decode(), b"".join(pieces[1:]).decode(), found[count:]
