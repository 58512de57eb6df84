# SPDX-License-Identifier: MIT OR Apache-2.0
"""Writes records of runs in the form of `bsc run --record`: pcap, big-endian, of IPv4 packets without a link's header.

An entry is a tuple: ('head', octets), ('took', link, stream, body), ('down', link), ('passed', milliseconds), ('put', link, stream, body)
or ('lost',). Link 0 is the switch's, i that of the i-th cell's station.
"""
import struct

FILE_HEADER = bytes.fromhex("a1b2c3d4 0002 0004 00000000 00000000 0000ffff 00000065")
CONTROLLER = bytes([10, 0, 0, 1])
TCP, UDP = 6, 17
PSH, FIN = 0x18, 0x11
KINDS = {"head": 1, "passed": 2, "lost": 3}
PIECE = 32768  # octets of a piece of the head, at most


def other_end(link):
    return bytes([10, 0, 1, link]) if link else bytes([10, 0, 0, 2])


def internet(number, protocol, source, to, payload):
    head = struct.pack(">BBHHHBBH", 0x45, 0, 20 + len(payload), number % 65536, 0x4000, 64, protocol, 0) + source + to
    total = sum(struct.unpack(">10H", head))
    total = (total & 0xFFFF) + (total >> 16)
    total = (total & 0xFFFF) + (total >> 16)
    return head[:10] + struct.pack(">H", 65535 - total) + head[12:] + payload


class Record:
    """The octets of a file, an entry at a time."""

    def __init__(self, *pieces):
        self.octets, self.count, self.numbers = FILE_HEADER, 0, {}
        for piece in pieces:
            self.add(1_796_000_000_000, ("head", piece))

    def segment(self, source, to, ports, flags, octets):
        sequence, acknowledged = self.numbers.get((source, to), 1), self.numbers.get((to, source), 1)
        self.numbers[source, to] = (sequence + max(1, len(octets))) % 2 ** 32
        head = struct.pack(">HHIIBBHHH", *ports, sequence, acknowledged, 0x50, flags, 65535, 0, 0)
        return internet(self.count, TCP, source, to, head + octets)

    def datagram(self, kind, octets):
        head = struct.pack(">HHHH", 49152, 49152, 9 + len(octets), 0)
        return internet(self.count, UDP, CONTROLLER, CONTROLLER, head + bytes([kind]) + octets)

    def packet(self, entry):
        match entry:
            case "head", octets:
                return self.datagram(KINDS["head"], octets)
            case "passed", ms:
                return self.datagram(KINDS["passed"], struct.pack(">I", ms))
            case "lost",:
                return self.datagram(KINDS["lost"], b"")
            case "down", link:
                return self.segment(other_end(link), CONTROLLER, ports_of(link), FIN, b"")
            case "took", link, stream, body:
                return self.segment(other_end(link), CONTROLLER, ports_of(link), PSH, framed(stream, body))
            case "put", link, stream, body:
                return self.segment(CONTROLLER, other_end(link), ports_of(link)[::-1], PSH, framed(stream, body))

    def add(self, ms, entry):
        """Appends the packet of an entry of this time, in milliseconds since 1970."""
        packet = self.packet(entry)
        self.octets += struct.pack(">IIII", ms // 1000, ms % 1000 * 1000, len(packet), len(packet)) + packet
        self.count += 1
        return self


def ports_of(link):
    return (49152, 3003) if link else (5000, 49152)


def framed(stream, body):
    return struct.pack(">HB", len(body), stream) + body


def head_of(settings, part=1, version="bsc 0.1.0 (logic dac8208d650f15bf)"):
    """The pieces of the head of this part of a run with these settings."""
    octets = settings.encode()
    return [f"{version} part {part}".encode(), *(octets[at:at + PIECE] for at in range(0, len(octets), PIECE))]
