# SPDX-License-Identifier: MIT OR Apache-2.0
"""Captures in the form of pcap, of links that carry given frames: TCP with IPA, SCTP with M3UA or SUA, LAPD as Linux has it.

A frame is from whom, to whom, and its octets: RSL between `bsc` and `station N`, else SCCP between `bsc` and `switch`.
"""
import struct

RAW_IP, LINUX_LAPD = 101, 177  # link types
HOSTS = {"bsc": "10.0.0.1", "switch": "10.0.0.2"}
TCP, SCTP = 6, 132
POINT_CODES = {"bsc": 5, "switch": 9}
RSL, SCCP = 0x00, 0xFD  # streams of IPA
M3UA, SUA = 3, 4  # payload protocols of SCTP


def pcap(packets, link_type=RAW_IP, limit=65535):
    """The octets of a file with these packets, of each at most so many."""
    head = struct.pack("<IHHiIII", 0xA1B2C3D4, 2, 4, 0, 0, 65535, link_type)
    return head + b"".join(struct.pack("<IIII", number, 0, min(limit, len(packet)), len(packet)) + packet[:limit]
                           for number, packet in enumerate(packets, 1))


def host(end):
    return bytes(map(int, HOSTS.get(end, f"10.0.1.{end.split()[-1]}").split(".")))


def ip(source, to, protocol, payload):
    head = struct.pack(">BBHHHBBH", 0x45, 0, 20 + len(payload), 0, 0, 64, protocol, 0)
    return head + host(source) + host(to) + payload


# ---- TCP with IPA


class Streams:
    """The segments of TCP between these ends; the BSC's port of a station's link is another for each of them."""

    def __init__(self, ports=(5000, 3003)):
        self.switch_port, self.first_port, self.sent = *ports, {}

    def port(self, source, to):
        """That of the source's end."""
        peer = to if source == "bsc" else source
        server = self.switch_port if peer == "switch" else self.first_port + int(peer.split()[-1]) - 1
        return server if (source == "bsc") == (peer != "switch") else 40000 + server

    def segment(self, source, to, payload):
        at, acknowledged = self.sent.get((source, to), 1), self.sent.get((to, source), 1)
        self.sent[source, to] = at + len(payload)
        head = struct.pack(">HHIIBBHHH", self.port(source, to), self.port(to, source), at, acknowledged, 0x50, 0x18, 65535, 0, 0)
        return ip(source, to, TCP, head + payload)

    def frame(self, source, to, octets):
        return self.segment(source, to, in_ipa(source, to, octets))


def in_ipa(source, to, octets):
    stream = SCCP if "switch" in (source, to) else RSL
    return len(octets).to_bytes(2, "big") + bytes([stream]) + octets


# ---- SCTP with M3UA or SUA


def checksum(octets):
    """CRC32c."""
    rest = 0xFFFFFFFF
    for octet in octets:
        rest ^= octet
        for _ in range(8):
            rest = rest >> 1 ^ (0x82F63B78 if rest & 1 else 0)
    return rest ^ 0xFFFFFFFF


class Association:
    """The packets of SCTP between the BSC and the switch."""

    def __init__(self, protocol, port):
        self.protocol, self.port, self.numbers = protocol, port, {}

    def packet(self, source, to, *messages):
        chunks = b""
        for message in messages:
            number = self.numbers[source] = self.numbers.get(source, 0) + 1
            chunks += struct.pack(">BBHIHHI", 0, 3, 16 + len(message), number, 1, number, self.protocol) + padded(message)
        ports = (self.port, self.port + 1) if source == "bsc" else (self.port + 1, self.port)
        head, rest = struct.pack(">HHI", *ports, 1), bytes(4) + chunks
        return ip(source, to, SCTP, head + struct.pack("<I", checksum(head + rest)) + chunks)


def padded(octets):
    return octets + bytes(-len(octets) % 4)


def parameter(tag, value):
    return struct.pack(">HH", tag, 4 + len(value)) + padded(value)


def message(message_class, kind, *parameters):
    body = b"".join(parameters)
    return struct.pack(">BBBBI", 1, 0, message_class, kind, 8 + len(body)) + body


def in_m3ua(source, to, octets):
    """DATA with a routing context (RFC 4666, clause 3.3.1)."""
    label = struct.pack(">IIBBBB", POINT_CODES[source], POINT_CODES[to], 3, 2, 0, 0)
    return message(1, 1, parameter(6, bytes(4)), parameter(0x210, label + octets))


def in_sua(octets):
    """CORE, COAK, RELRE, RELCO or CODT (RFC 3868, clause 3.3) that says what this message of SCCP says."""
    context, kind = parameter(6, bytes(4)), octets[0]
    if kind == 1:
        begin = 6 + octets[6]
        data = octets[begin + 2:begin + 2 + octets[begin + 1]]
        address = parameter(0x8002, bytes([0, 0, 0, 9])) + parameter(0x8003, bytes([0, 0, 0, 254]))
        called = parameter(0x103, struct.pack(">HH", 2, 7) + address)
        return message(8, 1, context, parameter(0x115, bytes([0, 0, 0, 2])), parameter(0x104, b"\0" + octets[1:4]), called,
                       parameter(0x116, bytes(4)), parameter(0x10B, data))
    receiver, sender = parameter(0x105, b"\0" + octets[1:4]), parameter(0x104, b"\0" + octets[4:7])
    if kind == 6:
        return message(8, 8, context, receiver, parameter(0x10B, octets[7:7 + octets[6]]))
    return message(8, kind, context, receiver, sender)


# ---- LAPD


class Lapd:
    """The frames of LAPD on E1: the network's side is the BSC's, the TEI a station's number."""

    def __init__(self):
        self.numbers = {}

    def frame(self, source, to, octets):
        is_down, tei = source == "bsc", int((to if source == "bsc" else source).split()[-1])
        number = self.numbers[source, to] = (self.numbers.get((source, to), -1) + 1) % 128
        return self.linux(is_down, bytes([2 * is_down, tei << 1 | 1, number << 1, 0]) + octets)

    def begins(self, station):
        """SABME of the network's side."""
        self.numbers = {ends: number for ends, number in self.numbers.items() if station not in ends}
        return self.linux(True, bytes([2, int(station.split()[-1]) << 1 | 1, 0x7F]))

    @staticmethod
    def linux(is_down, octets):
        return struct.pack(">HHH8sH", 4 * is_down, 0, 0, bytes(8), 0x30) + octets
