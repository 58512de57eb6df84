# SPDX-License-Identifier: MIT OR Apache-2.0
"""The virtual radio of osmo-bts-virtual: GSMTAP frames over UDP multicast.

A GSMTAP frame is a header of 16 octets and one block of a logical channel (23 octets, on the RACH one). All cells share
two multicast groups, one of each direction, and the ARFCN in the header says whose they are. Nothing of it is proved.

Everything stays on the loopback interface: the groups are joined there and frames go out with a time to live of 0. Run
it in a network namespace of its own all the same, since osmo-bts-virtual itself doesn't keep to one interface.
"""
from __future__ import annotations

import socket
import struct
from dataclasses import dataclass

DOWNLINK_GROUP = ("239.193.23.1", 4729)
UPLINK_GROUP = ("239.193.23.2", 4729)
INTERFACE = "127.0.0.1"

VERSION = 2
HEADER_WORDS = 4  # the header's length, in units of four octets
TYPE_UM = 1  # a block of the radio interface Um
HEADER = struct.Struct(">BBBBHbBIBBBB")

UPLINK_FLAG = 0x4000  # in the ARFCN's field; without it the station drops the frame
ARFCN_MASK = 0x3FFF

BCCH = 0x01
RACH = 0x03
CCCH = 0x05  # osmo-bts-virtual marks paging and access grants alike
SDCCH_8 = 0x08
TCH_F = 0x09
SACCH_FLAG = 0x80

BLOCK_LENGTH = 23
HYPERFRAME = 2715648  # frame numbers, TS 45.002 clause 4.3.3


@dataclass(frozen=True)
class Frame:
    """One block of a logical channel as GSMTAP carries it."""

    arfcn: int
    timeslot: int
    channel_type: int  # GSMTAP's sub_type, with SACCH_FLAG on the SACCH of a channel
    sub_slot: int
    frame_number: int
    payload: bytes
    uplink: bool = True
    signal_dbm: int = -60

    def octets(self) -> bytes:
        """The frame as a datagram has it."""
        arfcn = self.arfcn | (UPLINK_FLAG if self.uplink else 0)
        header = HEADER.pack(VERSION, HEADER_WORDS, TYPE_UM, self.timeslot, arfcn, self.signal_dbm, 0,
                             self.frame_number, self.channel_type, 0, self.sub_slot, 0)
        return header + self.payload


def read_frame(datagram: bytes) -> Frame | None:
    """The frame that a datagram carries, or None where it carries no block of the radio interface."""
    if len(datagram) <= HEADER.size:
        return None
    (version, words, kind, timeslot, arfcn, signal, _noise, number, channel, _antenna, sub_slot,
     _reserved) = HEADER.unpack_from(datagram)
    if version != VERSION or kind != TYPE_UM or words < HEADER_WORDS:
        return None
    return Frame(arfcn & ARFCN_MASK, timeslot, channel, sub_slot, number, datagram[4 * words:],
                 bool(arfcn & UPLINK_FLAG), signal)


class VirtualRadio:
    """A mobile's two sockets: it hears the downlink of all cells and speaks on their uplink."""

    def __init__(self) -> None:
        self.receiver = socket.socket(socket.AF_INET, socket.SOCK_DGRAM)
        self.receiver.setsockopt(socket.SOL_SOCKET, socket.SO_REUSEADDR, 1)
        self.receiver.bind(DOWNLINK_GROUP)
        membership = socket.inet_aton(DOWNLINK_GROUP[0]) + socket.inet_aton(INTERFACE)
        self.receiver.setsockopt(socket.IPPROTO_IP, socket.IP_ADD_MEMBERSHIP, membership)
        self.receiver.setblocking(False)
        self.sender = socket.socket(socket.AF_INET, socket.SOCK_DGRAM)
        self.sender.setsockopt(socket.IPPROTO_IP, socket.IP_MULTICAST_IF, socket.inet_aton(INTERFACE))
        self.sender.setsockopt(socket.IPPROTO_IP, socket.IP_MULTICAST_TTL, 0)
        self.sender.setsockopt(socket.IPPROTO_IP, socket.IP_MULTICAST_LOOP, 1)

    def fileno(self) -> int:
        """The socket to wait for, so that select takes the radio itself."""
        return self.receiver.fileno()

    def send(self, frame: Frame) -> None:
        """Puts a block on the uplink."""
        self.sender.sendto(frame.octets(), UPLINK_GROUP)

    def receive(self) -> list[Frame]:
        """The downlink blocks that have come, without waiting."""
        frames: list[Frame] = []
        while True:
            try:
                datagram = self.receiver.recv(2048)
            except BlockingIOError:
                return frames
            frame = read_frame(datagram)
            if frame is not None and not frame.uplink:
                frames.append(frame)

    def close(self) -> None:
        """Leaves the air."""
        self.receiver.close()
        self.sender.close()
