# SPDX-License-Identifier: MIT OR Apache-2.0
"""A mobile's dedicated channel: its data links, and its frames on the virtual radio. Not proved.

SAPI 0 goes on the SDCCH or the FACCH. SAPI 3 goes there on an SDCCH, and on the SACCH of a TCH/F (TS 44.006 clause 6).
Every 480 ms the SACCH has a block: a MEASUREMENT REPORT, or in turn with one a frame of SAPI 3.
"""
from __future__ import annotations

import time
from collections import deque
from typing import Protocol

from simulated_mobile import gsmtap, lapdm
from simulated_mobile.layer3 import ChannelDescription

SACCH_PERIOD = 0.480  # seconds, TS 44.018 clause 3.4.1.2
POWER_LEVEL = 5  # of the SACCH's layer 1 header, TS 44.004 clause 7

# The frame in which the measurement period ends, modulo 102 by sub-slot of SDCCH/8, modulo 104 by timeslot of TCH/F (TS
# 45.008 clause 8.4). osmo-bts-virtual tells the controller of a report where a block is stamped with it.
PERIOD_END_SDCCH_8 = (66, 70, 74, 78, 98, 0, 4, 8)
PERIOD_END_TCH_F = (12, 25, 38, 51, 64, 77, 90, 103)


class ChannelUser(Protocol):
    """Who is above a channel: radio resource management."""

    def report(self) -> bytes:
        """The MEASUREMENT REPORT for the SACCH's next block."""

    def established(self, channel: "DedicatedChannel", sapi: int) -> None:
        """A link of the channel is up."""

    def released(self, channel: "DedicatedChannel", sapi: int, reason: str) -> None:
        """A link of the channel is gone."""

    def received(self, channel: "DedicatedChannel", sapi: int, message: bytes) -> None:
        """A message of the network has come."""

    def acknowledged(self, channel: "DedicatedChannel", sapi: int, message: bytes) -> None:
        """The base station has a message of the mobile."""


class DedicatedChannel:
    """One SDCCH/8 or TCH/F with the SACCH beside it."""

    def __init__(self, radio: gsmtap.VirtualRadio, place: ChannelDescription, user: ChannelUser) -> None:
        self.radio = radio
        self.place = place
        self.user = user
        self.is_traffic = place.channel_number & 0xF8 == 0x08
        self.frame_number = 0
        self.timing_advance = 0
        self.links = {0: lapdm.DataLink(0, False, self), 3: lapdm.DataLink(3, self.is_traffic, self)}
        self.slow_frames: deque[lapdm.LapdmFrame] = deque()
        self.is_left = False
        self.reported = False
        self.slow_heard: float | None = None  # when the SACCH's last block came
        self.next_slow_block = time.monotonic() + SACCH_PERIOD

    @staticmethod
    def is_known(place: ChannelDescription) -> bool:
        """Whether it is a channel that this mobile can use: SDCCH/8 or TCH/F."""
        return place.channel_number & 0xC0 == 0x40 or place.channel_number & 0xF8 == 0x08

    @property
    def channel_type(self) -> int:
        """GSMTAP's sub_type of the channel."""
        return gsmtap.TCH_F if self.is_traffic else gsmtap.SDCCH_8

    @property
    def sub_slot(self) -> int:
        """The sub-channel within its timeslot."""
        return 0 if self.is_traffic else self.place.channel_number >> 3 & 0x07

    # From the base station.

    def is_mine(self, frame: gsmtap.Frame) -> bool:
        """Whether a block came on this channel or its SACCH."""
        return (frame.arfcn == self.place.arfcn and frame.timeslot == self.place.timeslot
                and frame.channel_type & ~gsmtap.SACCH_FLAG == self.channel_type and frame.sub_slot == self.sub_slot)

    def take(self, frame: gsmtap.Frame) -> None:
        """Takes a block: on the SACCH two octets of layer 1 are before the frame (TS 44.004 clause 7)."""
        self.frame_number = frame.frame_number
        if len(frame.payload) != gsmtap.BLOCK_LENGTH:
            return  # speech
        slow = bool(frame.channel_type & gsmtap.SACCH_FLAG)
        if slow:
            self.timing_advance = frame.payload[1]
            self.slow_heard = time.monotonic()
        layer_2 = lapdm.read_lapdm(frame.payload[2:] if slow else frame.payload)
        if layer_2 is not None and layer_2.sapi in self.links:
            self.links[layer_2.sapi].received(layer_2)

    def is_silent(self, limit: float) -> bool:
        """Whether a SACCH that was heard is no more for so many seconds."""
        return self.slow_heard is not None and time.monotonic() - self.slow_heard > limit

    # To the base station.

    def transmit(self, link: lapdm.DataLink, frame: lapdm.LapdmFrame) -> None:
        """Puts a frame of a link on the channel, or in the line for its SACCH."""
        if link.sapi == 3 and self.is_traffic:
            self.slow_frames.append(frame)
        else:
            self._send(frame.octets(gsmtap.BLOCK_LENGTH), 0, self.frame_number)

    def tick(self) -> None:
        """Repeats what wasn't answered, and gives the SACCH its block."""
        for link in self.links.values():
            link.tick()
        if self.is_left or time.monotonic() < self.next_slow_block:
            return
        self.next_slow_block += SACCH_PERIOD
        if self.slow_frames and self.reported:
            frame = self.slow_frames.popleft()
        else:
            frame = lapdm.LapdmFrame(0, False, lapdm.UI, False, self.user.report())
        self.reported = frame.sapi == 0
        header = bytes([POWER_LEVEL, self.timing_advance])
        block = header + frame.octets(gsmtap.BLOCK_LENGTH - len(header))
        self._send(block, gsmtap.SACCH_FLAG, self._period_end())

    def _period_end(self) -> int:
        """The last frame number not behind the present one in which a measurement period of this channel ended."""
        if self.is_traffic:
            end, length = PERIOD_END_TCH_F[self.place.timeslot], 104
        else:
            end, length = PERIOD_END_SDCCH_8[self.sub_slot], 102
        return (self.frame_number - (self.frame_number - end) % length) % gsmtap.HYPERFRAME

    def _send(self, payload: bytes, flag: int, frame_number: int) -> None:
        self.radio.send(gsmtap.Frame(self.place.arfcn, self.place.timeslot, self.channel_type | flag, self.sub_slot,
                                     frame_number, payload))

    def suspend(self) -> dict[int, list[bytes]]:
        """Leaves the channel without a word; gives per SAPI the messages that weren't acknowledged."""
        self.is_left = True
        self.slow_frames.clear()
        return {sapi: link.suspend() for sapi, link in self.links.items()}

    # From the data links.

    def link_established(self, link: lapdm.DataLink) -> None:
        """The link is up."""
        self.user.established(self, link.sapi)

    def link_released(self, link: lapdm.DataLink, reason: str) -> None:
        """The link is gone."""
        self.user.released(self, link.sapi, reason)

    def message_received(self, link: lapdm.DataLink, message: bytes) -> None:
        """A whole message has come."""
        self.user.received(self, link.sapi, message)

    def message_acknowledged(self, link: lapdm.DataLink, message: bytes) -> None:
        """The base station has a whole message."""
        self.user.acknowledged(self, link.sapi, message)
