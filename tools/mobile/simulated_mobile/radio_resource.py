# SPDX-License-Identifier: MIT OR Apache-2.0
"""Radio resource management of a mobile (TS 44.018): channel request, handover, assignment, release. Not proved.

This virtual radio knows no access burst on a dedicated channel, so a handover is the SABM on the new channel alone, as
in a change within one cell, and HANDOVER COMPLETE behind it (clause 3.4.4.3). Ciphering and hopping are left out.
"""
from __future__ import annotations

import random
import time
from typing import Protocol

from simulated_mobile import gsmtap, layer3, messages
from simulated_mobile.lapdm import State
from simulated_mobile.layer3 import ChannelDescription
from simulated_mobile.cells import Cells
from simulated_mobile.change import Change
from simulated_mobile.channel import DedicatedChannel
from simulated_mobile.journal import Journal

REQUEST_INTERVAL = 2.0  # seconds between two channel requests (TS 44.018 clause 3.3.1.1.2, slower)
REQUEST_LIMIT = 8
SILENCE_LIMIT = 10.0  # seconds without a block on a SACCH that was heard: radio link failure (clause 3.4.13)

PROTOCOL_ERROR = 0x6F  # RR cause, clause 10.5.2.31


class RadioUser(Protocol):
    """Who is above: mobility management."""

    def paged(self, identity: bytes) -> None:
        """The network calls an identity."""

    def disconnected(self) -> None:
        """The channel is gone."""

    def received(self, sapi: int, message: bytes) -> None:
        """A message of the network for the layer above has come."""


class RadioResource:
    """The one radio connection of a mobile."""

    def __init__(self, radio: gsmtap.VirtualRadio, cells: Cells, journal: Journal) -> None:
        self.radio = radio
        self.cells = cells
        self.journal = journal
        self.user: RadioUser | None = None
        self.channel: DedicatedChannel | None = None
        self.change: Change | None = None
        self.initial: bytes | None = None  # what the channel is asked for
        self.reason = messages.REASON_OTHER_ON_SDCCH
        self.references: list[bytes] = []
        self.requests = 0
        self.next_request = 0.0
        self.serving_level = 40
        self.neighbour_levels: dict[int, int] = {}
        self.forgets = False
        self.misses_change = False
        self.last_numbered: bytes | None = None

    # What the layer above asks for.

    @property
    def is_idle(self) -> bool:
        """Whether there is no channel and none is asked for."""
        return self.channel is None and self.initial is None

    def connect(self, initial: bytes, reason: tuple[int, int]) -> None:
        """Asks for a channel, and says on it why (TS 44.018 clause 3.3.1.1)."""
        self.initial, self.reason = initial, reason
        self.references.clear()
        self.requests = 0
        self.last_numbered = None
        self._request()

    def send(self, sapi: int, message: bytes, mark: str = "") -> bool:
        """Sends a message, on SAPI 3 behind the establishment of its link; False where there is no channel."""
        if self.channel is None:
            return False
        if self.change is not None:
            self.change.behind.append((sapi, message))
            return True
        self.journal.message("up", f"SAPI {sapi}, {self.channel.place.name}{mark}", message)
        link = self.channel.links[sapi]
        link.send(message)
        if sapi == 3 and link.state is State.RELEASED:
            link.establish()
        return True

    def drop(self, reason: str = "dropped") -> None:
        """Leaves the channel without a word, as a mobile that lost its radio."""
        if self.channel is not None:
            self.channel.suspend()
            self._idle(reason)

    # The air.

    def take(self, frame: gsmtap.Frame) -> None:
        """Takes a block of the downlink."""
        if self.channel is not None and self.channel.is_mine(frame):
            self.channel.take(frame)
        elif frame.channel_type in (gsmtap.BCCH, gsmtap.CCCH):
            self.cells.take(frame)
            if self.channel is None and frame.arfcn == self.cells.serving:
                self._take_common(frame.payload)

    def _take_common(self, block: bytes) -> None:
        """Access grants and paging of the serving cell."""
        place_name = f"ARFCN {self.cells.serving}"
        for reference in self.references:
            place = layer3.read_immediate_assignment(block, reference)
            if place is not None:
                self.journal.message("down", place_name, block[1:].rstrip(b"\x2b"))
                self._enter(place)
                return
            if layer3.is_rejected(block, reference):
                self.journal.message("down", place_name, block[1:].rstrip(b"\x2b"))
                self._idle("the network rejected the channel request")
                return
        if self.initial is None and self.user is not None:
            for identity in layer3.paged_identities(block):
                self.user.paged(identity)

    def tick(self) -> None:
        """What time brings: repeated requests, the end of a change, a lost channel."""
        now = time.monotonic()
        if self.channel is None:
            if self.initial is not None and now >= self.next_request:
                self._request()
            return
        if self.change is None or not self.change.is_missed:
            self.channel.tick()
        if self.change is not None and not self.change.is_return and now >= self.change.deadline:
            self._return()
        elif self.channel is not None and self.channel.is_silent(SILENCE_LIMIT):
            self.drop("radio link failure")

    def _request(self) -> None:
        """CHANNEL REQUEST: reason and random bits in one octet (TS 44.018 clause 9.1.8)."""
        if self.requests == REQUEST_LIMIT or self.cells.serving is None:
            self._idle("no channel: no answer to the channel requests")
            return
        fixed, bits = self.reason
        octet = fixed | random.getrandbits(bits)
        number = (self.cells.frame_number + random.randrange(51)) % gsmtap.HYPERFRAME
        self.references = self.references[-2:] + [layer3.request_reference(octet, number)]
        self.requests += 1
        self.next_request = time.monotonic() + REQUEST_INTERVAL
        self.journal.event("CHANNEL REQUEST", f"{octet:02x} (ARFCN {self.cells.serving})")
        self.radio.send(gsmtap.Frame(self.cells.serving, 0, gsmtap.RACH, 0, number, bytes([octet])))

    def _enter(self, place: ChannelDescription) -> None:
        """The assigned channel: SABM with the initial message (TS 44.018 clause 3.3.1.1.3)."""
        initial, self.initial = self.initial, None
        self.references.clear()
        if initial is None or not DedicatedChannel.is_known(place):
            self._idle("no channel that this mobile can use")
            return
        self.channel = DedicatedChannel(self.radio, place, self)
        self.journal.message("up", f"SAPI 0, {place.name}, in SABM", initial)
        self.channel.links[0].establish(initial)

    def _idle(self, reason: str) -> None:
        self.channel = None
        self.change = None
        self.initial = None
        self.references.clear()
        self.journal.event("idle", reason)
        if self.user is not None:
            self.user.disconnected()

    # Changes of channel.

    def _change_channel(self, command: bytes, at: int) -> None:
        """HANDOVER COMMAND or ASSIGNMENT COMMAND, whose channel description begins at this octet."""
        assert self.channel is not None
        place = layer3.read_channel_description(command[at:at + 3])
        if place is None or not DedicatedChannel.is_known(place):
            kind = 0x28 if layer3.is_message(command, layer3.RADIO, 0x2B) else 0x2F
            self.send(0, messages.radio_message(kind, PROTOCOL_ERROR))
            return
        waiting = self.channel.suspend()
        waiting[0] = [message for message in waiting[0] if layer3.discriminator(message) != layer3.RADIO]
        if self.forgets and self.last_numbered is not None:
            self.journal.event("forgotten", "that the last numbered message was acknowledged")
            waiting[0].insert(0, self.last_numbered)
            self.forgets = False
        self.change = Change(command, self.channel.place, waiting)
        self.channel = DedicatedChannel(self.radio, place, self)
        if self.misses_change:
            self.misses_change = False
            self.change.is_missed = True
            self.journal.event("missed", place.name)
        else:
            self.channel.links[0].establish()

    def _return(self) -> None:
        """Back on the old channel, with FAILURE (TS 44.018 clauses 3.4.3.3 and 3.4.4.4)."""
        assert self.change is not None and self.channel is not None
        self.channel.suspend()
        self.change.is_return, self.change.is_missed = True, False
        self.channel = DedicatedChannel(self.radio, self.change.old, self)
        self.journal.event("back", self.channel.place.name)
        self.channel.links[0].establish()

    def _change_done(self) -> None:
        """Layer 2 is up: COMPLETE or FAILURE, and behind it what waited (TS 44.018 clauses 3.4.3.1 and 3.4.4.3)."""
        change, self.change = self.change, None
        assert change is not None and self.channel is not None
        self.send(0, change.last_message)
        if change.cell is not None and not change.is_return:
            self.cells.serving = change.cell
        for sapi, waiting in change.waiting.items():
            for message in waiting:
                self.send(sapi, message, ", again")
        for sapi, message in change.behind:
            self.send(sapi, message)

    # From the channel.

    def report(self) -> bytes:
        """The MEASUREMENT REPORT for the SACCH's next block."""
        assert self.channel is not None
        report = layer3.measurement_report(self.serving_level, self.cells.neighbours(self.neighbour_levels))
        self.journal.repeated("up", f"SACCH, {self.channel.place.name}", report)
        return report

    def established(self, channel: DedicatedChannel, sapi: int) -> None:
        """A link is up."""
        self.journal.event("established", f"SAPI {sapi}, {channel.place.name}")
        if sapi == 0 and self.change is not None:
            self._change_done()

    def released(self, channel: DedicatedChannel, sapi: int, reason: str) -> None:
        """A link is gone: that of SAPI 0 with the connection, or with the change that wanted it."""
        self.journal.event("released", f"SAPI {sapi}, {channel.place.name}, {reason}")
        if channel is not self.channel or sapi != 0:
            return
        if self.change is not None and not self.change.is_return:
            self._return()
            return
        self.drop(reason)

    def acknowledged(self, channel: DedicatedChannel, sapi: int, message: bytes) -> None:
        """The base station has a message: it isn't sent again, unless a command has the mobile forget that."""
        if sapi == 0 and len(message) >= 2 and layer3.discriminator(message) in layer3.NUMBERED:
            self.last_numbered = message

    def received(self, channel: DedicatedChannel, sapi: int, message: bytes) -> None:
        """A message of the network."""
        if len(message) < 2:
            return
        if sapi == 0 and message[:2] in (b"\x06\x1d", b"\x06\x1e"):  # SYSTEM INFORMATION TYPE 5, 6
            self.journal.repeated("down", f"SACCH, {channel.place.name}", message)
            self.cells.take_slow(self.cells.serving, message)
            return
        self.journal.message("down", f"SAPI {sapi}, {channel.place.name}", message)
        if layer3.discriminator(message) == layer3.RADIO:
            self._radio_message(channel, message)
        elif self.user is not None:
            self.user.received(sapi, message)

    def _radio_message(self, channel: DedicatedChannel, message: bytes) -> None:
        """What the network wants of radio resource management."""
        kind = layer3.message_type(message)
        if kind == 0x2B and len(message) >= 9:
            self.cells.learn(*layer3.read_cell_description(message[2:4]))
            self._change_channel(message, 4)
        elif kind == 0x2E and len(message) >= 6:
            self._change_channel(message, 2)
        elif kind == 0x0D:
            channel.links[0].release()
        elif kind == 0x13:
            self.send(0, messages.classmark_change(self.cells.subscriber))
        elif kind == 0x10:
            self.send(0, b"\x06\x17" + message[2:6])
        elif kind == 0x35 and len(message) >= 3 and not message[2] & 0x01:
            self.send(0, messages.CIPHERING_MODE_COMPLETE)
