# SPDX-License-Identifier: MIT OR Apache-2.0
"""LAPDm, the data link layer of the signalling channels, on the mobile's side (TS 44.006). Not proved.

A DataLink is one SAPI on one channel. It sets the link up by SABM (with the initial message in it, so that UA settles
who of two mobiles has the channel), sends messages in I frames with a window of one, cuts those that are too long into
segments, acknowledges by RR, asks for what is missing by REJ, repeats what isn't acknowledged, and leaves by DISC.
"""
from __future__ import annotations

import time
from collections import deque
from dataclasses import dataclass
from enum import Enum
from typing import Protocol

# Control fields without the P/F bit (clause 3.4, table 4).
SABM, UA, DISC, DM, UI = 0x2F, 0x63, 0x43, 0x0F, 0x03
RR, RNR, REJ = 0x01, 0x05, 0x09
POLL_FINAL = 0x10

FILL = b"\x2b"  # clause 2.2
N201_MAIN = 20  # octets of information in a frame of SDCCH and FACCH, clause 5.8.3
N201_SACCH = 18
T200 = 1.0  # seconds, clause 5.8.1: far longer than on a real radio, for a busy machine
T200_SACCH = 5.0  # its blocks come every 480 ms, and every other one is a report
N200_ESTABLISH = 5  # repetitions, clause 5.8.2
N200_TRANSFER = 23
N200_RELEASE = 1  # DISC goes twice at most, as T3110 wants it (TS 44.018 clause 11.1.1)


class State(Enum):
    """The states of a data link (clause 5.1)."""

    RELEASED = "released"
    AWAITING_ESTABLISHMENT = "awaiting establishment"
    ESTABLISHED = "established"
    AWAITING_RELEASE = "awaiting release"


REPETITIONS = {State.AWAITING_ESTABLISHMENT: N200_ESTABLISH, State.ESTABLISHED: N200_TRANSFER,
               State.AWAITING_RELEASE: N200_RELEASE}


@dataclass(frozen=True)
class LapdmFrame:
    """A frame of format A or B: address, control, length, information (clause 2.1)."""

    sapi: int
    command_bit: bool  # C/R: set in commands of the network and in responses of the mobile (clause 3.3.2)
    control: int
    more: bool
    information: bytes

    def octets(self, length: int) -> bytes:
        """The frame, filled up to its channel's length."""
        address = self.sapi << 2 | (0x02 if self.command_bit else 0) | 0x01
        field = len(self.information) << 2 | (0x02 if self.more else 0) | 0x01
        return (bytes([address, self.control, field]) + self.information).ljust(length, FILL)


def read_lapdm(octets: bytes) -> LapdmFrame | None:
    """Reads a frame; None where it is fill or isn't one."""
    if len(octets) < 3 or not octets[0] & 0x01 or not octets[2] & 0x01:
        return None
    length = octets[2] >> 2
    if 3 + length > len(octets):
        return None
    return LapdmFrame(octets[0] >> 2 & 0x07, bool(octets[0] & 0x02), octets[1], bool(octets[2] & 0x02),
                      octets[3:3 + length])


class DataLinkUser(Protocol):
    """Who is above and below a data link: the channel."""

    def transmit(self, link: "DataLink", frame: LapdmFrame) -> None:
        """Puts a frame of the link on the air."""

    def link_established(self, link: "DataLink") -> None:
        """The link is up."""

    def link_released(self, link: "DataLink", reason: str) -> None:
        """The link is gone."""

    def message_received(self, link: "DataLink", message: bytes) -> None:
        """A whole message has come."""

    def message_acknowledged(self, link: "DataLink", message: bytes) -> None:
        """The peer has a whole message."""


class DataLink:
    """One SAPI on one channel, in multiple frame operation."""

    def __init__(self, sapi: int, is_slow: bool, user: DataLinkUser) -> None:
        self.sapi = sapi
        self.n201 = N201_SACCH if is_slow else N201_MAIN
        self.t200 = T200_SACCH if is_slow else T200
        self.user = user
        self.state = State.RELEASED
        self.outbox: deque[bytes] = deque()
        self.initial = b""
        self._reset()

    def _reset(self) -> None:
        """All state variables to 0 (clause 5.4.1.2)."""
        self.send_number = 0  # V(S), of the frame in flight or of the next one
        self.receive_number = 0  # V(R)
        self.segments: list[bytes] = []  # what of the first message in the outbox isn't acknowledged yet
        self.in_flight = False
        self.reject_sent = False
        self.received_part = b""
        self.attempts = 0
        self.timer: float | None = None

    # What the layer above asks for.

    def establish(self, initial: bytes = b"") -> None:
        """Asks for the link by SABM, with the initial message in it where there is one (clause 5.4.1)."""
        self._reset()
        self.initial = initial
        self.state = State.AWAITING_ESTABLISHMENT
        self._command(SABM | POLL_FINAL, initial)
        self._start_timer()

    def send(self, message: bytes) -> None:
        """Sends a message, behind those that wait."""
        self.outbox.append(message)
        self._send_next()

    def release(self) -> None:
        """Leaves the link by DISC (clause 5.4.4.2)."""
        if self.state is not State.ESTABLISHED:
            self._end("released")
            return
        self.state = State.AWAITING_RELEASE
        self.attempts = 0
        self._command(DISC | POLL_FINAL)
        self._start_timer()

    def suspend(self) -> list[bytes]:
        """Ends the link without a word to the peer; gives the messages that it hadn't acknowledged (clause 5.4.3)."""
        waiting = list(self.outbox)
        self.outbox.clear()
        self._reset()
        self.state = State.RELEASED
        return waiting

    def tick(self) -> None:
        """Repeats what wasn't answered within T200 (clauses 5.4.1.3, 5.4.4.3 and 5.5.7)."""
        if self.timer is None or time.monotonic() < self.timer:
            return
        self.attempts += 1
        if self.attempts > REPETITIONS[self.state]:
            self._end("no answer to the mobile's frames")
            return
        if self.state is State.AWAITING_ESTABLISHMENT:
            self._command(SABM | POLL_FINAL, self.initial)
        elif self.state is State.AWAITING_RELEASE:
            self._command(DISC | POLL_FINAL)
        else:
            self._send_information(POLL_FINAL)
        self._start_timer()

    # What comes from the peer.

    def received(self, frame: LapdmFrame) -> None:
        """Takes a frame of the base station."""
        final = frame.control & POLL_FINAL
        if not frame.control & 0x01:
            self._information_received(frame, final)
        elif frame.control & 0x03 == 0x01:
            self._supervisory_received(frame, final)
        else:
            self._unnumbered_received(frame, frame.control & ~POLL_FINAL, final)

    def _unnumbered_received(self, frame: LapdmFrame, kind: int, final: int) -> None:
        if kind == UI and frame.information:  # an empty one is fill (clause 5.2.1)
            self.user.message_received(self, frame.information)
        elif kind == SABM:
            self._establishment_received(final)
        elif kind == DISC:
            self._response((UA if self.state is State.ESTABLISHED else DM) | final)
            if self.state is not State.RELEASED:
                self._end("released by the network")
        elif kind == UA and self.state is State.AWAITING_ESTABLISHMENT:
            self._establishment_answered(frame)
        elif kind in (UA, DM) and self.state is State.AWAITING_RELEASE:
            self._end("released")
        elif kind == DM and self.state is State.AWAITING_ESTABLISHMENT:
            self._end("refused by the network")

    def _establishment_received(self, final: int) -> None:
        """The network sets the link up, or does so anew (clauses 5.4.1.2 and 5.6)."""
        again = self.state is State.ESTABLISHED
        self._reset()
        self.state = State.ESTABLISHED
        self._response(UA | final)
        if not again:
            self.user.link_established(self)
        self._send_next()

    def _establishment_answered(self, frame: LapdmFrame) -> None:
        """UA: the link is up, unless another mobile's initial message comes back (clause 5.4.1.4)."""
        self.timer = None
        if frame.information != self.initial:
            self._end("contention lost: another mobile has the channel")
            return
        self.state = State.ESTABLISHED
        self.attempts = 0
        if self.initial:
            self.user.message_acknowledged(self, self.initial)
        self.user.link_established(self)
        self._send_next()

    def _information_received(self, frame: LapdmFrame, poll: int) -> None:
        """An I frame: taken where its number is the expected one, else asked for by REJ (clause 5.5.2)."""
        if self.state is not State.ESTABLISHED:
            if poll and self.state is State.RELEASED:
                self._response(DM | POLL_FINAL)
            return
        self._acknowledged(frame.control >> 5)
        if frame.control >> 1 & 0x07 != self.receive_number:
            if not self.reject_sent or poll:
                self._response(REJ | poll | self.receive_number << 5)
            self.reject_sent = True
            return
        self.reject_sent = False
        self.receive_number = (self.receive_number + 1) % 8
        self._response(RR | poll | self.receive_number << 5)
        self.received_part += frame.information
        if not frame.more:
            message, self.received_part = self.received_part, b""
            self.user.message_received(self, message)
        self._send_next()

    def _supervisory_received(self, frame: LapdmFrame, final: int) -> None:
        """RR, RNR or REJ (clauses 5.5.3 to 5.5.5)."""
        if self.state is not State.ESTABLISHED:
            return
        if frame.command_bit and final:  # a command of the network with P: it asks for the state
            self._response(RR | POLL_FINAL | self.receive_number << 5)
        self._acknowledged(frame.control >> 5)
        if frame.control & 0x0F == REJ and self.in_flight:
            self._send_information(0)
            self._start_timer()
        self._send_next()

    def _acknowledged(self, receive_number: int) -> None:
        """N(R) of the peer acknowledges the frame in flight (clause 5.5.3.2)."""
        following = (self.send_number + 1) % 8
        if not self.in_flight or receive_number != following:
            return
        self.send_number = following
        self.in_flight = False
        self.timer = None
        self.attempts = 0
        del self.segments[0]
        if not self.segments:
            self.user.message_acknowledged(self, self.outbox.popleft())

    # What goes to the peer.

    def _send_next(self) -> None:
        """Sends the next segment where none is in flight: the window k is 1 (clause 5.8.4)."""
        if self.state is not State.ESTABLISHED or self.in_flight or not self.outbox:
            return
        if not self.segments:
            message = self.outbox[0]
            self.segments = [message[at:at + self.n201] for at in range(0, len(message), self.n201)]
        self.in_flight = True
        self._send_information(0)
        self._start_timer()

    def _send_information(self, poll: int) -> None:
        control = self.receive_number << 5 | poll | self.send_number << 1
        self._command(control, self.segments[0], len(self.segments) > 1)

    def _command(self, control: int, information: bytes = b"", more: bool = False) -> None:
        self.user.transmit(self, LapdmFrame(self.sapi, False, control, more, information))

    def _response(self, control: int) -> None:
        self.user.transmit(self, LapdmFrame(self.sapi, True, control, False, b""))

    def _start_timer(self) -> None:
        self.timer = time.monotonic() + self.t200

    def _end(self, reason: str) -> None:
        self._reset()
        self.state = State.RELEASED
        self.user.link_released(self, reason)
