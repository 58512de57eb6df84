# SPDX-License-Identifier: MIT OR Apache-2.0
"""Call control of a mobile (TS 24.008 clause 5): one speech call, without speech. Not proved.

A call to the mobile is answered at once. The assignment of a traffic channel in between is radio resource management's.
"""
from __future__ import annotations

from simulated_mobile import layer3
from simulated_mobile.journal import Journal
from simulated_mobile.messages import number_digits
from simulated_mobile.mobility import Mobility

OTHER_SIDE = 0x80  # the flag of the transaction identifier: who gave it (TS 24.007 clause 11.2.3.1.3)
SPEECH = bytes([0x04, 0x02, 0x20, 0x80])  # bearer capability: full rate speech, version 1 (clause 10.5.4.5)
NORMAL_CLEARING = bytes([0x02, 0xE0, 0x90])  # cause, with its length (clause 10.5.4.11)

SETUP, ALERTING, CONNECT, CALL_CONFIRMED, CONNECT_ACKNOWLEDGE = 0x05, 0x01, 0x07, 0x08, 0x0F
DISCONNECT, RELEASE, RELEASE_COMPLETE = 0x25, 0x2D, 0x2A


class Calls:
    """The one call of a mobile."""

    def __init__(self, mobility: Mobility, journal: Journal) -> None:
        self.mobility = mobility
        self.journal = journal
        self.number: str | None = None
        self.transaction: int | None = None  # the first octet of what the mobile sends
        mobility.users[layer3.CALL_CONTROL] = self

    def call(self, number: str) -> bool:
        """Calls a number: asks for the service first."""
        self.number = number
        return self.mobility.service("call", self)

    def hang_up(self) -> bool:
        """Ends the call (clause 5.4.3)."""
        return self.transaction is not None and self._send(DISCONNECT, NORMAL_CLEARING)

    def accepted(self) -> None:
        """The network gives the service: SETUP."""
        if self.number is None:
            return
        digits = number_digits(self.number)
        self.transaction = layer3.CALL_CONTROL
        self.number = None
        self._send(SETUP, SPEECH + bytes([0x5E, 1 + len(digits), 0x81]) + digits)

    def ended(self) -> None:
        """The channel is gone, and the call with it."""
        self.number = self.transaction = None

    def received(self, message: bytes) -> None:
        """A message of the other side's call control."""
        kind = layer3.message_type(message)
        if kind == SETUP:
            self.transaction = message[0] ^ OTHER_SIDE
            self._send(CALL_CONFIRMED, SPEECH)
            self._send(ALERTING)
            self._send(CONNECT)
        elif kind == CONNECT:
            self._send(CONNECT_ACKNOWLEDGE)
            self.journal.event("call active")
        elif kind == CONNECT_ACKNOWLEDGE:
            self.journal.event("call active")
        elif kind == DISCONNECT:
            self._send(RELEASE)
        elif kind == RELEASE:
            self._send(RELEASE_COMPLETE)
            self._over()
        elif kind == RELEASE_COMPLETE:
            self._over()

    def _send(self, kind: int, elements: bytes = b"") -> bool:
        if self.transaction is None:
            return False
        return self.mobility.send(0, bytes([self.transaction, kind]) + elements)

    def _over(self) -> None:
        self.transaction = None
        self.journal.event("call over")
