# SPDX-License-Identifier: MIT OR Apache-2.0
"""A change of a mobile's channel, by handover or assignment (TS 44.018 clauses 3.4.3 and 3.4.4). Not proved."""
from __future__ import annotations

import time

from simulated_mobile import layer3, messages
from simulated_mobile.layer3 import ChannelDescription

CHANGE_LIMIT = 2.0  # T3124: how long the mobile tries the new channel before it goes back (clause 3.4.4.4, longer)
TIMER_EXPIRED = 0x03  # RR cause, clause 10.5.2.31


class Change:
    """A change of channel that isn't over: where from, what was waiting, and what is sent at its end."""

    def __init__(self, command: bytes, old: ChannelDescription, waiting: dict[int, list[bytes]]) -> None:
        self.is_handover = layer3.is_message(command, layer3.RADIO, 0x2B)
        self.cell = layer3.read_cell_description(command[2:4])[0] if self.is_handover else None
        self.old = old
        self.waiting = waiting  # by SAPI, what the old channel's links had and didn't see acknowledged
        self.behind: list[tuple[int, bytes]] = []  # what was given meanwhile
        self.deadline = time.monotonic() + CHANGE_LIMIT
        self.is_return = False
        self.is_missed = False  # the mobile doesn't find the new channel

    @property
    def last_message(self) -> bytes:
        """COMPLETE on the new channel, FAILURE on the old one."""
        if self.is_return:
            return messages.radio_message(0x28 if self.is_handover else 0x2F, TIMER_EXPIRED)
        return messages.radio_message(0x2C if self.is_handover else 0x29, 0)
