# SPDX-License-Identifier: MIT OR Apache-2.0
"""The state of each channel of a cell, as the messages that pass make it (TS 48.058 clauses 4.1, 4.7 and 4.10). Not proved.

This table alone says what bsc and the station have of a channel, and so what each is to hear when the other one goes away.
"""
from collections.abc import Iterable
from enum import Enum

from bsc_front.octets import rsl


class State(Enum):
    """What a channel is in."""
    FREE = "free"
    ACTIVATING = "activating"  # the station has CHANNEL ACTIVATION, and hasn't answered it
    ACTIVE = "active"  # it has acknowledged it
    RELEASING = "releasing"  # it has RF CHANNEL RELEASE, and hasn't acknowledged it
    LOST = "lost"  # its station went away: bsc has CONNECTION FAILURE INDICATION, and hasn't released the channel yet


class Verdict(Enum):
    """What becomes of a message of bsc."""
    PASS = "passed on"
    REFUSE = "answered by CHANNEL ACTIVATION NACK"
    ACKNOWLEDGE = "answered by RF CHANNEL RELEASE ACKNOWLEDGE"
    DROP = "dropped"


AT_STATION = (State.ACTIVATING, State.ACTIVE, State.RELEASING)  # the station that is there knows the channel


class Channels:
    """The channels of a cell. While no station is there, each is free or lost."""

    def __init__(self, numbers: Iterable[int]) -> None:
        self.states = dict.fromkeys(numbers, State.FREE)
        # by how they begin, the messages that are frequent and of channels that the station knows
        self.requests: dict[bytes, int] = {}
        self.indications: dict[bytes, int] = {}

    def change(self, number: int, state: State) -> None:
        """Notes the state of a channel."""
        self.states[number] = state
        for message, known in ((rsl.DATA_REQUEST, self.requests), (rsl.DATA_INDICATION, self.indications),
                               (rsl.MEASUREMENT_RESULT, self.indications)):
            for head in rsl.heads(message, number):
                known.pop(head, None)
                if state in AT_STATION:
                    known[head] = message

    def from_bsc(self, message: int, number: int, is_station_there: bool) -> Verdict:
        """Takes a message of bsc on a channel."""
        state = self.states.get(number)
        if state is None:
            return Verdict.DROP
        if message == rsl.CHANNEL_ACTIVATION:
            self.change(number, State.ACTIVATING if is_station_there else State.FREE)
            return Verdict.PASS if is_station_there else Verdict.REFUSE
        if message == rsl.RF_CHANNEL_RELEASE:
            self.change(number, State.RELEASING if state in AT_STATION else State.FREE)
            return Verdict.PASS if state in AT_STATION else Verdict.ACKNOWLEDGE
        return Verdict.PASS if state in AT_STATION else Verdict.DROP

    def assigns(self, number: int) -> bool:
        """Whether a mobile may be sent to a channel by IMMEDIATE ASSIGN COMMAND: the station that is there has activated it."""
        return self.states.get(number) == State.ACTIVE

    def from_station(self, message: int, number: int) -> bool:
        """Takes a message of the station on a channel. Gives whether bsc is to have it."""
        state = self.states.get(number)
        if state not in AT_STATION:
            return False
        if message not in rsl.CHANGES_CHANNEL:
            return True
        if message == rsl.RF_CHANNEL_RELEASE_ACK:
            if state != State.RELEASING:
                return False
            self.change(number, State.FREE)
        elif state == State.ACTIVATING and message == rsl.CHANNEL_ACTIVATION_ACK:
            self.change(number, State.ACTIVE)
        elif state == State.ACTIVATING and message == rsl.CHANNEL_ACTIVATION_NACK:
            self.change(number, State.FREE)
        return True

    def station_left(self) -> list[tuple[int, int]]:
        """The station went away. Gives what bsc is to hear, as message and channel: what a station says that lost its mobiles."""
        said = {State.ACTIVATING: (rsl.CHANNEL_ACTIVATION_NACK, State.FREE),
                State.ACTIVE: (rsl.CONNECTION_FAILURE, State.LOST),
                State.RELEASING: (rsl.RF_CHANNEL_RELEASE_ACK, State.FREE)}
        found = []
        for number, state in self.states.items():
            if state in said:
                message, after = said[state]
                self.change(number, after)
                found.append((message, number))
        return found

    def bsc_left(self) -> list[int]:
        """bsc ended. Gives the channels that the station has to be asked to release."""
        found = []
        for number, state in self.states.items():
            if state in (State.ACTIVATING, State.ACTIVE):
                self.change(number, State.RELEASING)
                found.append(number)
            elif state == State.LOST:
                self.change(number, State.FREE)
        return found

    def in_use(self) -> dict[int, State]:
        """The channels that aren't free."""
        return {number: state for number, state in self.states.items() if state != State.FREE}
