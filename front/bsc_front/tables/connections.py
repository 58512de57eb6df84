# SPDX-License-Identifier: MIT OR Apache-2.0
"""The connections of SCCP between bsc and the switch, each of two coupled sections, as at a relay point (Q.714). Not proved.

Each connection has a number of the front's, which both sides know as the other side's reference. So what one side says of a
connection that the other one has lost never reaches a new life of it, which may give the same references anew. This table
alone says what each side has of a connection, and so what it is to hear when the other one goes away.
"""
from collections import Counter
from dataclasses import dataclass
from enum import Enum

from bsc_front.octets import sccp
from bsc_front.tables.mobiles import Mobile

REFERENCES = 1 << 24


class Side(Enum):
    """Whom a message is for."""
    BSC = "bsc"
    SWITCH = "switch"


class Stage(Enum):
    """How far a connection is."""
    ASKED = "asked"  # the switch has CR, and hasn't answered it
    OPEN = "open"  # bsc has CC
    RELEASED = "released"  # bsc has the switch's RLSD, and hasn't answered it
    LEFT_BY_SWITCH = "left by the switch"  # bsc has RLSD of the front, and hasn't answered it
    LEFT_WHILE_ASKED = "left by bsc before the switch answered"
    LEFT_BY_BSC = "left by bsc"  # the switch has RLSD of the front, and hasn't answered it


AT_BOTH = (Stage.OPEN, Stage.RELEASED)

Messages = list[tuple[Side, bytes]]


@dataclass
class Connection:
    """A connection, and the references that bsc and the switch have given it; the switch's is empty before CC."""
    number: bytes
    bsc: bytes
    switch: bytes = b""
    stage: Stage = Stage.ASKED
    asks_speech: bool = False
    mobile: Mobile | None = None  # whose it is, where that is known
    is_idle: bool = False  # nothing has gone to the switch since the last inactivity tests were due


class Connections:
    """All connections, by the front's number."""

    def __init__(self) -> None:
        self.by_number: dict[bytes, Connection] = {}
        self.last = 0
        self.dropped: Counter[str] = Counter()

    def find(self, body: bytes) -> Connection | None:
        """The connection that a message is of."""
        return self.by_number.get(body[sccp.REFERENCE])

    def open(self, body: bytes) -> Connection:
        """Takes CR of bsc: a new connection. What the switch gets is this message with the connection's number."""
        while True:
            self.last = self.last % (REFERENCES - 1) + 1
            number = self.last.to_bytes(3, "big")
            if number not in self.by_number:
                break
        self.by_number[number] = found = Connection(number, body[sccp.REFERENCE])
        return found

    def drop(self, side: Side, body: bytes) -> Messages:
        """Counts a message that fits nothing."""
        self.dropped[f"{sccp.NAMES[body[0]]} of {side.value}"] += 1
        return []

    def dtap_of_bsc(self, body: bytes) -> bytes:
        """A mobile's message that passes: what the switch gets, with its reference. Nothing of all that is to be looked at."""
        one = self.by_number.get(body[sccp.REFERENCE])
        if not one or one.stage not in AT_BOTH or not sccp.has_dtap(body):
            return b""
        one.is_idle = False
        return sccp.with_reference(body, one.switch)

    def dtap_of_switch(self, body: bytes) -> bytes:
        """A message to a mobile that passes: what bsc gets, with its reference. Nothing of all that is to be looked at."""
        one = self.by_number.get(body[sccp.REFERENCE])
        return sccp.with_reference(body, one.bsc) if one and one.stage is Stage.OPEN and sccp.has_dtap(body) else b""

    def from_bsc(self, body: bytes) -> Messages:
        """Takes any other message of bsc."""
        kind, one = body[0], self.find(body)
        if kind == sccp.RELEASED:
            answer = (Side.BSC, sccp.release_complete(body[sccp.SECOND_REFERENCE], body[sccp.REFERENCE]))
            return [answer] + (self.leave(one) if one else [])
        if one and kind == sccp.RELEASE_COMPLETE and one.stage in (Stage.RELEASED, Stage.LEFT_BY_SWITCH):
            del self.by_number[one.number]
            return [(Side.SWITCH, sccp.addressed(body, one.switch, one.number))] if one.stage == Stage.RELEASED else []
        if one and kind == sccp.DATA_FORM_1 and one.stage in AT_BOTH:
            one.is_idle = False
            return [(Side.SWITCH, sccp.addressed(body, one.switch))]
        return self.drop(Side.BSC, body)

    def from_switch(self, body: bytes) -> Messages:
        """Takes a message of the switch of a connection."""
        kind, one = body[0], self.find(body)
        if kind == sccp.CONNECTION_CONFIRM:
            return self.confirmed(one, body)
        if kind == sccp.RELEASED:
            return self.released(one, body)
        if one and kind == sccp.CONNECTION_REFUSED and one.stage in (Stage.ASKED, Stage.LEFT_WHILE_ASKED):
            del self.by_number[one.number]
            return [(Side.BSC, sccp.addressed(body, one.bsc))] if one.stage == Stage.ASKED else []
        if one and kind == sccp.RELEASE_COMPLETE and one.stage == Stage.LEFT_BY_BSC:
            del self.by_number[one.number]
            return []
        if one and kind == sccp.DATA_FORM_1 and one.stage == Stage.OPEN:
            return [(Side.BSC, sccp.addressed(body, one.bsc))]
        if one and kind == sccp.INACTIVITY_TEST and one.stage in AT_BOTH:  # Q.714 clause 3.4: it says that the switch is there
            return []
        return self.drop(Side.SWITCH, body)

    def confirmed(self, one: Connection | None, body: bytes) -> Messages:
        """CC. What nobody waits for any more is released."""
        if one and one.stage == Stage.ASKED:
            one.switch, one.stage = body[sccp.SECOND_REFERENCE], Stage.OPEN
            return [(Side.BSC, sccp.addressed(body, one.bsc, one.number))]
        if one and one.stage == Stage.LEFT_WHILE_ASKED:
            one.switch, one.stage = body[sccp.SECOND_REFERENCE], Stage.LEFT_BY_BSC
        elif one:
            return self.drop(Side.SWITCH, body)
        return [(Side.SWITCH, sccp.released(body[sccp.SECOND_REFERENCE], body[sccp.REFERENCE]))]

    def released(self, one: Connection | None, body: bytes) -> Messages:
        """RLSD of the switch: bsc answers it, or the front where bsc has nothing of the connection any more."""
        if one and one.stage in (Stage.ASKED, Stage.OPEN):
            one.switch, one.stage = body[sccp.SECOND_REFERENCE], Stage.RELEASED
            return [(Side.BSC, sccp.addressed(body, one.bsc, one.number))]
        if one and one.stage == Stage.RELEASED:
            return self.drop(Side.SWITCH, body)
        if one and one.stage != Stage.LEFT_BY_SWITCH:  # of such a one bsc still owes RLC
            del self.by_number[one.number]
        return [(Side.SWITCH, sccp.release_complete(body[sccp.SECOND_REFERENCE], body[sccp.REFERENCE]))]

    def leave(self, one: Connection) -> Messages:
        """bsc has nothing of a connection any more. Gives what the switch is to hear."""
        if one.stage == Stage.ASKED:
            one.stage = Stage.LEFT_WHILE_ASKED
        elif one.stage == Stage.OPEN:
            one.stage = Stage.LEFT_BY_BSC
            return [(Side.SWITCH, sccp.released(one.switch, one.number))]
        elif one.stage == Stage.RELEASED:
            del self.by_number[one.number]
            return [(Side.SWITCH, sccp.release_complete(one.switch, one.number))]
        elif one.stage == Stage.LEFT_BY_SWITCH:
            del self.by_number[one.number]
        return []

    def bsc_left(self) -> Messages:
        """bsc ended. Gives what the switch is to hear."""
        return [message for one in list(self.by_number.values()) for message in self.leave(one)]

    def switch_left(self) -> Messages:
        """The switch ended, or has reset itself. Gives what bsc is to hear."""
        found: Messages = []
        for one in list(self.by_number.values()):
            if one.stage == Stage.ASKED:
                found.append((Side.BSC, sccp.refused(one.bsc)))
            elif one.stage == Stage.OPEN:
                found.append((Side.BSC, sccp.released(one.bsc, one.number)))
            if one.stage in AT_BOTH:
                one.stage = Stage.LEFT_BY_SWITCH
            elif one.stage != Stage.LEFT_BY_SWITCH:
                del self.by_number[one.number]
        return found

    def switch_is_reset(self) -> None:
        """The switch has acknowledged a RESET: of what bsc has left it has nothing any more, either."""
        for one in list(self.by_number.values()):
            if one.stage in (Stage.LEFT_BY_BSC, Stage.LEFT_WHILE_ASKED):
                del self.by_number[one.number]

    def test_inactivity(self) -> Messages:
        """IT for each open connection over which nothing has gone to the switch since this was asked last (Q.714 clause 3.4)."""
        idle = [one for one in self.by_number.values() if one.stage == Stage.OPEN and one.is_idle]
        for one in self.by_number.values():
            one.is_idle = True
        return [(Side.SWITCH, sccp.inactivity_test(one.switch, one.number)) for one in idle]

    def by_stage(self) -> dict[str, int]:
        """How many connections are in each stage."""
        return dict(Counter(one.stage.value for one in self.by_number.values()))
