# SPDX-License-Identifier: MIT OR Apache-2.0
"""Where each mobile is, and what is known of its distance and power, as the messages that pass say. Not proved.

bsc's CHANNEL ACTIVATION doesn't say for which mobile it is. At an immediate assignment the order of a cell's link says that
(cell.py). At an assignment it is one of those in this cell whose ASSIGNMENT REQUEST bsc has, and for whom no channel was activated
since: the first of them whose channel doesn't change already, since bsc lets the request of such a one wait.
"""
from dataclasses import dataclass

from bsc_front.octets.description import Cell
from bsc_front.octets.radio import Radio, used

Place = tuple[int, int]  # a cell's number, and a channel's

# layer 3 (TS 44.018 clause 10.4): message types, with the discriminator
ASSIGNMENT_COMMAND, ASSIGNMENT_COMPLETE, ASSIGNMENT_FAILURE = b"\x06\x2E", b"\x06\x29", b"\x06\x2F"
HANDOVER_COMMAND, HANDOVER_COMPLETE, HANDOVER_FAILURE = b"\x06\x2B", b"\x06\x2C", b"\x06\x28"
COMMANDS = frozenset((ASSIGNMENT_COMMAND, HANDOVER_COMMAND))
ANSWERS = frozenset((ASSIGNMENT_COMPLETE, ASSIGNMENT_FAILURE, HANDOVER_COMPLETE, HANDOVER_FAILURE))


@dataclass(eq=False)
class Mobile:
    """A mobile, where it is, and what it was given there, or has measured last."""
    place: Place
    radio: Radio | None = None
    layer_1: bytes = b""  # L1 information of its last measurement results there, before which what it was given counts
    coming: Place | None = None  # the channel that a command has named

    def known(self) -> Radio | None:
        """What is known of its distance and power."""
        return used(self.layer_1) if self.layer_1 else self.radio


@dataclass
class Greeting:
    """A message that a mobile has connected with, and that bsc has, but not yet the switch."""
    place: Place
    identity: bytes  # location area code and cell identity
    text: bytes


class Mobiles:
    """All mobiles, by their channels."""

    def __init__(self, cells: tuple[Cell, ...] = ()) -> None:
        self.by_carrier = {(cell.arfcn, cell.bsic): cell.number for cell in cells}
        self.identities = {cell.number: cell.lac.to_bytes(2, "big") + cell.ci.to_bytes(2, "big") for cell in cells}
        self.at: dict[Place, Mobile] = {}
        self.greetings: dict[Place, Greeting] = {}
        self.wanted: list[Mobile] = []  # with an ASSIGNMENT REQUEST for which no channel was activated yet

    def begun(self, place: Place, radio: Radio) -> None:
        """A channel is activated at an immediate assignment."""
        self.left(place)
        self.at[place] = Mobile(place, radio)

    def left(self, place: Place) -> None:
        """A channel is activated anew, or released."""
        self.greetings.pop(place, None)
        one = self.at.pop(place, None)
        if one and one.coming == place:
            one.coming = None
        elif one and one.coming and one.place == place:
            self.arrived(one, one.coming)
        if one and self.at.get(one.place) is not one:
            self.answered(one)

    @staticmethod
    def arrived(one: Mobile, place: Place) -> None:
        """A mobile is on its new channel. What was known of its distance holds in the same cell alone."""
        if one.place[0] != place[0]:
            one.radio, one.layer_1 = None, b""
        one.place, one.coming = place, None

    def greeted(self, place: Place, text: bytes) -> None:
        """A mobile has connected, and says what it wants."""
        if text:
            self.greetings[place] = Greeting(place, self.identities.get(place[0], b""), text)

    def asked(self, identity: bytes, text: bytes) -> Mobile | None:
        """bsc asks the switch for a connection, in this cell and with this message: gives whose it is."""
        for place, one in self.greetings.items():
            if (one.identity, one.text) == (identity, text):
                del self.greetings[place]
                return self.at.get(place)
        return None

    def requested(self, one: Mobile | None) -> None:
        """bsc has the ASSIGNMENT REQUEST of a mobile."""
        if one and one not in self.wanted:
            self.wanted.append(one)

    def answered(self, one: Mobile | None) -> None:
        """bsc has activated a channel for the ASSIGNMENT REQUEST of a mobile, or has answered it."""
        self.wanted = [other for other in self.wanted if other is not one]

    def assigned(self, cell: int) -> Radio | None:
        """A channel is activated for an assignment in a cell: gives what is known of the mobile."""
        here = [one for one in self.wanted if one.place[0] == cell]
        for one in [one for one in here if not one.coming] or here:
            self.answered(one)
            return one.known()
        return None

    def commanded(self, place: Place, text: bytes) -> None:
        """A mobile is sent to another channel (TS 44.018 clauses 9.1.2 and 9.1.15)."""
        one, target = self.at.get(place), None
        if text[:2] == ASSIGNMENT_COMMAND and len(text) > 4:
            target = place[0], text[2]
        elif text[:2] == HANDOVER_COMMAND and len(text) > 6:
            carrier = (text[2] & 0xC0) << 2 | text[3], text[2] & 0x3F
            target = self.by_carrier.get(carrier, 0), text[4]
        if one and target:
            one.coming, self.at[target] = target, one

    def said(self, place: Place, text: bytes) -> None:
        """A mobile has said on a channel that it has come there, or that it has come back."""
        one = self.at.get(place)
        if one and text[:2] in (ASSIGNMENT_COMPLETE, HANDOVER_COMPLETE) and one.coming == place:
            self.arrived(one, place)
        elif one and text[:2] in (ASSIGNMENT_FAILURE, HANDOVER_FAILURE) and one.place == place:
            one.coming = None

    def measured(self, place: Place, layer_1: bytes) -> None:
        """The station has measured a mobile on its channel. Without L1 information what was known before holds."""
        one = self.at.get(place)
        if one and layer_1 and one.place == place:
            one.layer_1 = layer_1
