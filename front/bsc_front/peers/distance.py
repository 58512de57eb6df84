# SPDX-License-Identifier: MIT OR Apache-2.0
"""Adds to CHANNEL ACTIVATION of bsc what is known of the mobile's distance and power. Not proved.

bsc takes the frames of a cell's link in order, and what it answers them by goes in that order, too, its PONG to each PING among it.
So with a PING behind each CHANNEL REQUIRED, an activation before the PONG answers this one, and one behind it a later one.
"""
from collections import deque

from bsc_front.octets import radio, rsl
from bsc_front.octets.description import Cell
from bsc_front.octets.radio import Radio
from bsc_front.tables.mobiles import ANSWERS, COMMANDS, Mobiles, Place


class Distance:
    """What passes between a cell's station and bsc, as far as it says where mobiles are, and how far away."""

    def __init__(self, cell: Cell, mobiles: Mobiles) -> None:
        self.cell = cell
        self.mobiles = mobiles
        self.delays: deque[int | None] = deque()  # of each CHANNEL REQUIRED behind which PONG hasn't come

    def place(self, body: bytes) -> Place:
        """The cell and the channel of a message."""
        return self.cell.number, rsl.channel_of(body)

    def joined(self) -> None:
        """A new link to bsc."""
        self.delays.clear()

    def required(self, body: bytes) -> None:
        """bsc is given a CHANNEL REQUIRED, and PING behind it."""
        self.delays.append(radio.access_delay(body))

    def ponged(self) -> None:
        """bsc has answered a CHANNEL REQUIRED by all that it has for it."""
        if self.delays:
            self.delays.popleft()

    def from_bsc(self, body: bytes) -> bytes:
        """A message of bsc that goes to the station, as the station is to have it."""
        message = rsl.message_of(body)
        if message == rsl.DATA_REQUEST:
            if body[rsl.LAYER_3_TYPE] in COMMANDS:
                self.mobiles.commanded(self.place(body), radio.layer_3_of(body))
        elif message == rsl.CHANNEL_ACTIVATION:
            return self.activated(body, self.place(body))
        elif message == rsl.RF_CHANNEL_RELEASE:
            self.mobiles.left(self.place(body))
        return body

    def activated(self, body: bytes, place: tuple[int, int]) -> bytes:
        """CHANNEL ACTIVATION: the distance is known but at a handover."""
        kind, one = radio.activation_type(body), Radio(self.cell.ms_power)
        if kind == radio.IMMEDIATE_ASSIGNMENT:
            one = Radio(self.cell.ms_power, self.delays[0] if self.delays else None)
            self.mobiles.begun(place, one)
        elif kind == radio.ASSIGNMENT:
            one = self.mobiles.assigned(self.cell.number) or one
            self.mobiles.left(place)
        else:
            self.mobiles.left(place)
        return radio.with_radio(body, one)

    def from_station(self, body: bytes) -> None:
        """A message of the station that goes to bsc."""
        message = rsl.message_of(body)
        if message == rsl.DATA_INDICATION:
            if body[rsl.LAYER_3_TYPE] in ANSWERS:
                self.mobiles.said(self.place(body), radio.layer_3_of(body))
        elif message == rsl.MEASUREMENT_RESULT:
            self.measured(body)
        elif message == rsl.ESTABLISH_INDICATION:
            self.mobiles.greeted(self.place(body), radio.layer_3_of(body))
        elif message == rsl.CHANNEL_REQUIRED:
            self.required(body)

    def measured(self, body: bytes) -> None:
        """A MEASUREMENT RESULT of the station."""
        self.mobiles.measured(self.place(body), radio.layer_1_of(body))

    def forget(self) -> None:
        """The station or bsc has ended, and with it all mobiles of the cell."""
        for number in self.cell.channels:
            self.mobiles.left((self.cell.number, number))
