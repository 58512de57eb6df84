# SPDX-License-Identifier: MIT OR Apache-2.0
"""A world of tests/model whose messages are there once, and in which it is kept what was said."""
from lib.octets import is_command
from lib.order import Spoken
from model.world import World, discriminator

RADIO_RESOURCE = 6


class Unique:
    """Makes of a random event one whose message no other event has."""

    def __init__(self, with_control):
        self.with_control = with_control  # whether the switch says messages of radio resource management too
        self.count = 0

    def __call__(self, event):
        """The event, or None where its message can't be told from one of the controller."""
        kind, *words = event
        if kind == "connect":
            number, station, initial, takes_short = words
            return kind, number, station, initial + bytes([number]), takes_short
        if kind != "upper" and words[:1] != ["dtap"]:
            return event
        if kind == "switchdoes" and discriminator(words[-1]) == RADIO_RESOURCE and (is_command(words[-1]) or not self.with_control):
            return None
        self.count += 1
        return kind, *words[:-1], words[-1] + bytes([words[kind == "switchdoes"] & 63]) + self.count.to_bytes(2, "big")


class Telling(World):
    """The world, with what upper layers said."""

    def __init__(self, settings):
        super().__init__(settings)
        self.spoken = Spoken(settings.modulus)

    def connect(self, number, station, initial, takes_short):
        was_taken = super().connect(number, station, initial, takes_short)
        if was_taken:
            self.spoken.connects(number, initial)
        return was_taken

    def upper(self, number, sapi, message):
        was_taken = super().upper(number, sapi, message)
        if was_taken:
            self.spoken.up(number, sapi, message)
        return was_taken

    def switchdoes(self, what, number, *words):
        was_taken = super().switchdoes(what, number, *words)
        if was_taken and what == "dtap":
            self.spoken.down(number, *words)
        return was_taken

    def openers(self):
        """By connection of the switch, the message that it began with."""
        return {number: reception.taken[0] for number, reception in enumerate(self.receptions, 1)}
