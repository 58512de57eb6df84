# SPDX-License-Identifier: MIT OR Apache-2.0
"""The commands that drive a mobile; mobile.py says what they are called and do. Not proved."""
from __future__ import annotations

import time

from simulated_mobile.calls import Calls
from simulated_mobile.cells import Cells
from simulated_mobile.journal import Journal, complain
from simulated_mobile.mobility import LOCATION_UPDATING_KINDS, SERVICES, Mobility
from simulated_mobile.radio_resource import RadioResource
from simulated_mobile.short_messages import ShortMessages, is_sendable

STATUS_FAILED = 1
STATUS_UNKNOWN = 2


class Commands:
    """Does one command after another; a wait or a pause holds back the next one."""

    def __init__(self, resource: RadioResource, mobility: Mobility, cells: Cells, journal: Journal) -> None:
        self.resource = resource
        self.mobility = mobility
        self.cells = cells
        self.journal = journal
        self.calls = Calls(mobility, journal)
        self.short_messages = ShortMessages(mobility, journal)
        self.status: int | None = None
        self.awaited: str | None = None
        self.deadline = 0.0

    def is_free(self, now: float) -> bool:
        """Whether the last command is done; ends the mobile where a wait was in vain."""
        if self.status is not None:
            return False
        if self.awaited is None:
            return now >= self.deadline
        if self.journal.look_for(self.awaited):
            self.awaited = None
            self.deadline = 0.0
            return True
        if now >= self.deadline:
            complain(f"waited in vain for {self.awaited}")
            self.end(STATUS_FAILED)
        return False

    def end(self, status: int) -> None:
        """Ends the mobile."""
        self.status = status

    def do(self, line: str) -> None:
        """Does the command of a line."""
        words = line.split("#")[0].split()
        if not words:
            return
        name, values = words[0].lower(), words[1:]
        action = getattr(self, "_" + name.replace("-", "_"), None)
        if name not in NAMES or action is None:
            complain(f"unknown command: {line.strip()}")
            self.end(STATUS_UNKNOWN)
            return
        try:
            done = action(values)
        except (ValueError, IndexError, KeyError):
            complain(f"can't be read: {line.strip()}")
            self.end(STATUS_UNKNOWN)
            return
        if done is False:
            complain(f"can't be done now: {line.strip()}")
            self.end(STATUS_FAILED)

    def _location_update(self, values: list[str]) -> bool:
        kind = values[0] if values else "normal"
        if kind not in LOCATION_UPDATING_KINDS:
            raise ValueError(kind)
        return self.mobility.location_update(kind)

    def _detach(self, values: list[str]) -> bool:
        return self.mobility.detach()

    def _service(self, values: list[str]) -> bool:
        if values[0] not in SERVICES:
            raise ValueError(values[0])
        return self.mobility.service(values[0])

    def _call(self, values: list[str]) -> bool:
        return self.calls.call(read_number(values[0]))

    def _hang_up(self, values: list[str]) -> bool:
        return self.calls.hang_up()

    def _short_message(self, values: list[str]) -> bool:
        text = " ".join(values[1:])
        if not is_sendable(text):
            raise ValueError(text)
        return self.short_messages.submit(read_number(values[0]), text)

    def _levels(self, values: list[str]) -> None:
        levels = {}
        serving = read_level(values[0])
        for value in values[1:]:
            cell, level = value.split("=")
            arfcn, _, bsic = cell.partition("/")
            levels[int(arfcn)] = read_level(level)
            if bsic:
                self.cells.learn(int(arfcn), read_level(bsic))
        self.resource.serving_level = serving
        self.resource.neighbour_levels = levels
        for number in levels:
            if self.cells.cell(number).bsic is None:
                complain(f"the BSIC of ARFCN {number} isn't known: it isn't reported")

    def _forget(self, values: list[str]) -> None:
        self.resource.forgets = True

    def _miss_change(self, values: list[str]) -> None:
        self.resource.misses_change = True

    def _send(self, values: list[str]) -> bool:
        sapi, message = int(values[0]), bytes.fromhex("".join(values[1:]))
        if sapi not in (0, 3) or len(message) < 2:
            raise ValueError(values[0])
        return self.mobility.send(sapi, message)

    def _drop(self, values: list[str]) -> None:
        self.resource.drop()

    def _camp(self, values: list[str]) -> bool:
        if not self.resource.is_idle:
            return False
        self.cells.serving = int(values[0])
        return True

    def _wait(self, values: list[str]) -> None:
        self.awaited = " ".join(values[:-1])
        self.deadline = time.monotonic() + float(values[-1])

    def _pause(self, values: list[str]) -> None:
        self.deadline = time.monotonic() + float(values[0])

    def _quit(self, values: list[str]) -> None:
        self.end(0)


NAMES = ("location-update", "detach", "service", "call", "hang-up", "short-message", "levels", "forget", "miss-change",
         "send", "drop", "camp", "wait", "pause", "quit")


def read_level(text: str) -> int:
    """A number of six bits: a level or a BSIC."""
    level = int(text)
    if not 0 <= level <= 63:
        raise ValueError(text)
    return level


def read_number(text: str) -> str:
    """A subscriber's number."""
    if not text.isdecimal() or not text.isascii() or len(text) > 15:
        raise ValueError(text)
    return text
