# SPDX-License-Identifier: MIT OR Apache-2.0
"""What a mobile knows of the cells that it hears (TS 44.018 clauses 9.1.32 to 9.1.40). Not proved."""
from __future__ import annotations

from dataclasses import dataclass, field

from simulated_mobile import gsmtap, layer3
from simulated_mobile.journal import Journal
from simulated_mobile.messages import Subscriber


@dataclass
class Cell:
    """A cell by its system information."""

    location: bytes | None = None  # location area identification, five octets
    identity: int | None = None
    neighbours: list[int] = field(default_factory=list)  # of SYSTEM INFORMATION 2
    slow_neighbours: list[int] = field(default_factory=list)  # of SYSTEM INFORMATION 5
    bsic: int | None = None  # the virtual radio has no synchronisation channel: known from a command or a handover


class Cells:
    """All cells on the air, and which of them serves."""

    def __init__(self, subscriber: Subscriber, journal: Journal, serving: int | None) -> None:
        self.subscriber = subscriber
        self.journal = journal
        self.serving = serving
        self.by_arfcn: dict[int, Cell] = {}
        self.frame_number = 0

    def cell(self, arfcn: int) -> Cell:
        """What is known of a cell."""
        return self.by_arfcn.setdefault(arfcn, Cell())

    def learn(self, arfcn: int, bsic: int) -> None:
        """The BSIC of a cell."""
        self.cell(arfcn).bsic = bsic

    def take(self, frame: gsmtap.Frame) -> None:
        """Takes a block of BCCH or CCCH: system information, and the time."""
        if frame.arfcn == self.serving:
            self.frame_number = frame.frame_number
        if frame.channel_type != gsmtap.BCCH or len(frame.payload) < gsmtap.BLOCK_LENGTH:
            return
        message = frame.payload[1:]
        cell = self.cell(frame.arfcn)
        if layer3.is_message(message, layer3.RADIO, 0x1A):
            cell.neighbours = layer3.read_frequency_list(message[2:18])
        elif layer3.is_message(message, layer3.RADIO, 0x1B):
            first = cell.location is None
            cell.identity, cell.location = int.from_bytes(message[2:4], "big"), message[4:9]
            if first:
                self._heard(frame.arfcn, cell)

    def _heard(self, arfcn: int, cell: Cell) -> None:
        """A cell is heard for the first time; the first one of all serves, where none was named."""
        if self.serving is None:
            self.serving = arfcn
        name = "camped" if arfcn == self.serving else "neighbour"
        area = int.from_bytes((cell.location or bytes(5))[3:5], "big")
        self.journal.event(name, f"ARFCN {arfcn}, location area {area}, cell {cell.identity}")

    def take_slow(self, arfcn: int | None, message: bytes) -> None:
        """Takes SYSTEM INFORMATION 5 or 6 of the serving cell's SACCH."""
        if arfcn is not None and layer3.is_message(message, layer3.RADIO, 0x1D):
            self.cell(arfcn).slow_neighbours = layer3.read_frequency_list(message[2:18])

    @property
    def location(self) -> bytes | None:
        """The serving cell's location area."""
        return self.cell(self.serving).location if self.serving is not None else None

    def neighbours(self, levels: dict[int, int]) -> list[tuple[int, int, int]]:
        """The neighbours for a report: level, place in the serving cell's list, BSIC.

        A neighbour counts where the list names its ARFCN and its BSIC is known, as for a mobile on the air.
        """
        if self.serving is None:
            return []
        cell = self.cell(self.serving)
        listed = cell.slow_neighbours or cell.neighbours
        found = []
        for arfcn, level in levels.items():
            bsic = self.cell(arfcn).bsic
            if arfcn in listed and arfcn != self.serving and bsic is not None:
                found.append((level, listed.index(arfcn), bsic))
        return found
