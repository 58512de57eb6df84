# SPDX-License-Identifier: MIT OR Apache-2.0
"""The neighbours of a measurement report (TS 44.018 clause 10.5.2.20), as bsc counts them. Not proved.

A mobile names a neighbour by its place among those that its cell has told: those of the cell's own band at first. bsc counts the
ARFCNs of all other cells, rising. A neighbour that the cell's settings don't name by ARFCN and BSIC is left out.
"""
from bsc_front.octets import rsl
from bsc_front.octets.description import Cell
from bsc_front.octets.frequencies import as_reported
from bsc_front.octets.radio import layer_3_at

REPORT = b"\x06\x15"
OCTETS = 16
ENTRIES, ENTRY_BITS = 6, 17
NO_INFORMATION = 7  # in place of the number of neighbours
COUNT_AT = ENTRIES * ENTRY_BITS  # the bits behind the number of neighbours


class Reports:
    """How the reports of one cell are counted."""

    def __init__(self, cell: Cell) -> None:
        own, others = as_reported(cell.band, (arfcn for arfcn, _ in cell.neighbours))
        self.told = own + others
        self.counted_by_bsc = tuple(sorted({arfcn for arfcn, _ in cell.others}))
        self.known = set(cell.neighbours) & set(cell.others)
        self.is_same = self.told == self.counted_by_bsc and len(self.known) == len(cell.others)

    def as_bsc_counts(self, body: bytes) -> bytes:
        """A MEASUREMENT RESULT with each neighbour by its place of bsc."""
        if self.is_same or rsl.message_of(body) != rsl.MEASUREMENT_RESULT:
            return body
        at = layer_3_at(body)
        report = body[at + 2:at + 2 + OCTETS]
        if body[at:at + 2] != REPORT or len(report) < OCTETS:
            return body
        return body[:at + 2] + self.counted(report) + body[at + 2 + OCTETS:]

    def counted(self, report: bytes) -> bytes:
        """The sixteen octets."""
        bits = int.from_bytes(report, "big")
        count = bits >> COUNT_AT & 7
        if count >= NO_INFORMATION:
            return report
        entries = [bits >> COUNT_AT - ENTRY_BITS * (index + 1) & (1 << ENTRY_BITS) - 1 for index in range(count)]
        known = [entry for one in entries if (entry := self.entry(one)) is not None]
        found = bits >> COUNT_AT + 3 << 3 | len(known)
        for entry in known:
            found = found << ENTRY_BITS | entry
        return (found << ENTRY_BITS * (ENTRIES - len(known))).to_bytes(OCTETS, "big")

    def entry(self, entry: int) -> int | None:
        """An entry, six bits of level, five of place and six of BSIC, or None of a neighbour that bsc isn't to hear of."""
        place, bsic = entry >> 6 & 31, entry & 63
        arfcn = self.told[place] if place < len(self.told) else -1
        return entry & ~(31 << 6) | self.counted_by_bsc.index(arfcn) << 6 if (arfcn, bsic) in self.known else None
