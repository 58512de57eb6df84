# SPDX-License-Identifier: MIT OR Apache-2.0
"""PAGING of the switch (TS 48.008 clause 3.2.1.19) as PAGING COMMAND of the base stations. Not proved.

bsc knows no paging. The front sends each PAGING past it, to the stations of the cells that it names.
"""
from dataclasses import dataclass

from bsc_front.octets import rsl
from bsc_front.octets.description import Cell
from bsc_front.octets.system_information import PAGING_MULTIFRAMES, area_identity, cell_identity, is_combined

PAGING = 0x52  # clause 3.2.2.1
# clause 3.2.2: elements
IMSI = 0x08
TMSI = 0x09
CELL_IDENTIFIER_LIST = 0x1A
CHANNEL_NEEDED = 0x24

# clause 3.2.2.27: by what a list names its cells; octets of each of its entries
WHOLE_CELL, LAC_AND_CELL, CELL_ONLY, _, AREA, LAC_ONLY, ALL = range(7)
OCTETS = {WHOLE_CELL: 7, LAC_AND_CELL: 4, CELL_ONLY: 2, AREA: 5, LAC_ONLY: 2}

MOST_OCTETS = 8  # of an identity: an IMSI of 15 digits
TMSI_TYPE = 0xF4  # mobile identity (TS 24.008 clause 10.5.1.4): a TMSI


class PagingFault(Exception):
    """A PAGING that can't be read, and why."""


@dataclass(frozen=True)
class Request:
    """A PAGING: whom, and where."""
    imsi: bytes
    tmsi: bytes
    discriminator: int
    cells: tuple[bytes, ...]
    needed: int

    def names(self, cell: Cell, mcc: str, mnc: str) -> bool:
        """Whether it names a cell."""
        lac, ci = cell.lac.to_bytes(2, "big"), cell.ci.to_bytes(2, "big")
        own = {WHOLE_CELL: cell_identity(mcc, mnc, cell), LAC_AND_CELL: lac + ci, CELL_ONLY: ci,
               AREA: area_identity(mcc, mnc, cell.lac), LAC_ONLY: lac}
        return self.discriminator == ALL or own.get(self.discriminator) in self.cells

    def identities(self) -> tuple[bytes, ...]:
        """The identities by which the mobile may answer."""
        return (self.imsi, bytes((TMSI_TYPE,)) + self.tmsi) if self.tmsi else (self.imsi,)

    def command(self, cell: Cell) -> bytes:
        """PAGING COMMAND, by the TMSI where the mobile has one."""
        identity = bytes((TMSI_TYPE,)) + self.tmsi if self.tmsi else self.imsi
        return rsl.paging_command(paging_group(self.imsi, cell), identity, self.needed)


def last_digits(imsi: bytes) -> int:
    """IMSI modulo 1000: digits are the high half of the first octet, then the low and the high half of each other one."""
    halves = [half for octet in imsi for half in (octet & 15, octet >> 4)][1:]
    digits = [half for half in halves if half < 10]
    return int("".join(map(str, digits[-3:])) or "0")


def paging_blocks(cell: Cell) -> int:
    """The blocks of the CCCH in each multiframe of 51 frames that are for PAGING (TS 44.018 clause 10.5.2.11)."""
    return (3 if is_combined(cell.channels) else 9) - cell.agch_blocks


def paging_group(imsi: bytes, cell: Cell) -> int:
    """The paging group of a mobile (TS 45.002 clause 6.5.2), with one CCCH."""
    return last_digits(imsi) % (paging_blocks(cell) * PAGING_MULTIFRAMES)


def elements(text: bytes) -> dict[int, bytes]:
    """The elements of a PAGING, each by its identifier."""
    found: dict[int, bytes] = {}
    at = 1
    while at < len(text):
        if text[at] == CHANNEL_NEEDED:
            found[CHANNEL_NEEDED] = text[at + 1:at + 2]
            at += 2
            continue
        length = text[at + 1] if at + 1 < len(text) else 0
        found.setdefault(text[at], text[at + 2:at + 2 + length])
        at += 2 + length
    return found


def read(text: bytes) -> Request:
    """Reads a PAGING."""
    if text[:1] != bytes((PAGING,)):
        raise PagingFault("it isn't PAGING")
    found = elements(text)
    if not found.get(IMSI) or not found.get(CELL_IDENTIFIER_LIST):
        raise PagingFault("an element is missing")
    if len(found[IMSI]) > MOST_OCTETS or len(found.get(TMSI, b"")) > MOST_OCTETS:
        raise PagingFault("an identity is too long")
    discriminator, entries = found[CELL_IDENTIFIER_LIST][0] & 15, found[CELL_IDENTIFIER_LIST][1:]
    octets = OCTETS.get(discriminator, len(entries) or 1)
    cells = tuple(entries[at:at + octets] for at in range(0, len(entries), octets))
    needed = found.get(CHANNEL_NEEDED, b"\0")
    return Request(found[IMSI], found.get(TMSI, b""), discriminator, cells, needed[0] & 3 if needed else 0)


def answer_of(body: bytes) -> bytes:
    """The identity in an ESTABLISH INDICATION with PAGING RESPONSE (TS 44.018 clause 9.1.25), or nothing: behind its type there are an
    octet with the key's number, the classmark with its length, and the identity with its own."""
    text = body[9:] if body[4:5] == bytes((rsl.LINK_IDENTIFIER,)) and body[6:7] == bytes((rsl.L3_INFORMATION,)) else b""
    if rsl.message_of(body) != rsl.ESTABLISH_INDICATION or text[:2] != rsl.PAGING_RESPONSE or len(text) < 4:
        return b""
    at = 4 + text[3]
    return text[at + 1:at + 1 + text[at]] if at < len(text) else b""


def room_of(body: bytes) -> int | None:
    """For how many commands a station has room, by its CCCH LOAD INDICATION of the PCH (clause 8.5.2), or None of another message."""
    if rsl.message_of(body) != rsl.CCCH_LOAD_INDICATION or rsl.channel_of(body) != rsl.PCH or body[4:5] != bytes((rsl.PAGING_LOAD,)):
        return None
    return int.from_bytes(body[5:7], "big") if len(body) > 6 else None
