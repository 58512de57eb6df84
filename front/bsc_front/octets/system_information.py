# SPDX-License-Identifier: MIT OR Apache-2.0
"""SYSTEM INFORMATION of a cell (TS 44.018 clauses 9.1.31 to 9.1.40), made from its settings. Not proved.

Types 1 to 4 go over the BCCH, 5 and 6 over the SACCH of each dedicated channel; so do 2ter and 5ter, with neighbours of other bands.
"""
from collections.abc import Iterable

from bsc_front.octets.description import Cell
from bsc_front.octets.frequencies import PCS_1900, as_reported, frequency_list

PADDING = 0x2B
BCCH_OCTETS = 23

# clause 10.5.2.29: at most 7 retransmissions, spread over 12 slots, no reestablishment of calls
RACH_CONTROL = 0xE5
BARRED = 0x02
NO_EMERGENCY_CALLS = 0x04  # access class 10
# clause 10.5.2.3: no power control indicator, no discontinuous transmission, radio link timeout 32
CELL_OPTIONS = bytes((0x27,))
NEW_CAUSES = 0x40  # clause 10.5.2.4
NCC_PERMITTED = bytes((0xFF,))
PAGING_MULTIFRAMES = 5  # clause 10.5.2.11: paging repeats every 5 multiframes
BA_INDICATOR_SACCH = 0x10  # BA-IND is 0 in types 2 and 2ter, and 1 in types 5 and 5ter

# rest octets (clauses 10.5.2.32, 10.5.2.34 and 10.5.2.35a): bits that differ from padding
PCS_IN_TYPE_1, PCS_IN_TYPE_6 = 0x40, 0x10  # the band indicator: 1900
TYPE_2TER_IS_SENT = 0x20  # in type 3
NO_EARLY_CLASSMARK_3G = 0x02  # in type 3


def area_identity(mcc: str, mnc: str, lac: int) -> bytes:
    """Location area identification (TS 24.008 clause 10.5.1.3), without its identifier."""
    third = mnc[2] if len(mnc) == 3 else "f"
    return bytes.fromhex(mcc[1] + mcc[0] + third + mcc[2] + mnc[1] + mnc[0]) + lac.to_bytes(2, "big")


def cell_identity(mcc: str, mnc: str, cell: Cell) -> bytes:
    """Cell global identification: the location area, and the cell in it."""
    return area_identity(mcc, mnc, cell.lac) + cell.ci.to_bytes(2, "big")


def is_combined(channels: Iterable[int]) -> bool:
    """Whether the CCCH of a cell with these channels shares its timeslot with SDCCHs."""
    return any(0x20 <= number < 0x40 for number in channels)


def control_channel(cell: Cell) -> bytes:
    """Control channel description (clause 10.5.2.11): attach and detach, blocks for access grants, T3212 in tenths of an hour."""
    first = 0b11 << 6 | cell.agch_blocks << 3 | is_combined(cell.channels)
    return bytes((first, PAGING_MULTIFRAMES - 2, cell.t3212_minutes // 6))


def cell_selection(cell: Cell) -> bytes:
    """Cell selection parameters (clause 10.5.2.4)."""
    return bytes((cell.hysteresis // 2 << 5 | cell.ms_power & 31, (NEW_CAUSES if cell.neci else 0) | cell.rxlev_access_min))


def rach_control(cell: Cell) -> bytes:
    """RACH control parameters (clause 10.5.2.29)."""
    return bytes((RACH_CONTROL | (BARRED if cell.barred else 0), 0 if cell.emergency_calls else NO_EMERGENCY_CALLS, 0))


def message(length: int, kind: int, content: bytes, rest: int = 0) -> bytes:
    """A message on the BCCH: pseudo length, discriminator, type, content, and rest octets, of which bits of the first one differ."""
    octets = bytes((length << 2 | 1, 0x06, kind)) + content
    return octets + bytes((PADDING ^ rest,)) + bytes((PADDING,)) * (BCCH_OCTETS - len(octets) - 1)


def lists(cell: Cell) -> tuple[bytearray, bytearray]:
    """The neighbours of the cell's own band, and those of others; the second one is empty where there are none."""
    own, others = as_reported(cell.band, (arfcn for arfcn, _ in cell.neighbours))
    return frequency_list(cell.band, own), frequency_list("", others) if others else bytearray()


def on_bcch(cell: Cell, mcc: str, mnc: str) -> dict[int, bytes]:
    """Types 1 to 4, and 2ter where there are neighbours of other bands, by the numbers of TS 48.058 clause 9.3.30."""
    area, access, selection = area_identity(mcc, mnc, cell.lac), rach_control(cell), cell_selection(cell)
    own, others = lists(cell)
    found = {
        0x01: message(21, 0x19, bytes(frequency_list(cell.band, (cell.arfcn,))) + access,
                      PCS_IN_TYPE_1 if cell.band == PCS_1900 else 0),
        0x02: bytes((22 << 2 | 1, 0x06, 0x1A)) + bytes(own) + NCC_PERMITTED + access,
        0x03: message(18, 0x1B, cell.ci.to_bytes(2, "big") + area + control_channel(cell) + CELL_OPTIONS + selection + access,
                      NO_EARLY_CLASSMARK_3G | (TYPE_2TER_IS_SENT if others else 0)),
        0x04: message(12, 0x1C, area + selection + access),
    }
    if others:
        found[0x0B] = message(18, 0x03, bytes(others))
    return found


def on_sacch(cell: Cell, mcc: str, mnc: str) -> dict[int, bytes]:
    """Types 5 and 6, and 5ter where there are neighbours of other bands, without padding but for the rest octet of type 6."""
    own, others = lists(cell)
    own[0] |= BA_INDICATOR_SACCH
    found = {
        0x05: bytes.fromhex("49 06 1D") + bytes(own),
        0x06: bytes.fromhex("2D 06 1E") + cell.ci.to_bytes(2, "big") + area_identity(mcc, mnc, cell.lac) + CELL_OPTIONS
              + NCC_PERMITTED + bytes((PADDING ^ (PCS_IN_TYPE_6 if cell.band == PCS_1900 else 0),)),
    }
    if others:
        others[0] |= BA_INDICATOR_SACCH
        found[0x0E] = bytes.fromhex("49 06 06") + bytes(others)
    return found
