# SPDX-License-Identifier: MIT OR Apache-2.0
"""What the octets of a cell are made of. Not proved."""
from dataclasses import dataclass


class DescriptionFault(Exception):
    """What of a cell no message can say."""


@dataclass(frozen=True)
class Cell:
    """A cell of bsc, and the unit id of its base station (site and station, as 1/0)."""
    number: int
    listen: tuple[str, int]
    lac: int
    ci: int
    arfcn: int
    bsic: int
    channels: tuple[int, ...]
    unit: str
    neighbours: tuple[tuple[int, int], ...]  # ARFCN and BSIC
    others: tuple[tuple[int, int], ...]  # ARFCN and BSIC of all other cells of bsc
    band: str
    ms_power: int  # power level of a mobile on a new channel, and the highest one at its access
    rxlev_access_min: int = 0  # TS 45.008 clause 6.4: as in reports, 0 to 63
    hysteresis: int = 4  # of the reselection of a cell in another location area, in dB
    emergency_calls: bool = False  # of mobiles without access else
    neci: bool = False  # new establishment causes, where a cell has half rate channels
    barred: bool = False
    t3212_minutes: int = 30  # between two periodic location updates
    agch_blocks: int = 1  # blocks of the CCCH that are kept for access grants
