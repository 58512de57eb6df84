# SPDX-License-Identifier: MIT OR Apache-2.0
"""What the front's settings say of the cells: [cell] of all of them, and [cell.N] of cell N alone. Not proved."""
from dataclasses import dataclass, field, fields
from typing import Any

from bsc_front.octets import frequencies, radio
from bsc_front.octets.description import Cell, DescriptionFault
from bsc_front.octets.system_information import is_combined
from bsc_front.service import rules
from bsc_front.service.rules import File, Rule


@dataclass(frozen=True)
class CellSettings:
    """The keys, each with its default. Those of radio have the defaults of OsmoBSC."""
    band: str = ""  # 'GSM900', 'DCS1800', 'PCS1900' ..; by default the band of the ARFCN, of which PCS1900 is none
    ms_power_dbm: int = 15  # of a mobile at its access, and on a new channel
    rxlev_access_min: int = 0
    cell_reselect_hysteresis: int = 4  # dB
    emergency_calls: bool = False
    neci: bool = False
    barred: bool = False
    t3212_minutes: int = 30
    agch_blocks: int = 1
    neighbours: list[list[int]] = field(default_factory=list)  # ARFCN and BSIC of each; the other cells where it is left out


def is_neighbour(one: Any) -> bool:
    """Whether this is an ARFCN and a BSIC."""
    return type(one) is list and [type(part) for part in one] == [int, int] and 0 <= one[0] <= 1023 and 0 <= one[1] <= 63


SWITCHED = Rule(bool, "true or false", lambda value: True)
RULES = {
    "band": Rule(str, f"{', '.join(frequencies.BANDS)}, or an empty text", lambda text: not text or text in frequencies.BANDS),
    "ms_power_dbm": Rule(int, "0 to 43", rules.within(0, 43)),
    "rxlev_access_min": Rule(int, "0 to 63", rules.within(0, 63)),
    "cell_reselect_hysteresis": Rule(int, "0 to 14, a multiple of 2", rules.stepped(0, 14, 2)),
    "emergency_calls": SWITCHED,
    "neci": SWITCHED,
    "barred": SWITCHED,
    "t3212_minutes": Rule(int, "0 to 1530, a multiple of 6", rules.stepped(0, 1530, 6)),
    "agch_blocks": Rule(int, "0 to 7", rules.within(0, 7)),
    "neighbours": Rule(list, "a list of [ARFCN, BSIC], ARFCN 0 to 1023, BSIC 0 to 63", lambda values: all(
        is_neighbour(one) for one in values)),
}
MOST_BLOCKS_COMBINED = 2


def read(file: File | None, bsc: File) -> list[dict[str, Any]]:
    """The keys of each cell of bsc, in the file of the front, where there is one."""
    look_at_bands(bsc)
    numbers = range(1, len(bsc.values["cell"]) + 1)
    table = file.values.get("cell", {}) if file else {}
    if not file or not table_is_right(file, "cell", table):
        return [{} for _ in numbers]
    common = {key: value for key, value in table.items() if key not in map(str, numbers)}
    look(file, "cell", common, f"there are {len(numbers)} cells")
    return [of_cell(file, bsc, number, common) for number in numbers]


def of_cell(file: File, bsc: File, number: int, common: dict[str, Any]) -> dict[str, Any]:
    """The keys of a cell: its own, and those of all cells."""
    own: dict[str, Any] = file.values["cell"].get(str(number), {})
    table_is_right(file, f"cell.{number}", own)
    look(file, f"cell.{number}", own, "")
    look_together(file, bsc, number, common | own)
    return common | own


def look_at_bands(bsc: File) -> None:
    """Finds a cell of bsc whose ARFCN is in no band."""
    for number, cell in enumerate(bsc.values["cell"], 1):
        if not any(frequencies.is_in(band, cell["arfcn"]) for band in frequencies.BANDS):
            raise bsc.fault("bad value", "cell.arfcn", number, f"an ARFCN of {', '.join(frequencies.BANDS)}")


def table_is_right(file: File, name: str, table: Any) -> bool:
    """Whether there is a table, which nothing else may be."""
    if type(table) is not dict:
        raise file.fault("bad type", name, 0, "a table")
    return bool(table)


def look(file: File, name: str, table: dict[str, Any], numbers: str) -> None:
    """Finds what is wrong with keys and their values. Some words say which cells there are."""
    for key, value in table.items():
        if key not in RULES:
            raise file.fault("unknown key", f"{name}.{key}", 0, numbers if key.isdigit() else "")
        file.look(value, f"{name}.{key}", RULES[key], 0)


def name_of(file: File, number: int, key: str) -> str:
    """By which name a key of a cell is in the file: that of this cell, or that of all."""
    return f"cell.{number}.{key}" if key in file.values["cell"].get(str(number), {}) else f"cell.{key}"


def look_together(file: File, bsc: File, number: int, keys: dict[str, Any]) -> None:
    """Finds which values of a cell don't go together with its ARFCN and its channels, which bsc has."""
    cell = bsc.values["cell"][number - 1]
    band = keys.get("band") or frequencies.band_of(cell["arfcn"])
    if not frequencies.is_in(band, cell["arfcn"]):
        raise file.fault("bad value", name_of(file, number, "band"), 0, f"a band of ARFCN {cell['arfcn']}, which cell {number} has")
    if keys.get("agch_blocks", 0) > MOST_BLOCKS_COMBINED and is_combined(cell["channels"]):
        raise file.fault("bad value", name_of(file, number, "agch_blocks"), 0,
                         f"0 to {MOST_BLOCKS_COMBINED}, since cell {number} has SDCCH/4 on timeslot 0")
    try:
        for arfcns in frequencies.as_reported(band, (one[0] for one in keys.get("neighbours", []))):
            frequencies.frequency_list(band, arfcns)
    except DescriptionFault as fault:
        raise file.fault("bad value", name_of(file, number, "neighbours"), 0, str(fault)) from fault


def described(base: dict[str, Any], keys: dict[str, Any], others: tuple[tuple[int, int], ...]) -> Cell:
    """A cell of what the settings of bsc say of it, and what those of the front do; and ARFCN and BSIC of all other cells."""
    own = CellSettings(**keys)
    band = own.band or frequencies.band_of(base["arfcn"])
    neighbours = tuple((one[0], one[1]) for one in own.neighbours) if "neighbours" in keys else others
    return Cell(**base, band=band, neighbours=neighbours, others=others,
                ms_power=radio.power_level(band, own.ms_power_dbm), rxlev_access_min=own.rxlev_access_min,
                hysteresis=own.cell_reselect_hysteresis, emergency_calls=own.emergency_calls, neci=own.neci, barred=own.barred,
                t3212_minutes=own.t3212_minutes, agch_blocks=own.agch_blocks)
