# SPDX-License-Identifier: MIT OR Apache-2.0
"""Settings: those of bsc for all that they have, and those of the front for the rest, each with a default. Not proved."""
import argparse
import ipaddress
from dataclasses import dataclass, field, fields, replace
from typing import Any

from bsc_front.octets import oml, rsl
from bsc_front.octets.description import Cell, DescriptionFault
from bsc_front.service import cell_settings, rules
from bsc_front.service.rules import File

Address = tuple[str, int]
SettingsFault = rules.SettingsFault

# what counts as soon as the settings are read again; all else counts from a restart on
AT_ONCE = ("station.t3109_ms", "station.t3111_ms", "station.silence_ms", "switch.silence_ms", "switch.point_code",
           "switch.speech_codec", "switch.speech_address")


@dataclass(frozen=True)
class Station:
    """[station] of the front's settings."""
    oml: str = "127.0.0.1:3002"  # where base stations' OML is listened for
    rsl: str = "127.0.0.2:3003"  # where base stations' RSL is listened for: OML says so to them
    t3109_ms: int = 5000  # how long RF CHANNEL RELEASE waits behind CHANNEL RELEASE where the mobile doesn't leave
    t3111_ms: int = 2000  # how long it waits once the mobile has left
    silence_ms: int = 15000  # a station from which nothing comes for so long, not even the answer to PING, is gone
    units: list[str] = field(default_factory=list)  # the unit id of each cell's station; 'N/0' for cell N where left out


@dataclass(frozen=True)
class Switch:
    """[switch] of the front's settings."""
    listen: str = "127.0.0.1:5001"  # where the switch connects
    connect: str = ""  # where the switch, or a signalling transfer point, is connected to; empty: the switch connects
    unit_name: str = "bsc"  # who this side is there
    point_code: str = "0.23.3"  # of bsc: the calling address of its connections
    silence_ms: int = 15000  # a switch from which nothing comes for so long, not even the answer to PING, is gone
    # what ASSIGNMENT COMPLETE of a speech channel says in Speech Codec (Chosen), hexadecimal, and in AoIP Transport Layer
    # Address, as HOST:PORT; empty: nothing
    speech_codec: str = ""
    speech_address: str = ""


@dataclass(frozen=True)
class Front:
    """All settings."""
    mcc: str
    mnc: str
    switch_address: Address
    cells: tuple[Cell, ...]
    station: Station
    switch: Switch
    status_socket: str  # the path of a local socket that answers how it is with cells, switch and bsc; empty: none
    metrics: str = ""  # where HTTP is answered with metrics, as HOST:PORT; empty: nowhere


def read_address(text: str) -> Address:
    """HOST:PORT as host and port."""
    host, _, port = text.rpartition(":")
    if not host or not port.isdigit():
        raise SettingsFault(f"no address: {text}")
    return host.strip("[]"), int(port)


def read_point_code(text: str) -> int:
    """A point code of 3, 8 and 3 bits, as 0.23.3."""
    parts = [int(part) for part in text.split(".") if part.isdigit()]
    if len(parts) != 3 or parts[0] > 7 or parts[1] > 255 or parts[2] > 7:
        raise SettingsFault(f"no point code: {text}")
    return parts[0] << 11 | parts[1] << 3 | parts[2]


def read_codec(text: str) -> bytes:
    """Octets in hexadecimal."""
    try:
        return bytes.fromhex(text)
    except ValueError as fault:
        raise SettingsFault(f"no octets: {text}") from fault


def read_transport_address(text: str) -> bytes:
    """HOST:PORT, with an IPv4 address, as four octets and two; nothing of an empty text."""
    if not text:
        return b""
    host, port = read_address(text)
    try:
        return ipaddress.IPv4Address(host).packed + port.to_bytes(2, "big")
    except ValueError as fault:
        raise SettingsFault(f"no IPv4 address: {text}") from fault


def read_table(kind: type, table: Any, name: str) -> Any:
    """One table of the front's settings."""
    if not isinstance(table, dict):
        raise SettingsFault(f"bad type {name}")
    known = {key.name: key for key in fields(kind)}
    for key, value in table.items():
        if key not in known:
            raise SettingsFault(f"unknown key {name}.{key}")
        default = getattr(kind(), key)
        if type(value) is not type(default):
            raise SettingsFault(f"bad type {name}.{key}")
    return kind(**table)


def read_cells(texts: list[dict[str, Any]], units: list[str], keys: list[dict[str, Any]]) -> tuple[Cell, ...]:
    """The cells, with what the front's settings say of them. The neighbours of each are all others, unless these name some."""
    found = []
    for index, text in enumerate(texts):
        others = {(other["arfcn"], other["bsic"]) for place, other in enumerate(texts) if place != index}
        base = {"number": index + 1, "listen": read_address(text["listen"]), "channels": tuple(text["channels"]),
                "unit": units[index] if index < len(units) else f"{index + 1}/0",
                **{key: text[key] for key in ("lac", "ci", "arfcn", "bsic")}}
        found.append(cell_settings.described(base, keys[index], tuple(sorted(others))))
    if len({cell.unit for cell in found}) != len(found):
        raise SettingsFault("two cells have one unit id")
    return tuple(found)


def look_sayable(front: Front) -> None:
    """Finds at the start what can't be said to a station."""
    for cell in front.cells:
        try:
            oml.combinations(cell)
            oml.bts_attributes(cell, front.mcc, front.mnc)
            rsl.system_information(cell, front.mcc, front.mnc)
        except DescriptionFault as fault:
            raise SettingsFault(str(fault)) from fault
        except (TypeError, ValueError, OverflowError, IndexError) as fault:
            raise SettingsFault(f"cell {cell.number}: a value can't be said to a station: {fault}") from fault


def look_readable(station: Station, switch: Switch) -> None:
    """Finds at the start which texts of the front's settings aren't what they should be."""
    read_address(station.oml)
    read_transport_address(station.rsl)
    read_address(switch.listen)
    read_point_code(switch.point_code)
    read_codec(switch.speech_codec)
    read_transport_address(switch.speech_address)


def look_known(file: File) -> None:
    """Finds keys of the front's settings that nobody knows."""
    for key, value in file.values.items():
        if key not in ("station", "switch", "cell", "status_socket", "metrics"):
            raise file.fault("unknown key", key)
        known = {"station": fields(Station), "switch": fields(Switch)}.get(key)
        for name in value if known and isinstance(value, dict) else ():
            if name not in [one.name for one in known or ()]:
                raise file.fault("unknown key", f"{key}.{name}")


def read(config: str, own_path: str | None) -> Front:
    """The settings of bsc in one file, and those of the front in another one."""
    bsc, file = File(config), File(own_path) if own_path else None
    own, theirs = file.values if file else {}, bsc.values
    if file:
        look_known(file)
        file.check(rules.FRONT, needed=False)
    bsc.check(rules.BSC, needed=True)
    station = read_table(Station, own.get("station", {}), "station")
    switch = read_table(Switch, own.get("switch", {}), "switch")
    if file and len(station.units) > len(theirs["cell"]):
        raise file.fault("bad value", "station.units", 0, rules.FRONT["station.units"].wanted)
    look_readable(station, switch)
    keys = cell_settings.read(file, bsc)
    try:
        front = Front(
            mcc=theirs["network"]["mcc"], mnc=theirs["network"]["mnc"],
            switch_address=read_address(theirs["switch"]["address"]), cells=read_cells(theirs["cell"], station.units, keys),
            station=station, switch=switch, status_socket=own.get("status_socket", ""), metrics=own.get("metrics", ""))
    except DescriptionFault as fault:
        raise SettingsFault(f"{config}: {fault}") from fault
    except (KeyError, TypeError, AttributeError) as fault:
        raise SettingsFault(f"{config}: missing or of another type: {fault}") from fault
    try:
        look_sayable(front)
    except SettingsFault as fault:
        raise SettingsFault(f"{config}: {fault}") from fault
    return front


def values(front: Front) -> dict[str, Any]:
    """All settings by name, as they are in the files; each cell is one."""
    found = {"network": (front.mcc, front.mnc), "switch.address": front.switch_address, "status_socket": front.status_socket,
             "metrics": front.metrics}
    for name, table in (("station", front.station), ("switch", front.switch)):
        found |= {f"{name}.{key.name}": getattr(table, key.name) for key in fields(table)}
    return found | {f"cell {cell.number}": cell for cell in front.cells}


def changed(old: Front, new: Front) -> tuple[list[str], list[str]]:
    """The names of the settings that differ: those that count at once, and those that count from a restart on."""
    before, behind = values(old), values(new)
    names = [name for name in before | behind if before.get(name) != behind.get(name)]
    return [name for name in names if name in AT_ONCE], [name for name in names if name not in AT_ONCE]


def taken(old: Front, new: Front) -> Front:
    """The old settings with those of the new ones that count at once."""
    parts: dict[str, dict[str, Any]] = {"station": {}, "switch": {}}
    for name in AT_ONCE:
        table, _, key = name.partition(".")
        parts[table][key] = getattr(getattr(new, table), key)
    return replace(old, station=replace(old.station, **parts["station"]), switch=replace(old.switch, **parts["switch"]))


def named(command: str, words: list[str]) -> argparse.Namespace:
    """The files that the words of a command name: config, and front or None."""
    parser = argparse.ArgumentParser(prog=f"bsc-front {command}")
    parser.add_argument("--config", required=True, help="the settings of bsc")
    parser.add_argument("--front", help="the settings of the front")
    return parser.parse_args(words)


def from_words(command: str, words: list[str]) -> Front:
    """The settings that the words of a command name."""
    files = named(command, words)
    return read(files.config, files.front)
