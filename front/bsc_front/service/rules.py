# SPDX-License-Identifier: MIT OR Apache-2.0
"""What each value of the settings has to be, and where in its file a fault is. Not proved."""
import ipaddress
import re
import tomllib
from collections.abc import Callable
from dataclasses import dataclass
from typing import Any

HEADER = re.compile(r"\s*(\[\[?)\s*([^\[\]]+?)\s*\]\]?\s*(#.*)?$")
KEY = re.compile(r"""\s*((?:[A-Za-z0-9_-]+|"[^"]*"|'[^']*')(?:\s*\.\s*(?:[A-Za-z0-9_-]+|"[^"]*"|'[^']*'))*)\s*=""")
PLACE = re.compile(r" \(at line (\d+), column \d+\)$|(?P<end>) \(at end of document\)$")
TOML_11 = "Python reads TOML 1.0, and bsc TOML 1.1: what was added there can't be used"


class SettingsFault(Exception):
    """What is wrong with the settings."""


@dataclass(frozen=True)
class Rule:
    """What a value has to be, in words and as a test that every value of its type can be given."""
    kind: type
    wanted: str
    is_right: Callable[[Any], bool]


class File:
    """A file in TOML: its path, its values, and on which line each key of each table is."""

    def __init__(self, path: str) -> None:
        self.path = path
        try:
            with open(path, "rb") as file:
                text = file.read().decode()
            self.values = tomllib.loads(text)
        except OSError as fault:
            raise SettingsFault(f"cannot read: {path}: {fault.strerror}") from fault
        except UnicodeDecodeError as fault:
            raise SettingsFault(f"cannot read: {path}: it isn't UTF-8") from fault
        except (tomllib.TOMLDecodeError, RecursionError) as fault:
            raise SettingsFault(f"not TOML: {self.place_of(str(fault))}; {TOML_11}") from fault
        self.lines = lines_of(text)

    def place_of(self, words: str) -> str:
        """Where a fault of TOML is, and what it is, out of the words of Python's reader."""
        if not (found := PLACE.search(words)):
            return f"{self.path}: {words}"
        return f"{self.path}, {f'line {found[1]}' if found[1] else 'at its end'}: {words[:found.start()]}"

    def fault(self, what: str, key: str, cell: int = 0, wanted: str = "") -> SettingsFault:
        """A fault at a key, which the line of the key is said of, or that of its table."""
        line = self.lines.get((key, cell)) or self.lines.get((key.rpartition(".")[0], cell))
        place = f"{self.path}{f', line {line}' if line else ''}{f', cell {cell}' if cell else ''}"
        return SettingsFault(f"{what} {key}: {place}{f': {wanted}' if wanted else ''}")

    def check(self, rules: dict[str, Rule], needed: bool) -> None:
        """Looks at each value for which there is a rule. Where they are needed, one that is absent is a fault, too."""
        for key, rule in rules.items():
            name, _, last = key.rpartition(".")
            for cell, table in self.tables(name, needed):
                if last in table:
                    self.look(table[last], key, rule, cell)
                elif needed:
                    raise self.fault("missing", key, cell, rule.wanted)

    def tables(self, name: str, needed: bool) -> list[tuple[int, dict[str, Any]]]:
        """The tables of a name, each with the number of its cell: that of all values where the name is empty."""
        if name not in ("", *self.values):
            if needed:
                raise self.fault("missing", name)
            return []
        found = self.values.get(name) if name else self.values
        if name == "cell":
            if not isinstance(found, list) or not found or not all(isinstance(one, dict) for one in found):
                raise self.fault("bad type", name, 0, "[[cell]], once for each cell")
            return list(enumerate(found, 1))
        if not isinstance(found, dict):
            raise self.fault("bad type", name, 0, "a table")
        return [(0, found)]

    def look(self, value: Any, key: str, rule: Rule, cell: int) -> None:
        """Looks at a value."""
        if type(value) is not rule.kind:
            raise self.fault("bad type", key, cell, rule.wanted)
        if not rule.is_right(value):
            raise self.fault("bad value", key, cell, rule.wanted)


def plain(key: str) -> str:
    """A key of several parts, without quotation marks and spaces."""
    return ".".join(part.strip().strip("\"'") for part in key.split("."))


def lines_of(text: str) -> dict[tuple[str, int], int]:
    """On which line each key and each table is, by its name and, of a [[cell]], the cell's number."""
    found: dict[tuple[str, int], int] = {}
    table, cell, is_cell = "", 0, False
    for number, line in enumerate(text.splitlines(), 1):
        if header := HEADER.match(line):
            table = plain(header[2])
            is_cell = header[1] == "[[" and table == "cell"
            cell += is_cell
            found.setdefault((table, 0), number)
            found.setdefault((table, cell if is_cell else 0), number)
        elif key := KEY.match(line):
            name = f"{table}.{plain(key[1])}" if table else plain(key[1])
            found.setdefault((name, cell if is_cell else 0), number)
    return found


def is_address(text: str) -> bool:
    """HOST:PORT."""
    host, _, port = text.rpartition(":")
    return bool(host.strip("[]")) and port.isascii() and port.isdigit() and len(port) < 6 and 0 < int(port) < 65536


def is_ipv4_address(text: str) -> bool:
    """The same with an IPv4 address."""
    try:
        ipaddress.IPv4Address(text.rpartition(":")[0])
    except ValueError:
        return False
    return is_address(text)


def is_point_code(text: str) -> bool:
    """Of 3, 8 and 3 bits."""
    parts = text.split(".")
    return len(parts) == 3 and all(re.fullmatch(r"[0-9]{1,3}", part) and int(part) <= most for part, most in zip(parts, (7, 255, 7)))


def digits(*counts: int) -> Callable[[str], bool]:
    """Whether a text has so many decimal digits, and nothing else."""
    return lambda text: len(text) in counts and text.isascii() and text.isdigit()


def within(least: int, most: int) -> Callable[[int], bool]:
    """Whether a number lies between two others."""
    return lambda value: least <= value <= most


def stepped(least: int, most: int, step: int) -> Callable[[int], bool]:
    """Whether a number lies between two others, and is a multiple of a third."""
    return lambda value: least <= value <= most and value % step == 0


def are_channels(values: list[Any]) -> bool:
    """Whether these can be the channels of a cell."""
    return (1 <= len(values) <= 64 and all(type(value) is int and 0x08 <= value <= 0x7F for value in values)
            and len(set(values)) == len(values))


ADDRESS = Rule(str, "HOST:PORT, with a port of 1 to 65535", is_address)
OR_NOTHING = Rule(str, f"{ADDRESS.wanted}, or an empty text", lambda text: not text or is_address(text))
DELAY = Rule(int, "0 to 60000", within(0, 60000))
SILENCE = Rule(int, "100 to 3600000", within(100, 3600000))
FRONT = {
    "status_socket": Rule(str, "a path of 107 octets at most, or an empty text",
                          lambda text: len(text.encode()) < 108 and "\0" not in text),
    "metrics": OR_NOTHING,
    "station.oml": ADDRESS,
    "station.rsl": Rule(str, "an IPv4 address and a port, as 127.0.0.2:3003", is_ipv4_address),
    "station.t3109_ms": DELAY,
    "station.t3111_ms": DELAY,
    "station.silence_ms": SILENCE,
    "station.units": Rule(list, "texts as \"1/0\": site and station, 0 to 65535, one for each cell at most", lambda values: all(
        isinstance(unit, str) and re.fullmatch(r"[0-9]{1,5}/[0-9]{1,5}", unit) for unit in values)),
    "switch.listen": ADDRESS,
    "switch.connect": OR_NOTHING,
    "switch.unit_name": Rule(str, "1 to 64 letters, digits, '-', '_' and '.'", lambda text: bool(
        re.fullmatch(r"[A-Za-z0-9_.-]{1,64}", text))),
    "switch.point_code": Rule(str, "a point code of 3, 8 and 3 bits, as 0.23.3", is_point_code),
    "switch.silence_ms": SILENCE,
    "switch.speech_codec": Rule(str, "octets in hexadecimal, 15 at most, or an empty text", lambda text: bool(
        re.fullmatch(r"(?:[0-9A-Fa-f]{2} ?){0,15}", text))),
    "switch.speech_address": Rule(str, "an IPv4 address and a port, or an empty text", lambda text: not text or is_ipv4_address(text)),
}
# of the settings of bsc, what the front reads there: docs/SETTINGS.md
BSC = {
    "network.mcc": Rule(str, "a text of 3 decimal digits", digits(3)),
    "network.mnc": Rule(str, "a text of 2 or 3 decimal digits", digits(2, 3)),
    "switch.address": ADDRESS,
    "cell.listen": ADDRESS,
    "cell.lac": Rule(int, "0 to 65535", within(0, 65535)),
    "cell.ci": Rule(int, "0 to 65535", within(0, 65535)),
    "cell.arfcn": Rule(int, "1 to 1023", within(1, 1023)),
    "cell.bsic": Rule(int, "0 to 63", within(0, 63)),
    "cell.channels": Rule(list, "1 to 64 different numbers, each 0x08 to 0x7F", are_channels),
}
