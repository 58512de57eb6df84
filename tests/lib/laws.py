# SPDX-License-Identifier: MIT OR Apache-2.0
"""The laws of the sources: functions without parameters, whose contracts state what holds of definitions. A body calls other laws, if
any."""
import re
from dataclasses import dataclass
from pathlib import Path

from lib.common import TOP

LAW = re.compile(r"((?:^///[^\n]*\n)+)pub fn (\w+)\(\)\n((?: +ensures(?:[^{}]|\{[^{}]*\})*?\n)+)\{(?:\n(?: +\w+\(\);\n)+)?\}$", re.MULTILINE)


@dataclass
class Law:
    crate: str
    name: str
    path: Path  # from the repository's folder
    line: int
    text: str  # what is written over the function, as one paragraph
    clauses: list  # each clause's name, or '', and its statement


def laws():
    """All laws, crate by crate in the order of crates.txt, as they come in their files."""
    for line in (TOP / "crates.txt").read_text().splitlines():
        crate = re.match(r"\w*", line).group()
        for path in sorted((TOP / "crates" / crate / "src").glob("*.rt")) if crate else ():
            source = path.read_text()
            for found in LAW.finditer(source):
                comment, name, contract = found.groups()
                text = " ".join(part.removeprefix("///").strip() for part in comment.splitlines())
                clauses = re.findall(r"ensures (\w*) ?\{\s*(.*?)\s*\}\n", contract, re.DOTALL)
                yield Law(crate, name, path.relative_to(TOP), source.count("\n", 0, found.start(2)) + 1, text.strip(),
                          [(title, " ".join(statement.split())) for title, statement in clauses])
