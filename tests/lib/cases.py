# SPDX-License-Identifier: MIT OR Apache-2.0
"""The cases of tests/cases/scripts.cases, for tests/scripts and tests/refused-worlds, and the settings that they name."""
from lib.common import TOP

EXAMPLES = TOP / "examples"


def settings_texts():
    usual = (EXAMPLES / "two-cells.toml").read_text()
    released = usual.replace('mnc = "01"\n', 'mnc = "01"\nrelease98 = true\n')
    each_report = "[handover1]\npower_budget_interval = 1\n"
    texts = {
        "usual": usual,
        "usual, release 98": released,
        "eager": usual + each_report,
        "eager, release 98": released + each_report,
        "interval 100": usual + "[handover1]\npower_budget_interval = 100\n",
        "no TOML": "x =",
        "empty": "",
        "unknown key": usual.replace("mcc", "mmc"),
        "wrong type": released.replace("true", "1"),
        "one cell twice": usual + usual[usual.rindex("[[cell]]"):].replace("ci = 2", "ci = 3"),
    }
    assert len(set(texts.values())) == len(texts)
    return texts


def read_cases():
    """The cases by name, each a record of its words and lists."""
    cases, lines, case = {}, None, None
    for line in (TOP / "tests/cases/scripts.cases").read_text().splitlines():
        if line.startswith("  "):
            lines.append(line.strip())
        elif line and not line.startswith("#"):
            key, _, text = line.partition(":")
            if key == "case":
                assert text.strip() not in cases, text
                case = cases[text.strip()] = {"name": text.strip()}
            elif text.strip():
                case[key] = text.strip()
            else:
                lines = case[key] = []
    return cases


def events_of(cases, case):
    """The lines of a script, behind those of the case that comes before it."""
    events = events_of(cases, cases[case["as"]]) if "as" in case else []
    for line in case.get("script", []):
        times, _, repeated = line.partition(" times ")
        events += (repeated.split(", ") * int(times)) if repeated else line.split(", ")
    return events
