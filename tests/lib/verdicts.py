# SPDX-License-Identifier: MIT OR Apache-2.0
"""What `bsc judge` prints, read by its form: each line has to match, the order of the lines and the sums have to be right."""
import re
from dataclasses import dataclass, field

STATES = "in order|not in order|not judged"
MESSAGE = r"(?:CC|MM|RR|SMS|SS|unknown) (?:[0-9a-f]{2})+"
NUMBERED = rf"(?:{MESSAGE}|(?:CC|MM|SS) N\(SD\) [0-3] (?:[0-9a-f]{{2}})+)"
REASONS = {
    "a hole in the capture", "a connection whose ESTABLISH INDICATION isn't there",
    "two channels on which a mobile sent this first message", "a command that names an unknown cell",
    "a command that may name two channels", "the switch gave its reference to two connections",
    "the switch sent a COMMAND of radio resource management as DTAP",
    "a station brought a message outside the tenure of its channel", "a message on the next channel before its COMPLETE",
}
NEVER_BEGUN = ("a connection whose ESTABLISH INDICATION isn't there", "two channels on which a mobile sent this first message")


def counted(what):
    return rf"(?:1 {what}|(?!1 )\d+ {what}s)"


HEAD = re.compile(rf"connection (\d+) \(reference [0-9a-f]{{6}}\): {counted('channel')}, {counted('message')} up, \d+ at the switch: "
                  rf"({STATES})")
COUNTS = re.compile(rf"a switch by TS 24\.007 accepts \d+ of {counted('numbered message')}, takes \d+ for a duplicate, drops \d+ behind "
                    "a gap")
DOWN = re.compile(rf"down: \d+ of \d+ handed, ({STATES})")
STOPPED = re.compile(rf"not judged from frame \d+ on: ({'|'.join(map(re.escape, sorted(REASONS)))})")
FIT = re.compile("two channels with this first message: (in order either way round|the other way round not in order|in order neither way "
                 "round)")
SUMS = re.compile(rf"({counted('connection')}): (\d+) in order, (\d+) not, (\d+) not judged to the end")
POINT = re.compile(r"(ok|not ok) (\d+) - (.*?)(?: # SKIP (.*))?")


def faults_of(message, origin, place):
    """The kinds of faults one way."""
    came = rf"{message}, from the {origin} in frame \d+"
    return [rf"lost       {came}, missed in frame \d+", rf"overtaken  {came}, {place} in frame \d+, behind that of frame \d+",
            rf"doubled    {message}, {place} in frame \d+, and again in frame \d+",
            rf"changed    {came}, into {message}, {place} in frame \d+", rf"made up    {message}, {place} in frame \d+"]


BEHIND = rf"sent behind CLEAR COMPLETE (?:{NUMBERED}, )?in frame \d+"
UP = [re.compile("|".join([*faults_of(NUMBERED, "station", "at the switch"), BEHIND]))]
NOTES = [re.compile(r"a station's: a message outside the tenure of its channel, in frame \d+"),
         re.compile(r"the mobile's: a number that isn't its next, at the switch in frame \d+")]
HANDED = [rf"handed {where} {MESSAGE}, in frame \d+" for where in ("while the channel changed", "on a channel that isn't serving")]
FAULTS_DOWN = [re.compile("|".join([*faults_of(MESSAGE, "switch", "handed"), *HANDED]))]


class BadForm(Exception):
    """Output that isn't of this form."""


@dataclass
class Verdict:
    number: int
    lines: list  # without the spaces before the inner ones
    up: str = None
    down: str = None
    faults: list = field(default_factory=list)  # the BSC's
    notes: list = field(default_factory=list)  # of the others
    stopped: str = None
    stop: str = None  # the line that says it
    fit: str = None


def take(lines, patterns, most):
    """The lines at the front that match one of the patterns, so many of each at most."""
    found = []
    for pattern in patterns:
        for _ in range(most):
            if lines and pattern.fullmatch(lines[0]):
                found.append(lines.pop(0))
    return found


def one(lines, pattern):
    """The next line, which has to match."""
    match = pattern.fullmatch(lines[0]) if lines else None
    if not match:
        raise BadForm(f"not {pattern.pattern}: {lines[:1]}")
    return lines.pop(0) and match


def verdict_of(lines):
    """A connection, by all of its lines."""
    rest = list(lines)
    head = one(rest, HEAD)
    found = Verdict(int(head[1]), lines, head[2])
    up = take(rest, UP, 2)
    found.notes = take(rest, NOTES, 1)
    one(rest, COUNTS)
    found.down = one(rest, DOWN)[1]
    down = take(rest, FAULTS_DOWN, 2)
    found.faults = up + down
    if rest and not FIT.fullmatch(rest[0]):
        found.stop, found.stopped = rest[0], one(rest, STOPPED)[1]
    found.fit = one(rest, FIT)[1] if rest else None
    states = ["not judged"] * 2 if found.stopped in NEVER_BEGUN else ["not in order" if some else "in order" for some in (up, down)]
    if rest or [found.up, found.down] != states:
        raise BadForm(f"connection {found.number}: {rest or states}")
    return found


def check_sums(line, verdicts):
    """The last line, or the comment."""
    sums = one([line], SUMS)
    blamed, stopped = sum(bool(v.faults) for v in verdicts), sum(v.stopped is not None for v in verdicts)
    wanted = (len(verdicts), len(verdicts) - blamed, blamed, stopped)
    if (int(sums[1].split()[0]), *map(int, sums.groups()[1:])) != wanted:
        raise BadForm(f"{line}, and not {wanted}")
    if len({v.number for v in verdicts}) < len(verdicts):
        raise BadForm("a connection is there twice")


def read(text, is_whole=True):
    """The verdicts, in their order; of an input with a bad line there is no line of sums."""
    if text and not text.endswith("\n"):
        raise BadForm("the last line isn't whole")
    lines, blocks = text.splitlines(), []
    last = lines.pop() if is_whole and lines else None
    for line in lines:
        if line.startswith("  ") and blocks:
            blocks[-1].append(line[2:])
        else:
            blocks.append([line])
    verdicts = [verdict_of(block) for block in blocks]
    if is_whole:
        check_sums(last or "", verdicts)
    return verdicts


def read_points(text, is_strict):
    """The same of `--tap`: TAP version 14, a point for each connection, its other lines as comments."""
    lines, verdicts, points = text.splitlines(), [], 0
    if not text.endswith("\n") or lines[:1] != ["TAP version 14"]:
        raise BadForm("no TAP version 14")
    plan, sums, block = lines.pop(), lines.pop(), []
    for line in lines[1:] + [None]:
        if line is not None and line.startswith("# "):
            block.append(line[2:])
            continue
        if block:
            verdicts.append(point_of(block, len(verdicts) + 1, is_strict))
        block = [line]
        points += line is not None
    if plan != f"1..{points}" or len(verdicts) != points or not sums.startswith("# "):
        raise BadForm(f"{sums} {plan}, and {points} points")
    check_sums(sums[2:], verdicts)
    return verdicts


def point_of(block, place, is_strict):
    """A connection, by its point and its comments."""
    point = one(block[:1], POINT)
    found = verdict_of([point[3], *block[1:]])
    is_skipped = found.stopped is not None and not found.faults and not is_strict
    is_bad = bool(found.faults) or found.stopped is not None and is_strict
    stop = found.stop if is_skipped else None
    if (point[1], int(point[2]), point[4]) != ("not ok" if is_bad else "ok", place, stop):
        raise BadForm(f"{block}: {is_bad}, {is_skipped}")
    return found


def status_of(verdicts, is_strict):
    """0 in order, 1 not."""
    return 1 if any(v.faults or is_strict and v.stopped for v in verdicts) else 0
