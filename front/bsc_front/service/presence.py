# SPDX-License-Identifier: MIT OR Apache-2.0
"""Who is there since when, what was answered in whose place, what was dropped: for log and 'bsc-front status'. Not proved."""
import time
from collections import Counter
from collections.abc import Callable
from datetime import UTC, datetime
from typing import Any

from bsc_front.service.log import INFO, WARN, Subject, in_words


class Presence:
    """Whether a side is there, and since when that is so. Each change is a line of the log; so is why it isn't there at first."""

    def __init__(self, subject: Subject, clock: Callable[[], float] = time.time) -> None:
        self.subject = subject
        self.clock = clock
        self.is_there = self.is_known = False
        self.since = clock()
        self.outages = 0  # how often it went away

    def come(self, line: str) -> None:
        """It is there."""
        self.change(True, line, INFO)

    def leave(self, line: str) -> None:
        """It is away."""
        self.change(False, line, WARN)

    def change(self, is_there: bool, line: str, level: int) -> None:
        """Notes a change, if it is one."""
        if is_there != self.is_there:
            self.is_there, self.since = is_there, self.clock()
            self.outages += not is_there
        elif self.is_known:
            return
        self.is_known = True
        self.subject.say(line, level)

    def status(self) -> dict[str, Any]:
        """For 'bsc-front status'."""
        since = datetime.fromtimestamp(self.since, UTC).isoformat(timespec="milliseconds")
        return {"there": self.is_there, "since": since, "outages": self.outages}


class Traffic:
    """How many frames a peer has sent, and how many were sent to it, over all of its links one after the other."""

    def __init__(self) -> None:
        self.received = self.sent = 0

    def status(self) -> dict[str, int]:
        """For 'bsc-front status'."""
        return dict(vars(self))


class Record:
    """What was answered in somebody's place, what was dropped, and what else was done, each by name and how often."""

    def __init__(self) -> None:
        self.answered: Counter[str] = Counter()
        self.dropped: Counter[str] = Counter()
        self.done: Counter[str] = Counter()

    def status(self) -> dict[str, Any]:
        """For 'bsc-front status'."""
        return {name: dict(sorted(counts.items())) for name, counts in vars(self).items()}

    def in_words(self) -> str:
        """In one line, for the log."""
        return "; ".join(f"{name}: {in_words(counts)}" for name, counts in vars(self).items())
