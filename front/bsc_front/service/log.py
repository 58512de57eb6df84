# SPDX-License-Identifier: MIT OR Apache-2.0
"""Lines on standard error, with their levels, as bsc has them; how many of one subject; and what was counted. Not proved.

Lines wait in a queue for a thread that writes them, so that nothing else waits for a disk or a pipe.
"""
import asyncio
import atexit
import contextlib
import functools
import logging
import logging.handlers
import os
import queue
import signal
import sys
import time
import traceback
from collections import Counter, deque
from collections.abc import Callable, Coroutine
from datetime import UTC, datetime

MOST_WAITING = 1000  # lines that wait for whoever reads standard error
LINGER = 1.0  # seconds for them at the end
LINES = 12  # of one subject in each period; what is over is counted, and its last line said when there is room again
PERIOD = 60.0  # seconds
MOST_PLACES, MOST_OF_FAULT = 4, 200  # of a fault of the front: places, and characters

ERROR, WARN, INFO = logging.ERROR, logging.WARNING, logging.INFO
# BSC_LOG: from which level on lines are written
LEVELS = {"error": ERROR, "warn": WARN, "info": INFO, "off": logging.CRITICAL + 1}
# BSC_LOG_STYLE: what a line begins with
STYLES = ("plain", "journal", "time")

LOG = logging.getLogger("bsc_front")
LOG.setLevel(INFO)


class Line(logging.Formatter):
    """A line: what the style wants, the level, and the text."""

    def __init__(self, style: str) -> None:
        super().__init__()
        self.style = style

    def format(self, record: logging.LogRecord) -> str:
        """The line of a record."""
        name = "ERROR" if record.levelno >= ERROR else "WARN " if record.levelno >= WARN else "INFO "
        return f"{self.beginning(record)}[{name}] {' '.join(record.getMessage().splitlines())}"

    def beginning(self, record: logging.LogRecord) -> str:
        """What the line begins with: its severity as journald reads it, the time in UTC, or nothing."""
        if self.style == "journal":
            return "<3>" if record.levelno >= ERROR else "<4>" if record.levelno >= WARN else "<6>"
        if self.style == "time":
            return datetime.fromtimestamp(record.created, UTC).strftime("%Y-%m-%dT%H:%M:%S.%f")[:-3] + "Z "
        return ""


class Output(logging.Handler):
    """Standard error. What can't be written there, as on a full disk, is left out."""

    def emit(self, record: logging.LogRecord) -> None:
        """Writes a line."""
        octets = f"{self.format(record)}\n".encode(errors="backslashreplace")
        with contextlib.suppress(OSError, ValueError):
            while octets:
                octets = octets[os.write(sys.stderr.fileno(), octets):]


class Waiting(logging.handlers.QueueHandler):
    """Where lines wait for the thread that writes them. One too many is left out."""

    def __init__(self) -> None:
        self.lines: queue.Queue[logging.LogRecord] = queue.Queue(MOST_WAITING)
        super().__init__(self.lines)

    def enqueue(self, record: logging.LogRecord) -> None:
        """Takes a line."""
        with contextlib.suppress(queue.Full):
            self.lines.put_nowait(record)

    def linger(self) -> None:
        """Waits a little until all that was taken is written."""
        with self.lines.all_tasks_done:
            self.lines.all_tasks_done.wait_for(lambda: not self.lines.unfinished_tasks, LINGER)


@functools.cache
def start() -> Waiting:
    """Has lines written, as the variables say. What others complain of, as asyncio, is said as a line of one subject."""
    level, style = os.environ.get("BSC_LOG", "info"), os.environ.get("BSC_LOG_STYLE", "plain")
    output, waiting = Output(), Waiting()
    output.setFormatter(Line(style if style in STYLES else "plain"))
    logging.handlers.QueueListener(waiting.lines, output).start()
    atexit.register(waiting.linger)
    LOG.addHandler(waiting)
    LOG.setLevel(LEVELS.get(level, INFO))
    LOG.propagate = False
    logging.getLogger().addHandler(Complaints(complaints()))
    if level not in LEVELS:
        say("BSC_LOG: its values are error, warn, info and off; info is taken", WARN)
    if style not in STYLES:
        say("BSC_LOG_STYLE: its values are plain, journal and time; plain is taken", WARN)
    return waiting


def say(line: str, level: int = INFO) -> None:
    """Writes a line, soon. Where it can't be taken the front goes on without it."""
    LOG.log(level, "%s", line)


def fault_in_words(fault: BaseException) -> str:
    """A fault of the front itself, and where it was, innermost first, in one line."""
    places = [f"{os.path.basename(place.filename)}:{place.lineno}" for place in traceback.extract_tb(fault.__traceback__)]
    text = " ".join(f"{type(fault).__name__}: {fault}".split())
    return f"{text[:MOST_OF_FAULT]} at {' < '.join(reversed(places[-MOST_PLACES:])) or 'an unknown place'}"


def in_words(counts: Counter[str]) -> str:
    """What was counted, in one line."""
    return ", ".join(f"{name} {count}" for name, count in sorted(counts.items())) or "nothing"


class Subject:
    """One of those of whom lines are said: who comes and goes all the time doesn't fill the log."""

    def __init__(self, clock: Callable[[], float] = time.monotonic, sink: Callable[[str, int], None] = say) -> None:
        self.clock = clock
        self.sink = sink
        self.said: deque[float] = deque(maxlen=LINES)  # when the last lines were said
        self.last = "", INFO  # the last line that had no room
        self.left_out = 0

    def say(self, line: str, level: int = INFO) -> None:
        """Says a line, at once or, where there were too many, later, if no other one takes its place."""
        if not LOG.isEnabledFor(level):
            return
        if self.left_out or self.room_in() > 0:
            self.last, self.left_out = (line, level), self.left_out + 1
            return
        self.said.append(self.clock())
        self.sink(line, level)

    def room_in(self) -> float:
        """In how many seconds there is room for a line."""
        return self.said[0] + PERIOD - self.clock() if len(self.said) == LINES else 0.0

    def catch_up(self) -> None:
        """Says the last line that had no room, once there is some."""
        if not self.left_out or self.room_in() > 0:
            return
        others = self.left_out - 1
        (line, level), self.left_out = self.last, 0
        self.say(f"{line} ({others} lines before it left out)" if others else line, level)


@functools.cache
def complaints() -> Subject:
    """The subject of what others complain of, and of faults at links of nobody who is known."""
    return Subject()


class Complaints(logging.Handler):
    """Says what others complain of, each in one line."""

    def __init__(self, subject: Subject) -> None:
        super().__init__(WARN)
        self.subject = subject

    def emit(self, record: logging.LogRecord) -> None:
        """Says a complaint."""
        text = " ".join(record.getMessage().split())[:MOST_OF_FAULT]
        fault = record.exc_info[1] if record.exc_info else None
        self.subject.say(f"{record.name}: {text}{f': {fault_in_words(fault)}' if fault else ''}", record.levelno)


async def keep_saying(subjects: list[Subject]) -> None:
    """Says what had no room, as soon as there is some."""
    while True:
        await asyncio.sleep(1.0)
        for subject in [*subjects, complaints()]:
            subject.catch_up()


async def until_ended(serving: Coroutine[None, None, None]) -> None:
    """Serves until SIGTERM or SIGINT comes."""
    task = asyncio.ensure_future(serving)
    for kind in (signal.SIGTERM, signal.SIGINT):
        asyncio.get_running_loop().add_signal_handler(kind, task.cancel)
    try:
        await task
    except asyncio.CancelledError:
        pass
