# SPDX-License-Identifier: MIT OR Apache-2.0
"""What 'bsc-front status' tells, in the text format of Prometheus, for whoever asks for /metrics at an address. Not proved.

docs/OPERATING.md has each metric, and what to alarm on.
"""
import asyncio
from collections.abc import Callable, Iterable, Iterator
from typing import Any

from bsc_front import __version__
from bsc_front.octets import rsl

PATIENCE = 10.0  # seconds for a request, and for whoever takes the answer
MOST_ASKERS = 16  # at once; one more is left
FORMAT = "text/plain; version=0.0.4; charset=utf-8"

# reasons of the front for which nothing is lost: bsc doesn't know these messages, and wants none of them
LAWFUL = {*rsl.FILTERED.values(), "ERROR INDICATION of a link that goes on"}

Line = dict[str, Any]
Sample = tuple[dict[str, str], float]

# name, kind, what it is
FAMILIES = (
    ("bsc_front_info", "gauge", "The version of the front; always 1."),
    ("bsc_front_there", "gauge", "Whether a peer is there: a cell's station, bsc at a cell's port, the switch, bsc at the switch's port."),
    ("bsc_front_switch_reset", "gauge", "Whether the switch has acknowledged RESET; before that no call can be set up."),
    ("bsc_front_outages_total", "counter", "How often a peer went away."),
    ("bsc_front_frames_total", "counter", "Frames of a peer: from it, and to it."),
    ("bsc_front_channels", "gauge", "Channels of a cell, by state."),
    ("bsc_front_objects_out", "gauge", "Objects of a station that don't serve, as it reported last."),
    ("bsc_front_failures", "gauge", "Failures that a station has reported and that haven't ceased."),
    ("bsc_front_connections", "gauge", "Connections to the switch, by stage."),
    ("bsc_front_calls_total", "counter", "Calls, by who has begun them with SETUP."),
    ("bsc_front_paging_total", "counter", "PAGING COMMAND to stations, and what became of PAGING."),
    ("bsc_front_answered_total", "counter", "Messages that the front has answered in somebody's place."),
    ("bsc_front_dropped_total", "counter", "Messages that weren't passed on: lawful ones, which nobody wants, and losses."),
    ("bsc_front_done_total", "counter", "What else was done to messages."),
)
STATES = ("free", "activating", "active", "releasing", "lost")


def samples(line: Line) -> Iterator[tuple[str, Sample]]:
    """The samples of a line of the status: names of families, labels and values."""
    of = {"cell": str(line["cell"])} if "cell" in line else {}
    for peer in ("station", "switch", "bsc"):
        if peer in line:
            yield "bsc_front_there", ({"peer": peer, **of}, line[peer]["there"])
            yield "bsc_front_outages_total", ({"peer": peer, **of}, line[peer]["outages"])
    for peer, frames in line["frames"].items():
        yield "bsc_front_frames_total", ({"peer": peer, **of, "direction": "from"}, frames["received"])
        yield "bsc_front_frames_total", ({"peer": peer, **of, "direction": "to"}, frames["sent"])
    yield from of_cell(line, of) if of else of_switch(line)
    yield from counted(line, of)


def of_cell(line: Line, of: dict[str, str]) -> Iterator[tuple[str, Sample]]:
    """The samples that a cell alone has."""
    states = list(line["channels"].values())
    for state in STATES:
        yield "bsc_front_channels", ({**of, "state": state}, line["free"] if state == "free" else states.count(state))
    yield "bsc_front_objects_out", (of, len(line["station"]["out"]))
    yield "bsc_front_failures", (of, len(line["station"]["failures"]))


def of_switch(line: Line) -> Iterator[tuple[str, Sample]]:
    """The samples that the switch alone has."""
    yield "bsc_front_switch_reset", ({}, line["switch"]["reset"])
    tables = (("bsc_front_connections", "stage", line["connections"]), ("bsc_front_calls_total", "begun_by", line["calls"]),
              ("bsc_front_paging_total", "what", line["paging"]))
    for name, of_label, counts in tables:
        yield from ((name, ({of_label: what}, count)) for what, count in counts.items())


def counted(line: Line, of: dict[str, str]) -> Iterator[tuple[str, Sample]]:
    """What was answered, dropped and done: each by name."""
    for what, count in line["answered"].items():
        yield "bsc_front_answered_total", ({**of, "what": what}, count)
    for reason, count in line["dropped"].items():
        yield "bsc_front_dropped_total", ({**of, "kind": "lawful" if reason in LAWFUL else "loss", "reason": reason}, count)
    for what, count in line["done"].items():
        yield "bsc_front_done_total", ({**of, "what": what}, count)


def label(name: str, value: str) -> str:
    """A label, with what the format wants escaped."""
    escaped = value.replace("\\", "\\\\").replace('"', '\\"').replace("\n", "\\n")
    return f'{name}="{escaped}"'


def text(lines: Iterable[Line]) -> str:
    """All metrics."""
    found: dict[str, list[Sample]] = {name: [] for name, _, _ in FAMILIES}
    found["bsc_front_info"].append(({"version": __version__}, 1))
    for line in lines:
        for name, sample in samples(line):
            found[name].append(sample)
    return "".join(family(name, kind, what, found[name]) for name, kind, what in FAMILIES)


def family(name: str, kind: str, what: str, of_it: list[Sample]) -> str:
    """The lines of a metric: what it is, its kind, and its samples."""
    rows = [f"# HELP {name} {what}", f"# TYPE {name} {kind}"]
    for labels, value in of_it:
        inner = ",".join(label(*one) for one in labels.items())
        rows.append(f"{name}{f'{{{inner}}}' if inner else ''} {int(value)}")
    return "\n".join(rows) + "\n"


def response(request: bytes, lines: Callable[[], Iterable[Line]]) -> bytes:
    """The answer of HTTP to a request."""
    words = request.split(b"\r\n", 1)[0].split(b" ")
    if len(words) != 3 or not words[2].startswith(b"HTTP/1."):
        return head("400 Bad Request", b"")
    if words[0] not in (b"GET", b"HEAD"):
        return head("405 Method Not Allowed", b"", "Allow: GET, HEAD\r\n")
    if words[1].split(b"?")[0] != b"/metrics":
        return head("404 Not Found", b"")
    body = text(lines()).encode()
    return head("200 OK", body) + (body if words[0] == b"GET" else b"")


def head(status: str, body: bytes, more: str = "") -> bytes:
    """The head of an answer."""
    return (f"HTTP/1.1 {status}\r\nContent-Type: {FORMAT}\r\nContent-Length: {len(body)}\r\n{more}"
            "Connection: close\r\n\r\n").encode()


async def serve(host: str, port: int, lines: Callable[[], Iterable[Line]]) -> asyncio.Server:
    """Answers at an address. Whoever asks for too long, or says too much, is left."""
    askers = 0

    async def take(reader: asyncio.StreamReader, writer: asyncio.StreamWriter) -> None:
        """Answers one who asks."""
        nonlocal askers
        askers += 1
        try:
            if askers <= MOST_ASKERS:
                async with asyncio.timeout(PATIENCE):
                    writer.write(response(await reader.readuntil(b"\r\n\r\n"), lines))
                    await writer.drain()
                    writer.write_eof()
                    await reader.read(1)
        except (TimeoutError, OSError, asyncio.IncompleteReadError, asyncio.LimitOverrunError, asyncio.CancelledError):
            pass
        finally:
            askers -= 1
            writer.close()

    return await asyncio.start_server(take, host, port, reuse_address=True)
