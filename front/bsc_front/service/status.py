# SPDX-License-Identifier: MIT OR Apache-2.0
"""bsc-front status: asks the front how it is with stations, switch and bsc. Not proved.

The front answers whoever connects to its local socket with lines of JSON, one for each cell and one for switch and bsc, and
closes. docs/NETWORK.md has what is in them.
"""
import asyncio
import json
import os
import socket
import stat
import sys
from collections.abc import Callable
from typing import Any

from bsc_front.service import settings

MODE = 0o660  # of the local socket
PATIENCE = 10.0  # seconds for the front's answer
PEERS = {"station": "the station", "switch": "the switch", "bsc": "bsc"}


async def serve(path: str, lines: Callable[[], list[dict[str, Any]]]) -> asyncio.AbstractServer:
    """Answers at a local socket."""

    async def take(_: asyncio.StreamReader, writer: asyncio.StreamWriter) -> None:
        """Answers one who asks."""
        writer.write("".join(f"{json.dumps(line)}\n" for line in lines()).encode())
        writer.close()

    clear_socket(path)
    return await asyncio.start_unix_server(take, sock=own_socket(path))


def own_socket(path: str) -> socket.socket:
    """A local socket at a path, for its owner and group alone, whatever the process leaves to others else."""
    found = socket.socket(socket.AF_UNIX, socket.SOCK_STREAM)
    umask = os.umask(0o777 & ~MODE)
    try:
        found.bind(path)
    except OSError as fault:
        found.close()
        raise OSError(fault.errno, f"{path}: {os.strerror(fault.errno or 0)}") from fault
    finally:
        os.umask(umask)
    return found


def clear_socket(path: str) -> None:
    """Takes away the local socket that a former life has left; what is no socket stays, and then nobody can listen there."""
    if os.path.exists(path) and stat.S_ISSOCK(os.stat(path).st_mode):
        os.unlink(path)


def ask(path: str) -> list[dict[str, Any]]:
    """What the front answers. One that ends before it has answered is as one that isn't there."""
    with socket.socket(socket.AF_UNIX, socket.SOCK_STREAM) as own:
        own.settimeout(PATIENCE)
        own.connect(path)
        with own.makefile(encoding="utf-8") as answer:
            text = answer.read()
    if not text.endswith("\n"):
        raise OSError("it ended before it had answered")
    return [json.loads(line) for line in text.splitlines()]


def missing(lines: list[dict[str, Any]]) -> list[str]:
    """Who isn't there, of what the front answers: stations, the switch, and bsc at each of its links; and what of a station that is
    there doesn't serve. A front of a former version may not say that."""
    found = []
    for line in lines:
        place = f"cell {line['cell']}: " if "cell" in line else ""
        found += [f"{place}{name} isn't there" for peer, name in PEERS.items() if peer in line and not line[peer]["there"]]
        if "station" in line and line["station"]["there"]:
            found += [f"{place}{which}: {state}" for which, state in line["station"].get("out", {}).items()]
        if "switch" in line and line["switch"]["there"] and not line["switch"]["reset"]:
            found.append("the switch hasn't acknowledged RESET")
    return found


def main(words: list[str]) -> int:
    """Prints what the front answers; the status is 1 where it doesn't, and where somebody isn't there or doesn't serve."""
    try:
        front = settings.from_words("status", words)
    except settings.SettingsFault as fault:
        print(f"bsc-front: settings: {fault}", file=sys.stderr)
        return 1
    if not front.status_socket:
        print("bsc-front: the settings of the front name no status_socket", file=sys.stderr)
        return 1
    try:
        lines = ask(front.status_socket)
    except OSError as fault:
        print(f"bsc-front: nobody answers at {front.status_socket}: {fault.strerror or fault}", file=sys.stderr)
        return 1
    for line in lines:
        print(json.dumps(line))
    for who in missing(lines):
        print(f"bsc-front: {who}", file=sys.stderr)
    return 1 if missing(lines) else 0
