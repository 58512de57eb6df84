# SPDX-License-Identifier: MIT OR Apache-2.0
"""bsc-front COMMAND ..: joins bsc to base stations and to a switch.

  run --config FILE [--front FILE]       configures base stations, joins each to its cell of bsc, and bsc to a switch
  status --config FILE [--front FILE]    asks it who is there, and what was answered in whose place; ends with 1 where
                                         a station, the switch or bsc isn't there, or a part of a station doesn't serve
  check --config FILE [--front FILE]     says whether the settings have a fault, where, and what would be right

Nothing here is proved. docs/NETWORK.md tells what each command does.
"""
import argparse
import asyncio
import signal
import sys
from typing import Any

from bsc_front import __version__
from bsc_front.peers.station import Stations
from bsc_front.peers.switch import Switch
from bsc_front.service import log, manager, metrics, settings, status
from bsc_front.service.log import ERROR, WARN, fault_in_words, keep_saying, say, until_ended


class Service:
    """The front of one bsc: all links to stations, to the switch and to bsc. Its end takes all of them with it."""

    def __init__(self, files: argparse.Namespace) -> None:
        self.files = files
        self.front = front = settings.read(files.config, files.front)
        self.stations = Stations(front)
        self.switch = Switch(front, self.stations.page, self.stations.mobiles, self.stations.strangers)

    async def serve(self) -> None:
        """Listens, and keeps the cells joined, until it is ended."""
        servers = [*await self.switch.listen(), *await self.stations.listen()]
        if path := self.front.status_socket:
            await status.serve(path, self.status)
        if address := self.front.metrics:
            servers.append(await metrics.serve(*settings.read_address(address), self.status))
            say(f"metrics are at http://{address}/metrics")
        manager.tell("READY=1")
        await asyncio.gather(*(server.serve_forever() for server in servers), self.stations.keep_joined(), self.switch.keep_testing(),
                             self.stations.keep_paging(), self.switch.keep_connected(),
                             keep_saying([self.switch.subject, *self.stations.subjects()]))

    def status(self) -> list[dict[str, Any]]:
        """For 'bsc-front status': a line for each cell, and one for switch and bsc."""
        return [*self.stations.status(), {**self.switch.status(), "paging": dict(self.stations.paging)}]

    def read_again(self) -> None:
        """Reads the settings again, and takes of them what counts at once. Where they have a fault all stays as it is."""
        try:
            new = settings.read(self.files.config, self.files.front)
        except settings.SettingsFault as fault:
            say(f"settings: read again, and not taken: {fault}", WARN)
            return
        at_once, later = settings.changed(self.front, new)
        self.front = settings.taken(self.front, new)
        self.stations.take_settings(self.front)
        self.switch.take_settings(self.front)
        say(f"settings: read again; taken: {', '.join(at_once) or 'nothing new'}; from a restart on: {', '.join(later) or 'nothing'}")


async def until_signal(files: argparse.Namespace) -> None:
    """Serves until a signal ends it, and tells at the end what was counted. SIGHUP has the settings read again."""
    service = Service(files)
    asyncio.get_running_loop().add_signal_handler(signal.SIGHUP, service.read_again)
    await until_ended(service.serve())
    service.stations.say_counts()
    service.switch.say_counts()


def serve(words: list[str]) -> int:
    """Runs the front. Status 1 is of the settings alone, so that what starts it again knows them from all other faults."""
    log.start()
    try:
        asyncio.run(until_signal(settings.named("run", words)))
    except settings.SettingsFault as fault:
        print(f"bsc-front: settings: {fault}", file=sys.stderr)
        return 1
    except OSError as fault:
        say(f"bsc-front: {fault}", ERROR)
        return 3
    except Exception as fault:
        say(f"bsc-front: a fault of the front ends it: {fault_in_words(fault)}", ERROR)
        return 3
    return 0


def check(words: list[str]) -> int:
    """Says whether the settings have a fault."""
    try:
        front = settings.from_words("check", words)
    except settings.SettingsFault as fault:
        print(f"bsc-front: settings: {fault}", file=sys.stderr)
        return 1
    print(f"bsc-front: settings: no fault, {len(front.cells)} cells")
    return 0


COMMANDS = {"run": serve, "status": status.main, "check": check}


def run(words: list[str]) -> int:
    """Runs the command that the first word names."""
    if words[:1] == ["--help"]:
        print(__doc__)
        return 0
    if words == ["--version"]:
        print(f"bsc-front {__version__}")
        return 0
    if not words or words[0] not in COMMANDS:
        print(__doc__, file=sys.stderr)
        return 2
    return COMMANDS[words[0]](words[1:])


def main() -> int:
    """Runs the command that the words of the program name."""
    try:
        return run(sys.argv[1:])
    except KeyboardInterrupt:
        return 130
