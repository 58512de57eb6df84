# SPDX-License-Identifier: MIT OR Apache-2.0
"""A mobile on the virtual radio of osmo-bts-virtual, driven by commands. Not proved.

    python3 tools/mobile --imsi 001010000000001 [--arfcn 20] [--imei DIGITS] [--revision 1|2] [--name NAME]

It camps on the first cell that it hears (or on the one of --arfcn), answers pagings, and prints each layer 3 message,
up (->) and down (<-), with its name, N(SD) of those that have one, its place and its octets; 'again' follows the
place of one that is sent again after a change of channel. Of reports and system information only what is new is
printed. Several mobiles run at once, each with its IMSI. --revision 1 makes it a mobile of phase 2, which counts N(SD)
modulo 2; 2 (release 99, modulo 4) is the default.

It reads commands from standard input, one a line; what follows a # isn't looked at. The next command begins when
the last one is done. All but wait and pause are done at once.

    location-update [normal|periodic|attach]   LOCATION UPDATING REQUEST, on a channel of its own
    detach                                     IMSI DETACH INDICATION
    service call|short-message|supplementary   CM SERVICE REQUEST
    call NUMBER                                a call, without speech; one that comes is answered by itself
    hang-up                                    ends the call
    short-message NUMBER TEXT                  sends a short message; one that comes is acknowledged by itself
    levels SERVING [ARFCN[/BSIC]=LEVEL ..]     what MEASUREMENT REPORTs say from now on: RXLEV, 0 (-110 dBm) to 63. A
                                               neighbour has to be in the cell's list (SYSTEM INFORMATION 5) and its
                                               BSIC to be known (the virtual radio doesn't carry it: say it once)
    forget                                     at the next change of channel the last numbered message of SAPI 0 counts
                                               as not acknowledged: it is sent again on the new channel, its number kept
    miss-change                                the next new channel isn't found: the mobile goes back after 2 s, with
                                               HANDOVER FAILURE or ASSIGNMENT FAILURE
    send SAPI HEX                              a message, with the mobile's next N(SD) where its protocol has numbers;
                                               SAPI 3 is established for it
    drop                                       leaves the channel without a word
    camp ARFCN                                 listens to another cell from now on (in idle mode)
    wait NAME SECONDS                          until a message or event of this name comes, either way, behind the one
                                               that the last wait found; where it doesn't come, the mobile ends with 1
    pause SECONDS                              nothing for a while; reports go on
    quit                                       ends the mobile

Names are the standard's (LOCATION UPDATING ACCEPT); events are camped, neighbour, paged, CHANNEL REQUEST, established,
released, forgotten, missed, back, idle, call active, call over, short message, short message taken, short message
refused. At the end of its input the mobile ends too, with 0. A command that can't be done (no channel, busy, no cell)
ends it with 1, one that isn't known with 2.
"""
from __future__ import annotations

import argparse
import os
import select
import time

from simulated_mobile.cells import Cells
from simulated_mobile.commands import Commands
from simulated_mobile.gsmtap import VirtualRadio
from simulated_mobile.journal import Journal, complain
from simulated_mobile.messages import Subscriber
from simulated_mobile.mobility import Mobility
from simulated_mobile.radio_resource import RadioResource

TICK = 0.02  # seconds


def read_arguments(arguments: list[str]) -> argparse.Namespace:
    """The command line."""
    parser = argparse.ArgumentParser(prog="mobile", description=__doc__,
                                     formatter_class=argparse.RawDescriptionHelpFormatter)
    parser.add_argument("--imsi", required=True, help="15 digits")
    parser.add_argument("--imei", default="490154203237518", help="15 digits")
    parser.add_argument("--arfcn", type=int, help="the cell to camp on")
    parser.add_argument("--revision", type=int, choices=(1, 2), default=2, help="1: phase 2; 2: release 99")
    parser.add_argument("--name", help="the name in each line that is printed; else the IMSI")
    found = parser.parse_args(arguments)
    if found.arfcn is not None and not 0 <= found.arfcn <= 1023:
        parser.error(f"an ARFCN is 0 to 1023, not {found.arfcn}")
    for value, what in ((found.imsi, "IMSI"), (found.imei, "IMEI")):
        if not value.isdigit() or not 6 <= len(value) <= 15:
            parser.error(f"an {what} is 6 to 15 digits, not {value}")
    return found


class Input:
    """Standard input by lines, without waiting for it."""

    def __init__(self) -> None:
        self.rest = b""
        self.lines: list[str] = []
        self.at_end = False

    def read(self) -> None:
        """Takes what is there."""
        octets = os.read(0, 4096)
        self.at_end = not octets
        *lines, self.rest = (self.rest + octets).split(b"\n")
        if self.at_end and self.rest:
            lines.append(self.rest)
        self.lines += [line.decode(errors="replace") for line in lines]


def run(radio: VirtualRadio, resource: RadioResource, commands: Commands) -> int:
    """Listens to the radio and does the commands until they end."""
    given = Input()
    while commands.status is None:
        sources: list[VirtualRadio | int] = [radio] if given.at_end or given.lines else [radio, 0]
        ready, _, _ = select.select(sources, [], [], TICK)
        if 0 in ready:
            given.read()
        if radio in ready:
            for frame in radio.receive():
                resource.take(frame)
        resource.tick()
        while commands.is_free(time.monotonic()) and given.lines:
            commands.do(given.lines.pop(0))
        if given.at_end and not given.lines and commands.is_free(time.monotonic()):
            commands.end(0)
    return commands.status


def main(arguments: list[str]) -> int:
    """Runs a mobile; gives its status."""
    options = read_arguments(arguments)
    journal = Journal(options.name or options.imsi)
    subscriber = Subscriber(options.imsi, options.imei, options.revision)
    try:
        radio = VirtualRadio()
    except OSError as error:
        complain(f"no virtual radio here: {error.strerror}")
        return 1
    cells = Cells(subscriber, journal, options.arfcn)
    resource = RadioResource(radio, cells, journal)
    mobility = Mobility(resource, cells, subscriber, journal)
    try:
        return run(radio, resource, Commands(resource, mobility, cells, journal))
    finally:
        radio.close()
