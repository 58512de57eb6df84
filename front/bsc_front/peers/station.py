# SPDX-License-Identifier: MIT OR Apache-2.0
"""Configures base stations, and joins each cell of bsc to its station. Not proved.

A base station opens its OML link first. The front configures it there and tells it where RSL is; both links together are one
life of the station. Each cell's link to bsc is there whether its station is or not (cell.py).
"""
import asyncio
from collections import Counter
from typing import Any

from bsc_front.octets import ipa, paging
from bsc_front.peers import link as links
from bsc_front.peers.cell import Cell
from bsc_front.peers.configuration import Configuration
from bsc_front.peers.link import Link, LinkFault
from bsc_front.peers.strangers import Strangers
from bsc_front.service import settings
from bsc_front.service.log import WARN, Subject, in_words, say
from bsc_front.tables.mobiles import Mobiles

PAGE_EVERY = 0.25  # seconds between two looks who is to be paged


class Stations:
    """All base stations, and the cells that they belong to."""

    def __init__(self, front: settings.Front) -> None:
        self.front = front
        self.rsl = settings.read_transport_address(front.station.rsl)
        self.mobiles = Mobiles(front.cells)
        self.cells = [Cell(front, cell, self.mobiles) for cell in front.cells]
        self.by_unit = {cell.cell.unit: cell for cell in self.cells}
        self.strangers = Strangers()  # also those at the ports of the switch and of bsc
        self.paging: Counter[str] = Counter()
        for cell in self.cells:
            cell.answered = self.page_answered

    async def whose(self, link: Link) -> Cell:
        """The cell of a station that has connected, by its unit id."""
        link.watch(self.front.station.silence_ms / 1000)
        links.keep_alive(link)
        with self.strangers.waiting(link):
            unit = (await links.identify(link)).get(ipa.TAG_UNIT_ID, "")
        cell = self.by_unit.get("/".join(unit.split("/")[:2]))
        if cell is None:
            raise LinkFault(f"no cell has the unit id {unit[:40]!r}")
        return cell

    async def take_oml(self, link: Link) -> None:
        """Configures a station. While a unit is there nobody else can be it."""
        try:
            cell = await self.whose(link)
            if cell.oml or cell.station:
                raise LinkFault(f"a station with the unit id {cell.cell.unit} is there already")
        except LinkFault as fault:
            self.strangers.subject.say(f"OML {link.peer}: OML link ended: {fault}", WARN)
            return
        cell.oml = link
        name = f"station {cell.cell.unit}"
        station = Configuration(link, name, cell.reported)
        cell.alarms = station.alarms
        why = "the front has ended its link"
        try:
            await station.configure(cell.cell, self.front.mcc, self.front.mnc, self.rsl)
            cell.subject.say(f"{name}: configured as cell {cell.cell.number}, ARFCN {cell.cell.arfcn}; "
                             f"RSL is at {self.front.station.rsl}")
            cell.is_configured = True
            cell.look()
            await station.watch()
        except LinkFault as fault:
            why = str(fault)
        except Exception as fault:
            why = cell.say_fault(fault)
        finally:
            cell.oml, cell.is_configured = None, False
            cell.end_station(f"its OML link ended: {why}")
            cell.subject.say(f"{name}: OML link ended: {why}; not passed on: {in_words(station.counts)}", WARN)

    async def take_rsl(self, link: Link) -> None:
        """Serves a station that has been configured over its OML link."""
        try:
            cell = await self.whose(link)
            if cell.station:
                raise LinkFault(f"a station with the unit id {cell.cell.unit} is there already")
            if not cell.oml:
                raise LinkFault(f"a station with the unit id {cell.cell.unit} has no OML link")
            if link.host != cell.oml.host and links.is_ipv6(link.host) == links.is_ipv6(cell.oml.host):
                raise LinkFault(f"the station with the unit id {cell.cell.unit} has its OML link from {cell.oml.host}")
        except LinkFault as fault:
            self.strangers.subject.say(f"RSL {link.peer}: RSL link ended: {fault}", WARN)
            return
        await cell.serve_station(link, f"station {cell.cell.unit}")

    def page(self, text: bytes) -> None:
        """Sends PAGING COMMAND in the cells that a PAGING of the switch names. A fault in one of them ends its station's link alone."""
        try:
            request = paging.read(text)
        except paging.PagingFault as fault:
            self.strangers.subject.say(f"paging: not understood: {fault}", WARN)
            return
        for cell in self.cells:
            try:
                self.page_in(cell, request)
            except Exception as fault:
                cell.end_station(cell.say_fault(fault))

    def page_in(self, cell: Cell, request: paging.Request) -> None:
        """Pages in a cell, if the PAGING names it and its station is there."""
        if not request.names(cell.cell, self.front.mcc, self.front.mnc):
            return
        if not cell.station:
            self.paging["PAGING of a cell without a station"] += 1
        elif cell.pages.ask(request.imsi, request.identities(), request.command(cell.cell)):
            self.send_pages(cell)
        else:
            self.paging["PAGING beyond those that wait"] += 1

    def send_pages(self, cell: Cell) -> None:
        """Sends what is due in a cell. What is left of a station that is away is forgotten."""
        if not cell.station:
            cell.pages.pages.clear()
            return
        for page in cell.pages.due():
            cell.station.link.write(ipa.RSL, page.command)
            self.paging["PAGING COMMAND" if page.count == 1 else "PAGING COMMAND again"] += 1

    def page_answered(self, identity: bytes) -> None:
        """A mobile has answered in one cell: it is paged in none any more."""
        if any([cell.pages.answered(identity) for cell in self.cells]):
            self.paging["PAGING that was answered"] += 1

    async def keep_paging(self) -> None:
        """Pages again whoever hasn't answered yet. A fault in a cell ends its station's link alone."""
        while True:
            await asyncio.sleep(PAGE_EVERY)
            for cell in self.cells:
                try:
                    self.send_pages(cell)
                except Exception as fault:
                    cell.end_station(cell.say_fault(fault))

    async def listen(self) -> list[asyncio.Server]:
        """Listens for stations."""
        servers = [await links.serve(settings.read_address(self.front.station.oml), self.take_oml),
                   await links.serve(settings.read_address(self.front.station.rsl), self.take_rsl)]
        say(f"waiting for stations: OML at {self.front.station.oml}, RSL at {self.front.station.rsl}")
        return servers

    def take_settings(self, front: settings.Front) -> None:
        """Takes those settings that count without a restart, also for the links that are there."""
        self.front = front
        for cell in self.cells:
            cell.front = front
            if cell.station:
                cell.station.settings = front.station
            for link in (cell.station.link if cell.station else None, cell.oml):
                if link:
                    link.watch(front.station.silence_ms / 1000)

    async def keep_joined(self) -> None:
        """Keeps each cell joined to bsc."""
        await asyncio.gather(*(cell.keep_joined() for cell in self.cells))

    def subjects(self) -> list[Subject]:
        """Of whom lines are said."""
        return [self.strangers.subject, *(cell.subject for cell in self.cells), *(cell.reported for cell in self.cells),
                *(cell.faults for cell in self.cells)]

    def status(self) -> list[dict[str, Any]]:
        """For 'bsc-front status'."""
        return [cell.status() for cell in self.cells]

    def say_counts(self) -> None:
        """Says at the end what was counted."""
        for cell in self.cells:
            say(f"cell {cell.cell.number}: {cell.record.in_words()}")
        say(f"paging: {in_words(self.paging)}")
