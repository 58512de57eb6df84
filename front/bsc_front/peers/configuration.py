# SPDX-License-Identifier: MIT OR Apache-2.0
"""Configures a base station over its OML link. Not proved.

Object by object its attributes are set, it is unlocked, and its operation is started (OPSTART), in the order in which osmo-bsc
does it. At last the baseband transceiver learns where to open the RSL link.
"""
import asyncio
from collections import Counter
from collections.abc import Awaitable

from bsc_front.octets import ipa, oml, oml_reports
from bsc_front.octets.description import Cell
from bsc_front.peers.link import Link, LinkFault
from bsc_front.service.log import Subject
from bsc_front.tables.alarms import Alarms

PATIENCE = 30.0  # seconds for each answer, and until an object no longer waits for another one


class Configuration:
    """The OML link of a base station that is configured."""

    def __init__(self, link: Link, name: str = "", subject: Subject | None = None) -> None:
        self.link = link
        self.name, self.subject = name, subject or Subject()  # of the lines of what it reports
        self.alarms = Alarms()
        own = oml.CARRIER, oml.STATION, oml.TRANSCEIVER, *(oml.channel(timeslot) for timeslot in range(8))
        self.availability = dict.fromkeys(own, 0)  # of the objects whose operation is started; of others nothing is kept
        self.counts: Counter[str] = Counter()

    async def read(self) -> tuple[int, oml.Object, bytes]:
        """The next message: its type, object and attributes. Reports of changed states are taken note of."""
        while True:
            stream, body = await self.link.read()
            if stream == ipa.CCM:
                self.link.answer_ccm(body)
                continue
            found = oml.read(body) if stream == ipa.OML else None
            if found is None:
                self.counts["unknown"] += 1
                continue
            kind, which, attributes = found
            if kind == oml.CHANGED_STATE_REPORT:
                self.take_state(which, attributes)
            if line := self.alarms.take(kind, which, attributes):
                self.subject.say(f"{self.name}: {line[0]}", line[1])
            return found

    def take_state(self, which: oml.Object, attributes: bytes) -> None:
        """Notes an object's availability."""
        availability = oml.availability_of(attributes)
        if which in self.availability and availability is not None:
            self.availability[which] = availability

    async def command(self, kind: int, which: oml.Object, attributes: bytes = b"") -> None:
        """Sends a message and waits for its answer; a refusal is a fault."""
        self.link.write(ipa.OML, oml.message(kind, which, attributes))
        await self.in_time(self.answer(kind, which))

    async def answer(self, kind: int, which: oml.Object) -> None:
        """Waits for the answer to a message. Others may come before it."""
        while True:
            kind_back, other, attributes = await self.read()
            if other == which and kind_back == kind + 2:
                raise LinkFault(f"it refused OML message {kind:#04x} to object {bytes(which).hex()}, "
                                f"{oml_reports.name_of(which)}: {oml_reports.refusal(attributes)}")
            if other == which and kind_back == kind + 1:
                return
            self.count(kind_back)

    async def independence(self, which: oml.Object) -> None:
        """Waits until an object no longer waits for another one."""
        while self.availability.get(which) == oml.DEPENDENCY:
            self.count((await self.read())[0])

    @staticmethod
    async def in_time(waiting: Awaitable[None]) -> None:
        """Waits, though not for longer than for an answer, whatever else comes meanwhile."""
        try:
            async with asyncio.timeout(PATIENCE):
                await waiting
        except TimeoutError as fault:
            raise LinkFault("it didn't answer an OML message") from fault

    def count(self, kind: int) -> None:
        """Counts a message that is no answer."""
        self.counts["state reports" if kind == oml.CHANGED_STATE_REPORT else f"OML messages {kind:02x}"] += 1

    async def opstart(self, which: oml.Object) -> None:
        """Starts an object's operation, once it no longer waits for another object."""
        await self.in_time(self.independence(which))
        await self.command(oml.OPSTART, which)

    async def unlock(self, which: oml.Object) -> None:
        """Lets an object serve."""
        await self.command(oml.CHANGE_ADMINISTRATIVE_STATE, which, bytes((oml.ADMINISTRATIVE_STATE, oml.UNLOCKED)))

    async def configure(self, cell: Cell, mcc: str, mnc: str, rsl: bytes) -> None:
        """Configures the station as its cell's settings have it, and tells it where to open the RSL link: address and port."""
        channels = {oml.channel(timeslot): kind for timeslot, kind in sorted(oml.combinations(cell).items())}
        await self.command(oml.OPSTART, oml.SITE)
        await self.command(oml.SET_BTS_ATTRIBUTES, oml.STATION, oml.bts_attributes(cell, mcc, mnc))
        await self.command(oml.SET_RADIO_CARRIER_ATTRIBUTES, oml.CARRIER, oml.carrier_attributes(cell))
        await self.unlock(oml.CARRIER)
        for channel, kind in channels.items():
            await self.command(oml.SET_CHANNEL_ATTRIBUTES, channel, oml.channel_attributes(cell, kind))
            await self.unlock(channel)
        await self.unlock(oml.STATION)
        await self.unlock(oml.TRANSCEIVER)
        for which in (oml.CARRIER, oml.STATION, oml.TRANSCEIVER):
            await self.opstart(which)
        await self.command(oml.RSL_CONNECT, oml.TRANSCEIVER, oml.rsl_attributes(ipa.RSL, rsl))
        for channel in channels:
            await self.opstart(channel)

    async def watch(self) -> None:
        """Takes what the configured station reports, until its link ends."""
        while True:
            self.count((await self.read())[0])
