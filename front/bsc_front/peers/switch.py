# SPDX-License-Identifier: MIT OR Apache-2.0
"""Joins bsc to a switch by SCCP over IPA (SCCPlite). Not proved.

Both connect to the front, and the link of each stays when the other one ends. The front asks the switch who it is, and resets
it and is reset by it; from then on it passes on the messages of connections, by the table of connections.py. bsc's connection
requests get a calling address; while the switch is away they are refused. What is connectionless ends here.
"""
import asyncio
from collections import Counter
from collections.abc import Callable
from functools import partial
from typing import Any

from bsc_front.octets import bssmap, dtap, ipa, sccp
from bsc_front.peers import link as links
from bsc_front.peers.link import Link, LinkFault
from bsc_front.peers.strangers import Strangers
from bsc_front.service import settings
from bsc_front.service.log import ERROR, WARN, Subject, fault_in_words, say
from bsc_front.service.presence import Presence, Record, Traffic
from bsc_front.tables.connections import Connections, Messages, Side
from bsc_front.tables.mobiles import Mobiles

RESET_EVERY = 10.0  # seconds until RESET is sent again where nobody acknowledges it
# seconds between two looks at which connections nothing has gone to the switch. So each of these has IT within T(ias) of 5 to 10
# minutes (Q.714 annex C); the other side waits at least 11
TEST_EVERY = 300.0
CONNECT_EVERY = 1.0  # seconds between two attempts to connect to the switch
UNNOTICED = 1.0  # seconds for which the end of bsc's former life may not be noticed yet, where bsc is started again at once


class Switch:
    """The link to the switch, and that to bsc; each may be absent."""

    def __init__(self, front: settings.Front, page: Callable[[bytes], None], mobiles: Mobiles | None = None,
                 strangers: Strangers | None = None) -> None:
        self.strangers = strangers or Strangers()
        self.page = page  # takes each PAGING of the switch
        self.mobiles = mobiles or Mobiles()
        self.switch: Link | None = None
        self.bsc: Link | None = None
        self.is_reset = False  # the switch has acknowledged a RESET in its link's life, and bsc hasn't ended since
        self.resetting: asyncio.Task[None] | None = None
        self.connections = Connections()
        self.subject = Subject()
        self.bsc_presence, self.switch_presence = Presence(self.subject), Presence(self.subject)
        self.bsc_traffic, self.switch_traffic = Traffic(), Traffic()
        self.calls = Counter({"mobile": 0, "switch": 0})  # by whose SETUP began them
        self.record = Record()
        self.record.dropped = self.connections.dropped

        self.take_settings(front)

    def take_settings(self, front: settings.Front) -> None:
        """Takes the settings: at first, and later those that count without a restart."""
        self.front = front
        self.point_code = settings.read_point_code(front.switch.point_code)
        self.codec = settings.read_codec(front.switch.speech_codec)
        self.address = settings.read_transport_address(front.switch.speech_address)
        if self.switch:
            self.switch.watch(front.switch.silence_ms / 1000)

    async def take_switch(self, link: Link) -> None:
        """Serves the switch's link, once it has said who it is. While there is one, no other is taken."""
        link.watch(self.front.switch.silence_ms / 1000)
        links.keep_alive(link)
        try:
            with self.strangers.waiting(link):
                name = (await links.identify(link)).get(ipa.TAG_UNIT_NAME, "")
        except LinkFault as fault:
            self.record.dropped["link to the switch's port without identification"] += 1
            self.strangers.subject.say(f"switch {link.peer}: link ended: {fault}", WARN)
            return
        if self.switch is not None:
            self.subject.say(f"switch {link.peer}: refused: another one is connected", WARN)
            return
        await self.serve_switch(link, name)

    async def keep_connected(self) -> None:
        """Where the settings name the switch's address: connects to it, or to a signalling transfer point, again and again."""
        while self.front.switch.connect:
            try:
                link = await links.connect(settings.read_address(self.front.switch.connect))
            except OSError as fault:
                self.switch_presence.leave(f"switch: it takes no link at {self.front.switch.connect}: {links.reason(fault)}")
            else:
                await self.join_switch(link)
            await asyncio.sleep(CONNECT_EVERY)

    async def join_switch(self, link: Link) -> None:
        """Says who this side is, and serves the link as one that the switch has opened. A fault of the front ends it alone."""
        link.watch(self.front.switch.silence_ms / 1000)
        try:
            links.keep_alive(link)
            await links.introduce(link, self.front.switch.unit_name)
            await self.serve_switch(link, "")
        except (LinkFault, OSError) as fault:
            self.switch_presence.leave(f"switch {link.peer}: link ended: {fault}")
        except Exception as fault:
            self.subject.say(f"switch {link.peer}: a fault of the front ends its link: {fault_in_words(fault)}", ERROR)
        finally:
            link.close()

    async def serve_switch(self, link: Link, name: str) -> None:
        """Resets the switch, and takes what it sends until its link ends."""
        self.switch, link.traffic = link, self.switch_traffic
        self.subject.say(f"switch {link.peer}: connected{f', it is {name[:40]!r}' if name else ''}")
        why = "the front has ended its link"
        try:
            self.reset(link)
            await link.serve(partial(self.from_switch, link), lambda: self.bsc)
        except LinkFault as fault:
            why = str(fault)
        finally:
            self.switch_left(f"switch {link.peer}: link ended: {why}")

    def switch_left(self, line: str) -> None:
        """The switch went away: bsc hears it of each connection."""
        self.switch, self.is_reset = None, False
        if self.resetting:
            self.resetting.cancel()
        self.send(self.connections.switch_left())
        self.switch_presence.leave(line)

    def reset(self, link: Link) -> None:
        """Resets the switch. Until it has acknowledged that, no connection is asked for."""
        if self.resetting:
            self.resetting.cancel()
        self.is_reset = False
        self.resetting = asyncio.create_task(self.send_reset(link))

    async def send_reset(self, link: Link) -> None:
        """Sends RESET until it is acknowledged."""
        while not self.is_reset:
            link.write(ipa.SCCP, sccp.unitdata(bssmap.reset()))
            await asyncio.sleep(RESET_EVERY)

    async def keep_testing(self) -> None:
        """Sends inactivity tests, again and again."""
        while True:
            await asyncio.sleep(TEST_EVERY)
            self.send(self.connections.test_inactivity(), Side.SWITCH)

    async def take_bsc(self, link: Link) -> None:
        """Serves the link of bsc, once the other side has answered PING or said anything else, as bsc does as soon as it relays."""
        links.join_bsc(link)
        try:
            with self.strangers.waiting(link):
                link.write(ipa.CCM, bytes((ipa.PING,)))
                first = await link.read()
        except LinkFault as fault:
            self.strangers.subject.say(f"bsc {link.peer}: link ended before anything was said: {fault}", WARN)
            return
        if self.bsc is not None:
            await asyncio.sleep(UNNOTICED)
        if self.bsc is not None:
            self.subject.say(f"bsc {link.peer}: refused: another one is connected", WARN)
            return
        await self.serve_bsc(link, first)

    async def serve_bsc(self, link: Link, first: tuple[int, bytes]) -> None:
        """Takes what bsc sends, from its first frame on, until its link ends, and never has it wait for the switch."""
        self.bsc, link.traffic = link, self.bsc_traffic
        link.traffic.received += 1  # the first one
        self.bsc_presence.come(f"bsc {link.peer}: connected")
        why = "the front has ended its link"
        try:
            self.from_bsc(link, *first)
            await link.serve(partial(self.from_bsc, link))
        except LinkFault as fault:
            why = str(fault)
            if self.switch and self.switch_presence.is_there:
                self.reset(self.switch)
        finally:
            self.bsc = None
            self.bsc_presence.leave(f"bsc {link.peer}: link ended: {why}")
            self.send(self.connections.bsc_left())

    def send(self, messages: Messages, asker: Side | None = None) -> None:
        """Sends messages to whom they are for. What answers the asker, and isn't passed on, is said in the other side's place."""
        for side, body in messages:
            if asker is None or asker is side:
                self.record.answered[f"{sccp.NAMES[body[0]]} to {side.value}"] += 1
            link = self.bsc if side is Side.BSC else self.switch
            if link:
                link.write(ipa.SCCP, body)

    def from_bsc(self, link: Link, stream: int, body: bytes) -> None:
        """Takes a frame of bsc."""
        if stream == ipa.SCCP and self.switch and (passed := self.connections.dtap_of_bsc(body)):
            if dtap.begins_call(passed, sccp.DATA_AT):
                self.calls["mobile"] += 1
            self.switch.write(stream, passed)
        elif stream == ipa.CCM:
            link.answer_ccm(body)
        elif stream != ipa.SCCP or not sccp.is_whole(body):
            self.record.dropped["frame of bsc that can't be read"] += 1
        elif body[0] != sccp.CONNECTION_REQUEST:
            self.send(self.connections.from_bsc(self.with_speech(body)), Side.BSC)
        else:
            self.open(body)

    def open(self, body: bytes) -> None:
        """Takes a connection request of bsc. While the switch isn't there it is refused."""
        mobile = self.mobiles.asked(*bssmap.greeting(sccp.read_requested(body)))
        if self.is_reset:
            one = self.connections.open(body)
            one.mobile = mobile
            request = sccp.with_calling_address(sccp.addressed(body, one.number), self.point_code)
            self.send([(Side.SWITCH, request)], Side.BSC)
        else:
            self.send([(Side.BSC, sccp.refused(body[sccp.REFERENCE]))], Side.BSC)

    def with_speech(self, body: bytes) -> bytes:
        """An ASSIGNMENT COMPLETE of a connection that asked for a speech channel, as the switch wants it; else what it is."""
        data, one = sccp.read_data(body), self.connections.find(body)
        if not data or not one:
            return body
        message = bssmap.message_of(data.text)
        if message in (bssmap.ASSIGNMENT_COMPLETE, bssmap.ASSIGNMENT_FAILURE):
            self.mobiles.answered(one.mobile)
        if not (one.asks_speech and message == bssmap.ASSIGNMENT_COMPLETE):
            return body
        one.asks_speech = False
        if not self.codec and not self.address:
            return body
        self.record.done["ASSIGNMENT COMPLETE of speech"] += 1
        data.text = bssmap.with_speech(data.text, self.address, self.codec)
        return data.octets()

    def from_switch(self, link: Link, stream: int, body: bytes) -> None:
        """Passes on a message of the switch, or answers it."""
        if stream == ipa.SCCP and self.bsc and len(body) <= ipa.MOST_OCTETS and (passed := self.connections.dtap_of_switch(body)):
            if dtap.begins_call(passed, sccp.DATA_AT):
                self.calls["switch"] += 1
            self.bsc.write(stream, passed)
        elif stream == ipa.CCM:
            link.answer_ccm(body)
        elif stream != ipa.SCCP:
            self.record.dropped[f"stream {stream:02x} of switch"] += 1
        elif body[:1] == bytes((sccp.UNITDATA,)):
            self.take_unitdata(link, sccp.read_unitdata(body) or b"")
        elif not sccp.is_whole(body) or len(body) > ipa.MOST_OCTETS:
            self.record.dropped["frame of switch that can't be read"] += 1
        elif body[0] == sccp.CONNECTION_REQUEST:  # bsc takes none
            self.send([(Side.SWITCH, sccp.refused(body[sccp.REFERENCE]))], Side.SWITCH)
        else:
            self.note_speech(body)
            self.send(self.connections.from_switch(body), Side.SWITCH)

    def note_speech(self, body: bytes) -> None:
        """Notes whose ASSIGNMENT REQUEST asks for a speech channel."""
        data, one = sccp.read_data(body), self.connections.find(body)
        if data and one and bssmap.asks_for_speech(data.text):
            one.asks_speech = True
            self.mobiles.requested(one.mobile)

    def take_unitdata(self, link: Link, data: bytes) -> None:
        """Takes what is connectionless: bsc knows none of it."""
        message = bssmap.message_of(data)
        if message == bssmap.RESET:
            self.subject.say(f"switch {link.peer}: RESET, acknowledged")
            self.send(self.connections.switch_left())
            link.write(ipa.SCCP, sccp.unitdata(bssmap.reset_acknowledge()))
        elif message == bssmap.RESET_ACKNOWLEDGE:
            self.is_reset = True
            self.connections.switch_is_reset()
            self.switch_presence.come(f"switch {link.peer}: has acknowledged RESET")
        elif message == bssmap.PAGING:
            self.record.done["PAGING"] += 1
            self.page(data[2:2 + data[1]])
        else:
            self.record.dropped[f"BSSMAP {message:02x} of switch" if message is not None else "UDT of switch"] += 1

    def status(self) -> dict[str, Any]:
        """For 'bsc-front status'."""
        return {"switch": {**self.switch_presence.status(), "reset": self.is_reset}, "bsc": self.bsc_presence.status(),
                "connections": self.connections.by_stage(), "calls": dict(self.calls),
                "frames": {"switch": self.switch_traffic.status(), "bsc": self.bsc_traffic.status()}, **self.record.status()}

    async def listen(self) -> list[asyncio.Server]:
        """Listens for bsc and for the switch."""
        servers = [await links.serve(self.front.switch_address, self.take_bsc)]
        where = f"waiting for bsc at {links.in_words(*self.front.switch_address)}"
        if self.front.switch.connect:
            say(f"{where}; the switch is at {self.front.switch.connect}")
            return servers
        servers.append(await links.serve(settings.read_address(self.front.switch.listen), self.take_switch))
        say(f"{where}, for the switch at {self.front.switch.listen}")
        return servers

    def say_counts(self) -> None:
        """Says at the end what was counted."""
        say(f"switch: {self.record.in_words()}")
