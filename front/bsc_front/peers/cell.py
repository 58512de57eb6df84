# SPDX-License-Identifier: MIT OR Apache-2.0
"""A cell between its port of bsc and its base station; each of the two may be away, and the other one's link stays. Not proved.

While both are there, frames pass as they are, but for what docs/NETWORK.md says. While the station is away, bsc is answered in
its place, by what the table of channels says. While bsc is away, the station is rid of the calls of bsc's former life.
"""
import asyncio
from collections.abc import Callable
from dataclasses import dataclass, field
from functools import partial
from typing import Any

from bsc_front.octets import ipa, paging, rsl
from bsc_front.octets.description import Cell as Description
from bsc_front.octets.measurement_reports import Reports
from bsc_front.peers import link as links
from bsc_front.peers.distance import Distance
from bsc_front.peers.link import Link, LinkFault
from bsc_front.service import settings
from bsc_front.service.log import ERROR, Subject, fault_in_words
from bsc_front.service.presence import Presence, Record, Traffic
from bsc_front.tables.alarms import Alarms
from bsc_front.tables.channels import Channels, Verdict
from bsc_front.tables.limits import Limit
from bsc_front.tables.mobiles import ANSWERS, COMMANDS, Mobiles
from bsc_front.tables.pages import Pages

ATTEMPT_EVERY = 1.0  # seconds between two attempts to connect to bsc
ATTEMPT_REFUSED = 10.0  # seconds, at most, where bsc refuses links: each time it is twice as long, since bsc logs each of them
SETTLED = 1.0  # seconds: a link that bsc shuts before that, and over which nothing came, was refused
MOST_REQUIRED = 100  # CHANNEL REQUIRED in a second; a mobile asks again where it isn't answered
HEEDED = COMMANDS | {rsl.CHANNEL_RELEASE}  # messages to a mobile that the front heeds
RELEASE_PATIENCE = 10.0  # seconds for the station's acknowledgements once bsc has ended


@dataclass
class Leaving:
    """A channel whose mobile has CHANNEL RELEASE: what waits until it has left, RF CHANNEL RELEASE at first, and until when."""
    timer: asyncio.TimerHandle
    has_left: bool = False
    held: list[bytes] = field(default_factory=list)


class StationLink:
    """The RSL link of a station that is there.

    Behind CHANNEL RELEASE the SACCH ends, and RF CHANNEL RELEASE waits: for T3109, or for T3111 once the mobile has left (TS 44.018
    clause 3.4.13.1.1).
    """

    def __init__(self, link: Link, station: settings.Station, record: Record) -> None:
        self.link = link
        self.settings = station
        self.record = record
        self.leaving: dict[int, Leaving] = {}

    def send(self, body: bytes) -> None:
        """Sends a message of bsc, at once or in its turn."""
        channel = rsl.channel_of(body)
        one = self.leaving.get(channel)
        if one and (one.held or rsl.message_of(body) == rsl.RF_CHANNEL_RELEASE):
            self.record.done["RF CHANNEL RELEASE that waited"] += not one.held
            one.held.append(body)
            return
        self.link.write(ipa.RSL, body)
        if not one and rsl.is_channel_release(body):
            self.leaving[channel] = Leaving(self.later(self.settings.t3109_ms, channel))
            self.link.write(ipa.RSL, rsl.on_channel(rsl.DEACTIVATE_SACCH, channel))

    def later(self, milliseconds: int, channel: int) -> asyncio.TimerHandle:
        """Lets a channel go when a timer expires."""
        return asyncio.get_running_loop().call_later(milliseconds / 1000, self.let_go, channel)

    def mobile_left(self, channel: int) -> None:
        """A mobile has left its channel: T3111 follows T3109."""
        one = self.leaving.get(channel)
        if one and not one.has_left:
            one.timer.cancel()
            one.has_left, one.timer = True, self.later(self.settings.t3111_ms, channel)

    def release(self, channel: int) -> None:
        """Has a channel released that bsc, which has ended, can't release any more."""
        if one := self.leaving.pop(channel, None):
            one.timer.cancel()
        self.record.done["RF CHANNEL RELEASE since bsc had ended"] += 1
        self.link.write(ipa.RSL, rsl.on_channel(rsl.RF_CHANNEL_RELEASE, channel))

    def most_waiting(self) -> float:
        """For how many seconds at most RF CHANNEL RELEASE still waits."""
        return max(self.settings.t3109_ms, self.settings.t3111_ms) / 1000 if self.leaving else 0.0

    def let_go(self, channel: int) -> None:
        """Sends what was held of a channel. A link that has ended takes nothing any more."""
        for body in self.leaving.pop(channel).held:
            self.link.write(ipa.RSL, body)


class Cell:
    """A cell's channels, its link of bsc, and its station's links."""

    def __init__(self, front: settings.Front, cell: Description, mobiles: Mobiles | None = None) -> None:
        self.front = front
        self.cell = cell
        self.distance = Distance(cell, mobiles or Mobiles(front.cells))
        self.reports = Reports(cell)
        self.system_information = rsl.system_information(cell, front.mcc, front.mnc)
        self.channels = Channels(cell.channels)
        self.subject = Subject()
        self.faults = Subject()  # of the front itself, so that no line of who comes and goes takes their place
        self.bsc_presence, self.station_presence = Presence(self.subject), Presence(self.subject)
        self.bsc_traffic, self.station_traffic = Traffic(), Traffic()
        self.reported = Subject()  # what the station reports
        self.alarms = Alarms()  # of the station's last life
        self.record = Record()
        self.pages = Pages(paging.paging_blocks(cell))
        self.answered: Callable[[bytes], object] = self.pages.answered  # is given the identity of each mobile that answers PAGING
        self.required = Limit(MOST_REQUIRED)
        self.bsc: Link | None = None
        self.oml: Link | None = None
        self.is_configured = False  # by its OML link; before that no channel of it can be activated
        self.station: StationLink | None = None
        self.changed = asyncio.Event()  # the channels may have changed

    async def keep_joined(self) -> None:
        """Keeps the cell joined to bsc. A fault of the front there ends the links of this cell alone; then the task begins anew."""
        while True:
            try:
                await self.join_again_and_again()
            except Exception as fault:
                self.end_all(self.say_fault(fault))
            await asyncio.sleep(ATTEMPT_EVERY)

    def say_fault(self, fault: Exception) -> str:
        """Says a fault of the front; gives why a link ends by it."""
        self.faults.say(f"cell {self.cell.number}: a fault of the front ends links of this cell: {fault_in_words(fault)}", ERROR)
        return "a fault of the front"

    def end_all(self, why: str) -> None:
        """Ends the links of the station, and begins with no channel in use; bsc's link has ended already."""
        for link in (self.station.link if self.station else None, self.oml):
            if link:
                link.end(why)
        self.channels = Channels(self.cell.channels)

    async def join_again_and_again(self) -> None:
        """Connects to the cell's port of bsc, again and again, and serves the link as long as it is there."""
        address = links.in_words(*self.cell.listen)
        loop = asyncio.get_running_loop()
        is_refused = False
        pause = ATTEMPT_EVERY
        while True:
            begin = loop.time()
            try:
                link = await links.connect(self.cell.listen)
                links.join_bsc(link)
            except OSError as fault:
                is_refused = False
                self.bsc_presence.leave(f"cell {self.cell.number}: bsc takes no link at {address}: {links.reason(fault)}")
            else:
                is_refused = await self.serve_bsc(link, is_refused)
                await self.release_all()
            pause = min(2 * pause, ATTEMPT_REFUSED) if is_refused else ATTEMPT_EVERY
            await asyncio.sleep(begin + pause - loop.time())

    async def serve_bsc(self, link: Link, was_refused: bool) -> bool:
        """Takes what bsc sends until its link ends; gives whether bsc has refused it.

        Where the last link was refused, this one counts as joined only once it has lasted.
        """
        name, loop = f"cell {self.cell.number}", asyncio.get_running_loop()
        begin, before, why = loop.time(), self.bsc_traffic.received, "the front has ended its link"
        joining = loop.call_later(SETTLED if was_refused else 0.0, self.bsc_presence.come,
                                  f"{name}: joined to bsc at {link.peer}")
        self.bsc, link.traffic = link, self.bsc_traffic
        self.distance.joined()
        try:
            await link.serve(partial(self.from_bsc, link))
        except LinkFault as fault:
            is_refused = self.bsc_traffic.received == before and loop.time() - begin < SETTLED
            why = "refused" if is_refused else str(fault)
            return is_refused
        finally:
            joining.cancel()
            self.bsc = None
            link.close()
            self.bsc_presence.leave(f"{name}: parted from bsc: {why}")

    def from_bsc(self, link: Link, stream: int, body: bytes) -> None:
        """Takes a frame of bsc: it is passed on, answered in the station's place, or dropped."""
        if body[rsl.HEAD] in self.channels.requests and stream == ipa.RSL and self.station and not self.station.leaving and (
                body[rsl.LAYER_3_TYPE] not in HEEDED):
            self.station.link.write(stream, body)
        elif stream == ipa.RSL:
            message = rsl.message_of(body)
            if message == rsl.IMMEDIATE_ASSIGN_COMMAND:
                self.obey(Verdict.PASS if self.channels.assigns(rsl.assigned_channel(body)) else Verdict.DROP, body)
            else:
                self.obey(self.channels.from_bsc(message, rsl.channel_of(body), self.is_ready()), body)
        elif stream != ipa.CCM:
            self.record.dropped[f"stream {stream:02x} of bsc"] += 1
        elif body[:1] == bytes((ipa.PONG,)):
            self.distance.ponged()
        else:
            link.answer_ccm(body)

    def obey(self, verdict: Verdict, body: bytes) -> None:
        """Does with a message of bsc what the table says."""
        if verdict is Verdict.PASS and self.station:
            self.station.send(self.distance.from_bsc(body))
        elif verdict is Verdict.REFUSE:
            self.answer(rsl.CHANNEL_ACTIVATION_NACK, rsl.channel_of(body))
        elif verdict is Verdict.ACKNOWLEDGE:
            self.answer(rsl.RF_CHANNEL_RELEASE_ACK, rsl.channel_of(body))
        else:
            self.record.dropped[f"message {rsl.message_of(body):04x} of bsc"] += 1

    def answer(self, message: int, number: int) -> None:
        """Says something to bsc in the station's place."""
        if self.bsc:
            self.bsc.write(ipa.RSL, rsl.on_channel(message, number))
            self.record.answered[rsl.IN_ITS_PLACE[message][0]] += 1

    async def release_all(self) -> None:
        """bsc has ended: the station releases each channel. One that doesn't acknowledge that in time is given up."""
        self.distance.forget()
        for number in self.channels.bsc_left():
            if self.station:
                self.station.release(number)
        patience = RELEASE_PATIENCE + (self.station.most_waiting() if self.station else 0)
        giving_up = asyncio.get_running_loop().call_later(
            patience, self.end_station, "it hasn't acknowledged RF CHANNEL RELEASE")
        try:
            while self.channels.in_use():
                self.changed.clear()
                await self.changed.wait()
        finally:
            giving_up.cancel()

    def is_ready(self) -> bool:
        """Whether a station is there that can activate channels: it is configured, and has its RSL link."""
        return self.station is not None and self.is_configured

    def look(self) -> None:
        """Notes whether the station has become ready."""
        if self.station and self.is_configured:
            self.station_presence.come(f"station {self.cell.unit}: there, in cell {self.cell.number}, "
                                       f"by RSL from {self.station.link.peer}")

    async def serve_station(self, link: Link, name: str) -> None:
        """Gives a station its system information, and takes what it sends until its link ends."""
        link.traffic = self.station_traffic
        for text in self.system_information:
            link.write(ipa.RSL, text)
        self.station = StationLink(link, self.front.station, self.record)
        self.look()
        why = "the front has ended its link"
        try:
            await link.serve(partial(self.from_station, link), lambda: self.bsc)
        except LinkFault as fault:
            why = str(fault)
        except Exception as fault:
            why = self.say_fault(fault)
        finally:
            self.station_left(name, why)

    def from_station(self, link: Link, stream: int, body: bytes) -> None:
        """Takes a frame of the station: it is passed on, answered, or dropped."""
        message = self.channels.indications.get(body[rsl.HEAD])
        if message is None or stream != ipa.RSL or not self.bsc or len(body) > ipa.MOST_OCTETS:
            self.look_into(link, stream, body)
        elif message == rsl.MEASUREMENT_RESULT:
            self.distance.measured(body)
            self.bsc.write(stream, body if self.reports.is_same else self.reports.as_bsc_counts(body))
        elif body[rsl.LAYER_3_TYPE] in ANSWERS:
            self.look_into(link, stream, body)
        else:
            self.bsc.write(stream, body)

    def look_into(self, link: Link, stream: int, body: bytes) -> None:
        """Takes any frame of the station."""
        if stream == ipa.CCM:
            link.answer_ccm(body)
            return
        message, number = rsl.message_of(body), rsl.channel_of(body)
        if why := self.unwanted(stream, message, number, body) or self.beyond(message, number, body):
            self.record.dropped[why] += 1
        elif self.bsc:
            self.to_bsc(self.bsc, message, body)
        else:
            self.record.dropped["message while bsc is away"] += 1

    def to_bsc(self, bsc: Link, message: int, body: bytes) -> None:
        """Passes a message of the station on to bsc. A PING behind CHANNEL REQUIRED says where what answers it ends."""
        self.distance.from_station(body)
        bsc.write(ipa.RSL, self.reports.as_bsc_counts(body))
        if message == rsl.CHANNEL_REQUIRED:
            bsc.write(ipa.CCM, bytes((ipa.PING,)))
        elif message == rsl.ESTABLISH_INDICATION and (identity := paging.answer_of(body)):
            self.answered(identity)

    def unwanted(self, stream: int, message: int, number: int, body: bytes) -> str:
        """Why a frame of a station isn't for bsc, or nothing. What it says of its load is noted."""
        if stream != ipa.RSL:
            return f"stream {stream:02x}"
        if len(body) > ipa.MOST_OCTETS:
            return "frame that is too long"
        if message in rsl.OF_DEDICATED_CHANNEL:
            if message == rsl.ERROR_INDICATION and rsl.leaves_link_up(body):
                return "ERROR INDICATION of a link that goes on"
            return "" if number else "message without a channel number"
        if message == rsl.CCCH_LOAD_INDICATION and (room := paging.room_of(body)) is not None:
            self.pages.take_load(room)
        return "" if message == rsl.CHANNEL_REQUIRED else rsl.FILTERED.get(message, "message that bsc doesn't know")

    def beyond(self, message: int, number: int, body: bytes) -> str:
        """Why bsc isn't to have a message of the station, though it knows it, or nothing; it is noted in the table."""
        if message == rsl.CHANNEL_REQUIRED:
            return "" if self.required.takes() else f"CHANNEL REQUIRED beyond {MOST_REQUIRED} in a second"
        if message in rsl.CHANGES_CHANNEL:
            self.changed.set()
        elif message == rsl.RELEASE_INDICATION and self.station and rsl.is_left(body):
            self.station.mobile_left(number)
        return "" if self.channels.from_station(message, number) else "message of a channel that isn't in use"

    def station_left(self, name: str, why: str) -> None:
        """The station went away: bsc hears it of each channel, and nothing of that station comes behind it."""
        self.station = None
        if self.oml:
            self.oml.end("its RSL link ended")
        messages = self.channels.station_left()
        self.distance.forget()
        for message, number in messages:
            self.answer(message, number)
        self.changed.set()
        self.station_presence.leave(f"{name}: away: {why}; channels in use: {len(messages)}")

    def end_station(self, why: str) -> None:
        """Takes the station for gone."""
        if self.station:
            self.station.link.end(why)

    def status(self) -> dict[str, Any]:
        """For 'bsc-front status'."""
        channels = {f"0x{number:02x}": state.value for number, state in self.channels.in_use().items()}
        return {"cell": self.cell.number, "unit": self.cell.unit, "station": {**self.station_presence.status(), **self.alarms.status()},
                "bsc": self.bsc_presence.status(), "channels": channels, "free": len(self.cell.channels) - len(channels),
                "frames": {"station": self.station_traffic.status(), "bsc": self.bsc_traffic.status()}, **self.record.status()}
