# SPDX-License-Identifier: MIT OR Apache-2.0
"""A controller without an order of messages, to compare bsc with: what comes is passed on at once. Not proved.

    python3 -m real_network.plain_relay --config FILE

It takes bsc's place in examples/network: the same links, the same settings. It sets up SDCCHs, hands a mobile over where a
report tells of a far better cell, and has no other channels (an assignment is said to be complete, and nothing changes) and
no timers.
"""
import asyncio
import sys
from collections.abc import Callable

from bsc_front.octets import bssmap, ipa, rsl, sccp
from bsc_front.octets.system_information import cell_identity
from bsc_front.peers import link as ipa_link
from bsc_front.peers.link import Link, LinkFault
from bsc_front.service import settings

MARGIN = 10  # by how many dB a neighbour has to be better
OLD_CHANNEL = 4.0  # seconds until an old channel is released: what comes late on it is passed on, too
CHANNEL_ACTIVATION, CHANNEL_ACTIVATION_ACK, MEASUREMENT_RESULT = 0x0821, 0x0822, 0x0828
CHANNEL_REQUIRED, IMMEDIATE_ASSIGN, ESTABLISH_INDICATION, DATA_INDICATION = 0x0C13, 0x0C16, 0x0206, 0x0202
REPORT = b"\x0b\x00\x12\x06\x15"  # L3 information of 18 octets: MEASUREMENT REPORT

Channel = tuple[int, int]  # a cell, by its place, and a channel number


class Connection:
    """A mobile's way: its channels, and its references."""

    def __init__(self, channel: Channel, reference: bytes, request: bytes) -> None:
        self.serving, self.target = channel, None
        self.reference, self.switch = reference, b""
        self.request = request  # request reference and timing advance of its access


class Relay:
    """All connections."""

    def __init__(self, front: settings.Front) -> None:
        self.front = front
        self.stations: list[Link] = []
        self.switch: Link | None = None
        self.by_channel: dict[Channel, Connection] = {}
        self.by_reference: dict[bytes, Connection] = {}
        self.count = 0

    def to_station(self, channel: Channel, text: bytes) -> None:
        """Sends RSL."""
        self.stations[channel[0]].write(ipa.RSL, text)

    def to_mobile(self, channel: Channel, link: int, message: bytes) -> None:
        """DATA REQUEST."""
        self.to_station(channel, bytes((3, 1, rsl.CHANNEL_NUMBER, channel[1], rsl.LINK_IDENTIFIER, link, rsl.L3_INFORMATION))
                        + len(message).to_bytes(2, "big") + message)

    def to_switch(self, one: Connection, data: bytes) -> None:
        """DT1."""
        self.switch.write(ipa.SCCP, sccp.Data(one.switch, data).octets())

    def activate(self, place: int, one: Connection | None, kind: int, request: bytes = b"") -> None:
        """Activates the first free SDCCH of a cell, for a connection or for a new one."""
        for number in self.front.cells[place].channels:
            if number >= 0x40 and (place, number) not in self.by_channel:
                break
        else:
            return
        if one is None:
            self.count += 1
            one = Connection((place, number), self.count.to_bytes(3, "big"), request)
            self.by_reference[one.reference] = one
        else:
            one.target = (place, number)
        self.by_channel[place, number] = one
        mode = b"\x06\x04\x00\x03\x01\x00" + (b"\x09\x00" if kind else b"")  # signalling; handover reference
        self.to_station((place, number), CHANNEL_ACTIVATION.to_bytes(2, "big") + bytes((1, number, 3, kind)) + mode)

    def description(self, channel: Channel) -> bytes:
        """Channel description."""
        cell = self.front.cells[channel[0]]
        return bytes((channel[1], (cell.bsic & 7) << 5 | cell.arfcn >> 8, cell.arfcn & 255))

    def activated(self, one: Connection) -> None:
        """Tells the mobile of its channel."""
        if one.target is None:
            text = b"\x2d\x06\x3f\x00" + self.description(one.serving) + one.request + b"\0" + b"\x2b" * 11
            self.to_station(one.serving, IMMEDIATE_ASSIGN.to_bytes(2, "big") + b"\x01\x90\x2b\x17" + text)
            return
        cell = self.front.cells[one.target[0]]
        self.to_mobile(one.serving, 0, b"\x06\x2b" + bytes((cell.arfcn >> 8 << 6 | cell.bsic, cell.arfcn & 255))
                       + self.description(one.target) + b"\0\0")

    def release(self, channel: Channel) -> None:
        """Releases a channel."""
        self.by_channel.pop(channel, None)
        self.to_station(channel, rsl.RF_CHANNEL_RELEASE.to_bytes(2, "big") + bytes((rsl.CHANNEL_NUMBER, channel[1])))

    def from_station(self, place: int, body: bytes) -> None:
        """Takes a message of a station."""
        message = rsl.message_of(body)
        channel = place, rsl.channel_of(body)
        if message == CHANNEL_REQUIRED:
            self.activate(place, None, 0, body[5:8] + body[9:10])
        elif (one := self.by_channel.get(channel)) is None:
            return
        elif message == CHANNEL_ACTIVATION_ACK:
            self.activated(one)
        elif message == ESTABLISH_INDICATION and not one.switch and len(body) > 9:
            cell = self.front.cells[place]
            self.switch.write(ipa.SCCP, sccp.connection_request(one.reference, bssmap.bssmap(
                bytes((bssmap.COMPLETE_LAYER_3_INFORMATION, bssmap.CELL_IDENTIFIER, 8, 0))
                + cell_identity(self.front.mcc, self.front.mnc, cell)
                + bytes((bssmap.LAYER_3_INFORMATION,)) + body[8:])))
        elif message == DATA_INDICATION:
            self.from_mobile(one, channel, body[5], body[9:])
        elif message == MEASUREMENT_RESULT and REPORT in body and channel == one.serving and one.target is None:
            self.look(one, body.partition(REPORT)[2])

    def look(self, one: Connection, report: bytes) -> None:
        """Begins a handover to the other cell where it is far better."""
        neighbours = (report[2] & 1) << 2 | report[3] >> 6
        if not report[1] & 0x40 and 0 < neighbours < 7 and (report[3] & 63) > (report[0] & 63) + MARGIN:
            self.activate(1 - one.serving[0], one, 1)

    def from_mobile(self, one: Connection, channel: Channel, link: int, message: bytes) -> None:
        """Passes on a message of a mobile."""
        if message[0] & 15 != 6 or message[1] == 0x27:
            self.to_switch(one, bytes((1, link, len(message))) + message)
        elif message[1] == 0x2C and channel == one.target:
            asyncio.get_running_loop().call_later(OLD_CHANNEL, self.release, one.serving)
            one.serving, one.target = one.target, None

    def from_switch(self, body: bytes) -> None:
        """Takes a message of the switch."""
        one = self.by_reference.get(body[sccp.REFERENCE])
        if one is None:
            return
        if body[0] == sccp.CONNECTION_CONFIRM:
            one.switch = body[sccp.SECOND_REFERENCE]
        elif body[0] == sccp.RELEASED:
            self.switch.write(ipa.SCCP, bytes((sccp.RELEASE_COMPLETE,)) + body[sccp.SECOND_REFERENCE] + one.reference)
            del self.by_reference[one.reference]
        elif (data := sccp.read_data(body)) and data.text[0] == 1:
            self.to_mobile(one.serving, data.text[1], data.text[3:])
        elif data and bssmap.message_of(data.text) == bssmap.ASSIGNMENT_REQUEST:
            self.to_switch(one, bssmap.bssmap(bytes((bssmap.ASSIGNMENT_COMPLETE, bssmap.RR_CAUSE, 0))))
        elif data and bssmap.message_of(data.text) == bssmap.CLEAR_COMMAND:
            self.to_mobile(one.serving, 0, rsl.CHANNEL_RELEASE + b"\0")
            self.release(one.serving)
            self.to_switch(one, bssmap.bssmap(bytes((bssmap.CLEAR_COMPLETE,))))

    async def read(self, link: Link, stream: int, take: Callable[[bytes], None]) -> None:
        """Takes what comes from a link."""
        while True:
            frame = await link.read()
            if frame[0] == stream and frame[1]:
                take(frame[1])

    async def run(self) -> None:
        """Opens the links as bsc does, and relays."""
        taken: asyncio.Queue[tuple[int, Link]] = asyncio.Queue()

        async def take(place: int, link: Link) -> None:
            """Keeps a station's link open."""
            taken.put_nowait((place, link))
            await asyncio.Event().wait()

        for place, cell in enumerate(self.front.cells):
            await ipa_link.serve(cell.listen, lambda link, place=place: take(place, link))
        self.switch = await ipa_link.connect(self.front.switch_address)
        print("switch: connected", file=sys.stderr, flush=True)
        links = dict([await taken.get() for _ in self.front.cells])
        self.stations = [links[place] for place in range(len(links))]
        await asyncio.gather(self.read(self.switch, ipa.SCCP, self.from_switch), *(
            self.read(link, ipa.RSL, lambda body, place=place: self.from_station(place, body))
            for place, link in enumerate(self.stations)))


async def main() -> None:
    """Runs the relay until a link ends."""
    try:
        await Relay(settings.from_words("plain_relay", sys.argv[1:])).run()
    except LinkFault as fault:
        print(f"link {fault}", file=sys.stderr)


if __name__ == "__main__":
    asyncio.run(main())
