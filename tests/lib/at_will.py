# SPDX-License-Identifier: MIT OR Apache-2.0
"""Peers that don't wait for each other: stations, mobiles and the switch of tests/model/world.py play at will at the links of a relay.

What a peer makes waits for its link, each of which has a delay of its own, and is written whole or in pieces down to one octet. What
comes from the relay is in the peers' outboxes from when it was read. Links of stations break, in one of three ways.
"""
import asyncio

from lib.octets import ABIS, CCM, PING, PONG, SCCP, frame, frames_in, read, target_in, written
from lib.random_world import eager, random_event, random_settings
from lib.relay import PATIENCE, Wrong
from lib.telling import Telling, Unique
from model.controller import Settings

# how often a kind of event is tried
WEIGHTS = {
    "connect": 4, "upper": 4, "airup": 16, "airack": 14, "airdown": 14, "airdownlost": 0.2, "move": 5, "touch": 1, "arrive": 12,
    "return": 0.7, "basetakes": 18, "switchtakes": 10, "switchdoes": 3, "report": 4,
}
SIZES, MOBILES = (500, 1000), (3, 6, 12)
DELAYS = (0, 0, 0.001, 0.005, 0.02)  # seconds that a frame waits for its link, at most
WAYS = ("end", "reset", "half")  # in which a link breaks
PACES = (20, 40, 80)  # events that are tried in a millisecond
MOST_SECONDS = 0.7  # of a play
BREAKS = (0, 0, 0.01, 0.03)  # how often a link breaks, beside these weights


def settings_at_will(dice):
    """Settings with some cells in which each report may decide; in one of four plays timers may expire."""
    timers, text = dice.choice([(60000,), (60000,), (60000,), (200, 500)]), ""
    while text.count("[[cell]]") < 2:
        text = random_settings(dice, timers)
    return eager(text), Settings(eager(text))


class AtWill(Telling):
    """The peers, whose controller is elsewhere."""

    def __init__(self, settings):
        super().__init__(settings)
        self.cells, self.controller = settings.cells, None
        self.references = {}  # by station, channel and handover reference: the number of the activation

    def arrives(self, link, message):
        """A frame of the relay."""
        self.outboxes[link].append((message, self.target(link, message[3]) if message[0] == "COMMAND" else None))

    def target(self, link, text):
        """The tenure to which a command leads."""
        station, channel, reference = target_in(text, self.cells)
        if station is None:
            return link, channel, self.activations.get((link, channel), 0)
        return station, channel, self.references.get((station, channel, reference), 0)

    def basetakes(self, station):
        first = self.outboxes[station][:1]
        was_taken = super().basetakes(station)
        if was_taken and first[0][0][0] == "CHANNEL ACTIVATION":
            _, channel, _, reference = first[0][0]
            self.references[station, channel, reference] = self.activations[station, channel]
        return was_taken


class Play:
    """A play of these peers at the links of a relay: what they do is random, and so is when."""

    def __init__(self, relay, settings, dice):
        self.relay, self.settings, self.dice = relay, settings, dice
        self.size, self.mobiles, self.pace = dice.choice(SIZES), dice.choice(MOBILES), dice.choice(PACES)
        self.unique = Unique(with_control=False)
        self.weights = {**WEIGHTS, "basedown": dice.choice(BREAKS)}
        self.world = AtWill(settings)
        links = range(len(relay.links))
        self.delays = [dice.choice(DELAYS) for _ in links]
        self.got = [bytearray() for _ in links]
        self.pongs = [0 for _ in links]
        self.journal = []  # link, 'sent' or 'got', message: in the order in which a write began and a frame was read
        self.taken = self.breaks = 0
        self.fault = None
        for link in relay.links:
            link.setblocking(False)

    async def run(self):
        """Plays, and raises what was wrong while it was played."""
        links = range(len(self.relay.links))
        self.has_made = [asyncio.Event() for _ in links]
        self.tasks = [[asyncio.create_task(self.guarded(work, link)) for work in (self.reads, self.writes)] for link in links]
        try:
            await self.acts()
            await self.settles()
        finally:
            await asyncio.gather(*map(self.ends, self.tasks))

    async def guarded(self, work, link):
        try:
            await work(link)
        except Exception as fault:  # whatever it is, the play is over
            self.fault = self.fault or fault

    async def ends(self, tasks):
        for task in tasks:
            task.cancel()
        await asyncio.gather(*tasks, return_exceptions=True)

    # ---- a link

    async def reads(self, link):
        """Takes what comes, as long as the link is there."""
        place = 0
        while octets := await self.receive(link):
            self.got[link] += octets
            place += self.takes(link, self.got[link][place:])
        if self.world.is_up[link]:
            if self.world.is_up[0]:
                raise Wrong(f"the relay ends link {link}")
            self.world.basedown(link)

    async def receive(self, link):
        try:
            return await asyncio.get_running_loop().sock_recv(self.relay.links[link], 65536)
        except OSError:
            return b""

    def takes(self, link, octets):
        """Gives the whole frames to the peer; the answer is how many octets these are."""
        end = 0
        for stream, body, end in frames_in(octets):
            if (stream, body) == (CCM, PONG):
                self.pongs[link] += 1
                continue
            if stream != (SCCP if link == 0 else ABIS):
                raise Wrong(f"link {link} gets {stream:02x} {body.hex()}")
            message = read(link, body)
            self.journal.append((link, "got", message))
            if self.world.is_up[link]:
                self.world.arrives(link, message)
        return end

    async def writes(self, link):
        """Writes what the peer makes, each message after a while."""
        made = self.world.made
        while True:
            await self.has_made[link].wait()
            self.has_made[link].clear()
            while made[link]:
                await asyncio.sleep(self.dice.random() * self.delays[link])
                if made[link]:
                    await self.write(link, made[link].pop(0))

    async def write(self, link, message):
        octets = frame(CCM, PING) if message == PING else frame(*written(link, message))
        if message != PING:
            self.journal.append((link, "sent", message))
        try:
            for piece in self.pieces(octets):
                await asyncio.get_running_loop().sock_sendall(self.relay.links[link], piece)
                await asyncio.sleep(0)
        except OSError:
            pass  # the relay has ended the link, which its reader finds

    def pieces(self, octets):
        """It whole, in two, or in pieces of one octet."""
        chance = self.dice.random()
        if chance < 0.15:
            return [octets[place:place + 1] for place in range(len(octets))]
        place = self.dice.randint(1, len(octets) - 1)
        return [octets[:place], octets[place:]] if chance < 0.3 else [octets]

    async def break_off(self, link):
        """Its station's link breaks, or the switch's; where only the sending side ends, what comes is read on."""
        self.breaks += 1
        how = self.dice.choice(WAYS)
        await self.ends(self.tasks[link][how == "half":])
        self.relay.close(link, how)

    # ---- what is done

    async def acts(self):
        """So many events are tried at a time, and then what has come is taken."""
        clock = asyncio.get_running_loop().time
        end = clock() + MOST_SECONDS
        while self.taken < self.size and clock() < end and self.fault is None:
            await self.tries()
            self.wake()
            await asyncio.sleep(0.001)

    async def tries(self):
        for _ in range(self.pace):
            event = self.unique(random_event(self.dice, self.world, self.settings, self.mobiles, self.weights))
            was_taken = event is not None and self.world.run(event)
            self.taken += was_taken
            if was_taken and event[0] == "basedown":
                await self.break_off(event[1])

    def wake(self):
        for link, made in enumerate(self.world.made):
            if made:
                self.has_made[link].set()

    async def settles(self):
        """All that was made is handled, and all that the relay puts for it has come: twice, since one link's items put for others."""
        await self.asks(1)
        await self.asks(2)

    async def asks(self, turn):
        for link in self.up():
            self.world.made[link].append(PING)
        self.wake()
        await self.until(lambda: all(self.pongs[link] >= turn for link in self.up()), "PONG")

    def up(self):
        return [link for link, is_up in enumerate(self.world.is_up) if is_up]

    async def until(self, condition, what):
        clock = asyncio.get_running_loop().time
        end = clock() + PATIENCE
        while not condition() and self.fault is None:
            if clock() > end:
                raise Wrong(f"{what} doesn't come")
            await asyncio.sleep(0.001)
        if self.fault:
            raise self.fault

    # ---- what is looked at

    def beginning(self):
        """The journal with what was got up to an octet of each link, wherever that is."""
        left = []
        for octets in self.got:
            whole = frames_in(octets[:self.dice.randint(0, len(octets))])
            left.append(sum(stream != CCM for stream, _, _ in whole))
        for link, way, message in self.journal:
            left[link] -= way == "got"
            if way == "sent" or left[link] >= 0:
                yield link, way, message
