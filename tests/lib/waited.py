# SPDX-License-Identifier: MIT OR Apache-2.0
"""A script that is played over TCP event by event, with one order of what the relay gets: that of the script. The octets on each link
have to be those that `bsc trace` shows of it.

The peers are those of tests/model/world.py. In the place of its controller is the relay: at a `handle` it gets the octets of the item,
and what it puts is awaited. Behind them it gets a PING, whose PONG comes once it has done with the item.
"""
import collections
import itertools
import random
import subprocess
from dataclasses import dataclass

from lib.common import TOP
from lib.octets import ABIS, CCM, PING, PONG, SCCP, Unread, frame, read, written
from lib.player import play
from lib.random_world import WEIGHTS, eager, line_of, random_event, random_settings
from lib.relay import PATIENCE, Relay, Wrong
from lib.telling import Telling, Unique
from model.controller import Settings
from model.world import World

TIMERS = (60000,)  # milliseconds: longer than a script takes on a loaded machine
SIZES, MOBILES = (60, 600, 1500), (1, 2, 3, 6)
MOST_IDLE = 300  # events that are tried in a row and aren't taken; then nothing goes on any more
BREAKS = (0, 0, 0.02, 0.1)  # how often a link breaks
EAGER = 0.7  # how often each report may decide
SLOW = 0.8  # how often what a slow source brings has to wait on
OFTEN = {"tick": 0, "upper": 5, "airup": 18, "airack": 14, "airdown": 18, "basetakes": 18, "handle": 18, "switchtakes": 10,
         "move": 14, "arrive": 14}  # other weights than usual
SPARE_REFUSALS = 0.001  # of the events that aren't taken
# what the words of an event are, where they aren't all numbers
WORDS = {"connect": (int, int, bytes.fromhex, "y".__eq__), "upper": (int, int, bytes.fromhex), "report": (int, bytes.fromhex),
         "switchdoes": (str, int, int, bytes.fromhex)}


@dataclass
class Script:
    text: str  # of the settings
    events: list
    is_cut: bool = False  # before word of a break that nobody would see

    def settings(self):
        return Settings(self.text)

    def lines(self):
        return "".join(line_of(event) + "\n" for event in self.events)


def example():
    """The handover of the examples."""
    text = (TOP / "examples/two-cells.toml").read_text()
    text += "[timers]\n" + "".join(f"{name} = {TIMERS[0]}\n" for name in ("t3101_ms", "t3103_ms", "t3107_ms", "drain_ms"))
    return Script(text, [event_of(line) for line in (TOP / "examples/handover.script").read_text().splitlines()])


def event_of(line):
    kind, *words = line.split()
    return kind, *(read_word(word) for read_word, word in zip(WORDS.get(kind, itertools.repeat(int)), words))


def random_script(number):
    """A random script without ticks, whose messages are there once. It ends before word of a break that nobody would see: when the
    relay has taken that can't be seen either."""
    dice, unique = random.Random(number), Unique(with_control=True)
    text = random_settings(dice, TIMERS)
    script = Script(eager(text) if dice.random() < EAGER else text, [])
    settings, world = script.settings(), World(script.settings())
    size, mobiles, slow = dice.choice(SIZES), dice.choice(MOBILES), dice.randint(0, 3)
    weights = {**WEIGHTS, **OFTEN, "basedown": dice.choice(BREAKS)}
    idle = 0
    while len(script.events) < size and idle < MOST_IDLE and not script.is_cut:
        event = unique(random_event(dice, world, settings, mobiles, weights))
        idle += 1
        # one source is slow, so that what it brings is late
        if event is None or event == ("basepush", slow) and dice.random() < SLOW:
            continue
        if event[0] == "basedown" and not is_used(world, event[1]):
            continue
        is_word = event == ("handle",) and [word for _, word in world.inbox[:1]] == ["Down"]
        was_taken = world.run(event)
        script.is_cut = is_word and not any(world.is_up[link] for link, _ in world.controller.outputs)
        if not script.is_cut and (was_taken or dice.random() < SPARE_REFUSALS):
            script.events.append(event)
        idle *= not was_taken
    return script


def is_used(world, source):
    """Whether a connection goes over this link."""
    return any(source in (0, connection.serving[0]) for connection in world.controller.connections.values())


def end_of(name):
    """The link of an end in the lines of a trace."""
    return 0 if name == "switch" else int(name.removeprefix("station "))


class Trace:
    """What `bsc trace` shows of a script: the frames that are put on links, and which events are taken."""

    def __init__(self, program, settings, script):
        done = subprocess.run([program, "trace", "--config", settings], input=script.encode(), capture_output=True, timeout=PATIENCE)
        if done.returncode != 0 or done.stderr:
            raise Wrong(f"trace: status {done.returncode}: {done.stderr.decode()}")
        self.put, self.sent = collections.defaultdict(lambda: collections.defaultdict(list)), collections.defaultdict(list)
        self.taken = []
        for event, begin, end, _, what, octets in (line.split("\t") for line in done.stdout.decode().splitlines()):
            if begin == "script":
                self.taken.append(what == "taken")
            elif what.startswith("sent") and begin == "bsc":
                self.put[int(event)][end_of(end)].append(bytes.fromhex(octets))
            elif what.startswith("sent"):
                self.sent[end_of(begin)].append(bytes.fromhex(octets))


class Wire:
    """The relay at its links, as the controller of a world."""

    def __init__(self, relay, trace, world):
        self.links, self.trace, self.world = relay.links, trace, world
        self.event = self.compared = 0
        self.given = collections.Counter()  # by source: how many items it got
        self.is_closed = [False] * len(self.links)
        self.journal = []
        for link in self.links:
            link.settimeout(PATIENCE)

    def take(self, source, message):
        """What the relay puts for this item, each with the link that it goes to."""
        if message == "Down":
            self.links[source].close()
            self.is_closed[source] = True
        else:
            self.give(source, message)
        outputs = [found for link, bodies in sorted(self.trace.put[self.event].items()) for found in self.wanted(link, bodies)]
        if message != "Down":
            self.is_done(source)
        return outputs

    def give(self, source, message):
        stream, body = written(source, message)
        shown = self.trace.sent[source][self.given[source]]
        if body != shown:
            raise Wrong(f"link {source} gives {body.hex(' ')}, and the trace shows {shown.hex(' ')}")
        self.given[source] += 1
        self.compared += 1
        self.journal.append((source, "sent", message))
        self.links[source].sendall(frame(stream, body) + frame(CCM, PING))

    def get(self, link, what):
        try:
            return play.next_frame(self.links[link])
        except OSError as fault:
            raise Wrong(f"link {link}: no frame, but {what}: {fault}") from fault

    def wanted(self, link, bodies):
        """The messages of the next frames of a link, which have these bodies."""
        if not self.world.is_up[link]:
            return
        for body in bodies:
            stream, found = self.get(link, body.hex(" "))
            if (stream, found) != (SCCP if link == 0 else ABIS, body):
                raise Wrong(f"link {link} gets {stream:02x} {found.hex(' ')}, and the trace shows {body.hex(' ')}")
            self.compared += 1
            message = read(link, found)
            self.journal.append((link, "got", message))
            yield link, message

    def is_done(self, source):
        """The item's source gets a PONG, and before it nothing else, where its link is up in the world."""
        while (found := self.get(source, "PONG")) != (CCM, PONG):
            if self.world.is_up[source]:
                raise Wrong(f"link {source} gets {found[1].hex(' ')}, and the trace shows nothing more")

    def settle(self):
        """Nothing more is on any link."""
        for link, is_closed in enumerate(self.is_closed):
            if not is_closed:
                self.links[link].sendall(frame(CCM, PING))
                self.is_done(link)


def played(program, script, work):
    """Plays a script; gives the wire and the world behind it."""
    file = work / "trace.toml"
    file.write_text(script.text)
    trace = Trace(program, file, script.lines())
    relay, world = Relay([program], script.text, work), Telling(script.settings())
    wire = world.controller = Wire(relay, trace, world)
    try:
        for wire.event, event in enumerate(script.events, 1):
            if world.run(event) != trace.taken[wire.event - 1]:
                raise Wrong(f"the trace says of this event: taken {trace.taken[wire.event - 1]}")
        wire.settle()
    except (Wrong, Unread) as fault:
        raise Wrong(f"event {wire.event}, {line_of(script.events[wire.event - 1])}: {fault}") from fault
    finally:
        status = relay.end()
    if status != 0:
        raise Wrong(f"status {status} behind the script\n{relay.log.read_text()}")
    return wire, world
