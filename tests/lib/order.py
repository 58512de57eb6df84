# SPDX-License-Identifier: MIT OR Apache-2.0
"""What the order of messages says of the octets at the links of a relay, judged by the filter of tests/model and by what was sent.

`Up` is given what a switch gets, frame by frame, and `Down` what passes over the links of stations. Each looks at every frame as it
comes, so what holds of all frames was looked at for every beginning that ends behind a frame.
"""
from collections import Counter
from dataclasses import dataclass, field

from lib.octets import SWITCH_BASE, target_in
from lib.relay import Wrong
from model.world import Reception, discriminator, is_flow, without_number

COMPLETES, FAILURES = (0x29, 0x2C), (0x28, 0x2F)


class Spoken:
    """What upper layers said: those of mobiles, the initial message first, and those of the switch on each of its connections."""

    def __init__(self, modulus):
        self.modulus = modulus
        self.mobiles = {}  # by mobile: its messages of each data link
        self.switch = {}  # by message: connection, data link, place
        self.counts = Counter()

    def connects(self, mobile, initial):
        self.mobiles[mobile] = {0: [initial], 3: []}

    def up(self, mobile, sapi, message):
        self.mobiles[mobile][sapi].append(message)

    def down(self, connection, sapi, message):
        self.switch[message] = connection, sapi, self.counts[connection, sapi]
        self.counts[connection, sapi] += 1

    def opener(self, initial):
        """The mobile that connects with this message."""
        found = [mobile for mobile, sent in self.mobiles.items() if sent[0][0] == initial]
        if len(found) != 1:
            raise Wrong(f"CR with {initial.hex()}, with which {len(found)} mobiles connect")
        return found[0]


class Up:
    """A switch: what it takes is of mobiles, in order, without a gap, and on connections that are there."""

    def __init__(self, spoken):
        self.spoken = spoken
        self.receptions = []  # in the order of their CR, each with its mobile
        self.numbers, self.released, self.brought, self.places = set(), set(), Counter(), {}

    def bring(self, message):
        """A station writes this message of a mobile."""
        self.brought[message] += 1

    def take(self, message):
        """The switch gets this."""
        if message[0] == "CR":
            self.connect(*message[1:])
        elif message[0] == "RLC":
            self.release(message[1])
        else:
            self.data(*message[1:])

    def connect(self, number, initial):
        mobile = self.spoken.opener(initial)
        if number in self.numbers or any(mobile == other for _, other in self.receptions):
            raise Wrong(f"CR number {number} of mobile {mobile} comes twice")
        self.numbers.add(number)
        self.receptions.append((Reception(number, initial), mobile))
        self.use(initial)

    def reception(self, number):
        if not 1 <= number <= len(self.receptions) or number in self.released:
            raise Wrong(f"connection {SWITCH_BASE + number:06x} isn't there")
        return self.receptions[number - 1]

    def release(self, number):
        if self.reception(number)[0].stage != "ended":
            raise Wrong(f"RLC on connection {number} before CLEAR COMPLETE")
        self.released.add(number)

    def data(self, number, what):
        reception, mobile = self.reception(number)
        if reception.stage == "ended":
            raise Wrong(f"DT1 {what[0]} behind CLEAR COMPLETE of connection {number}")
        if what[0] == "DTAP":
            reception.taken.append(what[2])
            self.use(what[2])
            self.judge(number, reception, self.spoken.mobiles[mobile])
            self.follows(number, what[1], what[2], self.spoken.mobiles[mobile][what[1]])
        elif what[0] == "CLEAR COMPLETE":
            reception.stage = "ended"

    def use(self, message):
        """No message comes more often than a station brought it."""
        self.brought[message] -= 1
        if self.brought[message] < 0:
            raise Wrong(f"the switch gets {message.hex()}, which no station brought so often")

    def judge(self, number, reception, sent):
        """What is accepted is a prefix of what was sent, and there is no gap."""
        words = [word for word, _ in reception.judged(self.spoken.modulus)]
        flow = [message for message in sent[0] if is_flow(message)]
        accepted = reception.accepted(self.spoken.modulus)
        if "gap" in words:
            raise Wrong(f"connection {number}: a gap at {reception.taken[-1].hex()} behind {len(accepted)} messages")
        if accepted != flow[:len(accepted)]:
            raise Wrong(f"connection {number}: accepted {hexes(accepted)} of {hexes(flow)}")

    def follows(self, number, sapi, message, sent):
        """Of a data link the next message comes, or the last one again. Short messages may be missing: one that comes on a new channel
        before the mobile's COMPLETE is dropped."""
        text = without_number(message) if is_flow(message) else message
        place, last = sent.index(text) if text in sent else -1, self.places.get((number, sapi), 0)
        if place < last or sapi == 0 and place > last + 1:
            raise Wrong(f"connection {number}, SAPI {sapi}: {message.hex()}, which is at place {place}, behind place {last}")
        self.places[number, sapi] = place


@dataclass(eq=False)
class Tenure:
    """A channel from its activation on."""
    place: tuple  # station and channel
    kind: int  # 0: of an access, 1: of an assignment, 2: of a handover
    reference: int  # of a handover, else None
    before: "Tenure" = None  # the one on which a COMMAND names it
    initial: bytes = None
    connection: int = None  # from the first message on that is handed here
    last: dict = field(default_factory=dict)  # by data link: the place of the last message that was handed
    unanswered: int = 0  # COMMANDs without the mobile's FAILURE
    has_mobile: bool = False  # its mobile has sent its first message here, or COMPLETE
    is_left: bool = False  # its mobile has sent COMPLETE elsewhere
    is_released: bool = False

    def chain(self):
        """It, and those that its mobile had before."""
        return [self] + (self.before.chain() if self.before else [])


class Down:
    """The stations' links: what is handed on a channel is of one connection, once and in order, and nothing while it changes."""

    def __init__(self, spoken, cells, openers):
        self.spoken, self.cells = spoken, cells
        self.openers = openers  # by the switch's connection: its initial message
        self.tenures, self.now, self.handed = [], {}, set()
        self.late = self.changes = self.short = 0

    # ---- what a station writes

    def bring(self, station, message):
        name, tenure = message[0], self.now.get((station, message[1]))
        if name not in ("ESTABLISH INDICATION", "DATA INDICATION") or message[3] is None or tenure is None:
            return
        if name == "ESTABLISH INDICATION":
            tenure.initial, tenure.has_mobile = message[3], True
        elif discriminator(message[3]) != 6:
            self.late += tenure.is_left
        elif message[3][1] in FAILURES:
            tenure.unanswered -= 1
        elif message[3][1] in COMPLETES:
            self.arrives(tenure)

    def arrives(self, tenure):
        """The mobile has changed to this channel."""
        self.changes += 1
        tenure.has_mobile = True
        if tenure.before:
            tenure.before.is_left = True

    # ---- what it gets

    def take(self, station, message):
        name, place = message[0], (station, message[1])
        if name == "CHANNEL ACTIVATION":
            self.now[place] = Tenure(place, *message[2:])
            self.tenures.append(self.now[place])
        elif name == "RF CHANNEL RELEASE" and place in self.now:
            self.now[place].is_released = True
        elif name == "COMMAND" and place in self.now:
            self.command(self.now[place], message[3])
        elif name == "DATA REQUEST" and discriminator(message[3]) != 6:
            self.hand(place, *message[2:])

    def command(self, tenure, text):
        station, channel, reference = target_in(text, self.cells)
        place = station or tenure.place[0], channel
        tenure.unanswered += 1
        targets = [target for target in self.tenures if (target.place, target.reference) == (place, reference)]
        if targets and targets[-1] not in tenure.chain():
            targets[-1].before = tenure

    def hand(self, place, sapi, text):
        where = f"station {place[0]}, channel {place[1]:02x}: {text.hex()}"
        tenure = self.now.get(place)
        if tenure is None or tenure.is_released:
            raise Wrong(f"{where} on a channel that isn't in use")
        connection, data_link, number = self.spoken.switch.get(text, (None, None, None))
        if data_link != sapi or text in self.handed:
            raise Wrong(f"{where} is handed twice, or the switch didn't send it on SAPI {sapi}")
        if tenure.unanswered > 0 or not tenure.has_mobile:
            raise Wrong(f"{where} is handed before the mobile has come there, or while it changes its channel")
        self.belongs(where, tenure, connection)
        self.rises(where, tenure, sapi, number)
        self.handed.add(text)
        self.short += sapi == 3

    def belongs(self, where, tenure, connection):
        """All that is handed to a mobile is of its connection."""
        initial = tenure.chain()[-1].initial
        others = {one.connection for one in tenure.chain()} - {None, connection}
        if others or initial not in (None, self.openers[connection]):
            raise Wrong(f"{where} of connection {connection} to another mobile")
        tenure.connection = connection

    def rises(self, where, tenure, sapi, number):
        """It is behind all that was handed before of its data link."""
        last = max(one.last.get(sapi, -1) for one in tenure.chain())
        if number <= last:
            raise Wrong(f"{where}: message {number} behind message {last}")
        tenure.last[sapi] = number


def hexes(messages):
    return " ".join(message.hex() for message in messages)


def judge(journal, spoken, cells, openers):
    """Raises `Wrong` where the octets aren't in order; gives what was judged. A journal's entries: link, 'sent' or 'got', message."""
    up, down = Up(spoken), Down(spoken, cells, openers)
    for link, way, message in journal:
        if link == 0:
            if way == "got":
                up.take(message)
        elif way == "got":
            down.take(link, message)
        else:
            down.bring(link, message)
            if message[0] in ("ESTABLISH INDICATION", "DATA INDICATION") and message[3] is not None:
                up.bring(message[3])
    return up, down
