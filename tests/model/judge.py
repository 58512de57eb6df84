# SPDX-License-Identifier: MIT OR Apache-2.0
"""What a BSC did to the order of messages, by the frames that crossed its links: a second reading of what `bsc judge` says, beside the
proved one, for tests/judge. As a program it reads the same lines and prints the same, with the same status:

    python3 tests/model/judge.py [--release98] [--strict] [--settings FILE] < LINES

All is judged at the end of the lines, over lists. The rules:

A *tenure* is a channel from its CHANNEL ACTIVATION on, or from an ESTABLISH INDICATION with layer 3 where that is the first that is seen.
It ends with RF CHANNEL RELEASE where no connection has it, with RF CHANNEL RELEASE ACK where another one serves in its place, and with
the next activation. What a station says of a channel outside its tenures is nobody's.

A *connection* begins with a CR with COMPLETE LAYER 3 INFORMATION, of which the reference is the BSC's. It ends with RLC of the BSC, with
CREF before CC, or with another CR of its reference. Its first tenure is the one whose last ESTABLISH INDICATION has the same layer 3
octets and that no connection has. ASSIGNMENT and HANDOVER COMMAND in a DATA REQUEST on the channel that serves name the next tenure: by
the channel, and for a handover by the reference with which it was activated, and by the cell where the settings name those of stations.
From the COMMAND on the channel changes, until ASSIGNMENT or HANDOVER COMPLETE comes on the next, which then serves, or FAILURE on the one
that serves. The switch's messages count from CC on, and so do those for it.

*Up*, on each SAPI: due are the messages of layer 3 of the tenures in the order in which they served, each tenure's in its station's
order; the first is that of ESTABLISH INDICATION. None is of radio resource management but the first (TS 48.006: that is the BSC's). The
switch has to get a beginning of what is due, each message once, and nothing behind CLEAR COMPLETE. A message may be missing that came
late, once a copy of it on a later channel was passed on, or behind which came another ESTABLISH INDICATION.

*Down*, on each SAPI: due are the messages of DTAP from CC on. What is handed has to be a beginning of them, none before the switch sent
it, on the channel that serves, and not while it changes. SAPI N REJECT of the BSC lets it drop what the switch sent on SAPI 3 before.

Where two readings are possible, or a station or the switch does what none should, the connection isn't judged from there on; nor is it
where a message comes on the next channel before COMPLETE, as one on SAPI 3 may.

*Two orders*: where exactly two tenures have the octets of a CR, and no trial goes on, both are tried, by two readers that know of the
frames so far no more than these two tenures. By the first one the CR is of the tenure of the lower station and channel, by the second
one of the other. The next CR with the same octets is that of the second connection of the trial. Nothing is said of the two before both
have ended, or one has, and by neither reader another tenure has the octets and no connection. Then both are said by the reader by which
the BSC did nothing wrong to either; by the first, where that is so of both readers or of none, but by the second where by it alone not
all is judged and neither found a fault. A trial ends without an answer, and its connections aren't judged from their CRs on, where a
frame is missing, or where the switch gives a connection a reference that it gave before.

Nothing rests on the order of what the BSC puts on different links: each may have a writer of its own.
"""
import copy
import re
import sys
import tomllib
from collections import Counter
from dataclasses import dataclass, field

RADIO_RESOURCE, FLOWS = 6, (3, 5, 11)
PROTOCOLS = {3: "CC", 5: "MM", 6: "RR", 9: "SMS", 11: "SS"}
SAPIS = (0, 3)
LONGEST = 251  # octets of a layer 3 message (docs/FORMATS.md)
LONGEST_LINE = 1 << 20
RSL = {
    0x0301: "DATA REQUEST", 0x0302: "DATA INDICATION", 0x0206: "ESTABLISH INDICATION", 0x0821: "CHANNEL ACTIVATION",
    0x0822: "CHANNEL ACTIVATION ACK", 0x0823: "CHANNEL ACTIVATION NACK", 0x082E: "RF CHANNEL RELEASE", 0x0833: "RF CHANNEL RELEASE ACK",
}
# elements of RSL whose value has so many octets; that of 0B has its length in two octets, all others' in one (TS 48.058, clause 9.3)
OF_ONE = (0x01, 0x02, 0x03, 0x04, 0x09, 0x0D, 0x0E, 0x11, 0x14, 0x18, 0x1B, 0x1C, 0x1E, 0x25, 0x28, 0x29, 0x2D, 0x2E, 0x33, 0x35, 0x37,
          0x3A, 0x3B)
FIXED = {**dict.fromkeys(OF_ONE, 1), 0x08: 2, 0x0A: 2, 0x0F: 2, 0x17: 2, 0x13: 3, 0x24: 23}
CHANNEL, LINK, REFERENCE, LAYER_3 = 0x01, 0x02, 0x09, 0x0B
CR, CC, CREF, RLC, DT1 = 1, 2, 3, 5, 6
COMPLETE_LAYER_3, CLEAR_COMPLETE, SAPI_N_REJECT = 0x57, 0x21, 0x25
ASSIGNMENT_COMMAND, HANDOVER_COMMAND = 0x2E, 0x2B
COMPLETES = {ASSIGNMENT_COMMAND: 0x29, HANDOVER_COMMAND: 0x2C}
FAILURES = {ASSIGNMENT_COMMAND: 0x2F, HANDOVER_COMMAND: 0x28}
BSC, STATION, MOBILE = "the BSC", "a station", "the mobile"


class BadLine(Exception):
    """A line that is no frame."""


# ---- frames


@dataclass
class Frame:
    place: int  # among the lines
    number: int  # in the capture, or of the event
    station: int  # 0: the switch
    is_to_bsc: bool
    octets: bytes  # or None: frames are missing before this place


def station_of(end):
    if end == "switch":
        return 0
    name, _, number = end.partition(" ")
    if name != "station" or not re.fullmatch("[1-9][0-9]{0,2}", number) or int(number) > 255:
        raise BadLine("no end of a link")
    return int(number)


def frame_of(place, line):
    """The frame of a line, or None of one that has another subject."""
    line = line.removesuffix("\n")
    if len(line) > LONGEST_LINE:
        raise BadLine(f"longer than {LONGEST_LINE} octets")
    columns = line.split("\t")
    if len(columns) != 6:
        raise BadLine("not six columns")
    number, begin, end, _, what, octets = columns
    word = what.partition(" ")[0]
    if (begin == "bsc") == (end == "bsc") or word not in ("sent", "missing"):
        return None
    is_number = re.fullmatch("[0-9]+", number) and int(number) < 1 << 64
    is_to_bsc = end == "bsc"
    station = station_of(begin if is_to_bsc else end)
    if word == "sent" and not re.fullmatch("(?:[0-9a-fA-F]{2})+", octets):
        raise BadLine("octets that aren't hexadecimal")
    return Frame(place, int(number) if is_number else place, station, is_to_bsc, bytes.fromhex(octets) if word == "sent" else None)


# ---- what is in them


def elements(octets):
    """The values of a message of RSL by their identifiers, the first of each; None where one is cut."""
    found = {}
    while octets:
        begin = 1 if octets[0] in FIXED else 3 if octets[0] == LAYER_3 else 2
        end = begin + FIXED.get(octets[0], int.from_bytes(octets[1:begin], "big"))
        if len(octets) < end:
            return None
        found.setdefault(octets[0], octets[begin:end])
        octets = octets[end:]
    return found


def rsl(octets):
    """The name, the channel, the link identifier, the layer 3 message and the reference of a message; None of one that says nothing
    here."""
    name, found = RSL.get(int.from_bytes(octets[:2], "big")), elements(octets[2:])
    if len(octets) < 2 or name is None or found is None or CHANNEL not in found:
        return None
    link, text = found.get(LINK), found.get(LAYER_3)
    if text is not None and not 1 <= len(text) <= LONGEST:
        return None
    return name, found[CHANNEL][0], link[0] if link else None, text, found.get(REFERENCE)


@dataclass
class Sccp:
    kind: int
    to: bytes  # the receiver's reference
    by: bytes  # the sender's
    data: bytes


def pointed(octets, at):
    """What the pointer at this place leads to, with its length octet."""
    begin = at + octets[at]
    return octets[begin + 1:begin + 1 + octets[begin]]


def option(octets, at):
    """The data of the options to which this pointer leads."""
    begin = at + octets[at]
    while octets[at] and begin < len(octets) and octets[begin]:
        if octets[begin] == 0x0F:
            return octets[begin + 2:begin + 2 + octets[begin + 1]]
        begin += 2 + octets[begin + 1]
    return b""


def sccp(octets):
    """A message (Q.713, clause 4), or None."""
    try:
        kind = octets[0]
        if kind == CR:
            return Sccp(kind, b"", octets[1:4], option(octets, 6))
        if kind == CREF:
            return Sccp(kind, octets[1:4], b"", b"")
        if kind in (CC, RLC):
            return Sccp(kind, octets[1:4], octets[4:7], b"")
        return Sccp(kind, octets[1:4], b"", pointed(octets, 5)) if kind == DT1 else None
    except IndexError:
        return None


def dtap(data):
    """The SAPI and the layer 3 message (TS 48.006, clause 9.3), or None."""
    if len(data) < 4 or data[0] != 1 or data[1] & 7 not in SAPIS or len(data) < 3 + data[2] or not 1 <= data[2] <= LONGEST:
        return None
    return data[1] & 7, data[3:3 + data[2]]


def bssmap(data):
    """The type of a message of BSSMAP, or None."""
    return data[2] if len(data) > 2 and data[0] == 0 else None


def initial_in(data):
    """The layer 3 message of COMPLETE LAYER 3 INFORMATION, or None."""
    at, data = 3, data[:2 + data[1]] if len(data) > 2 else b""
    while bssmap(data) == COMPLETE_LAYER_3 and at + 1 < len(data):
        size = 2 if data[at] in (0x15, 0x18, 0x21) else 2 + data[at + 1]
        if data[at] == 0x17:
            return data[at + 2:at + size] or None
        at += size
    return None


def discriminator(text):
    return text[0] & 15


def is_of_flow(text):
    return len(text) > 1 and discriminator(text) in FLOWS


def named(text, modulus=None):
    """A message as it is printed, with its number where it has one modulo this."""
    number = f" N(SD) {(text[1] >> 6) % modulus}" if modulus and is_of_flow(text) else ""
    return f"{PROTOCOLS.get(discriminator(text), 'unknown')}{number} {text.hex()}"


# ---- who has which channel


@dataclass(eq=False)
class Message:
    text: bytes
    sapi: int
    frame: Frame
    is_needed: bool = True
    fault: str = None  # what is wrong with it wherever it comes


@dataclass(eq=False)
class Tenure:
    station: int
    channel: int
    reference: int = None  # of a handover
    initial: Message = None  # of ESTABLISH INDICATION, with which a connection may begin
    up: list = field(default_factory=list)  # behind it
    owner: "Connection" = None


@dataclass(eq=False)
class Connection:
    number: int
    reference: bytes
    begin: Frame
    tenures: list = field(default_factory=list)  # in the order in which they served
    left: list = field(default_factory=list)  # those of them that are over
    target: Tenure = None
    command: int = None  # the type of the COMMAND that is out
    peer: bytes = None
    got: list = field(default_factory=list)  # by the switch
    sent: list = field(default_factory=list)  # by the switch
    handed: list = field(default_factory=list)
    rejects: list = field(default_factory=list)  # places of SAPI N REJECT
    is_cleared: bool = False
    behind_clear: list = field(default_factory=list)  # frames without a message of layer 3
    outside: Frame = None
    unjudged: tuple = None  # from which frame on, and why
    is_open: bool = True
    end: Frame = None

    def stop(self, frame, why):
        """From here on it isn't judged."""
        self.unjudged = self.unjudged or (frame, why)

    def is_judged(self):
        return self.is_open and self.unjudged is None


@dataclass(eq=False)
class Trial:
    """Two orders of two connections with the same initial message."""
    text: bytes
    places: list  # of the two tenures
    readers: list  # by the first one the first connection has the tenure of the first place, by the second one that of the other
    connections: list
    ended: list = field(default_factory=list)  # each with what it is by each reader

    def versions(self, c):
        return [reader.by_reference.get(c.reference) for reader in self.readers]

    def is_over(self):
        waits = [reader.tenures.get(place) for reader, place in zip(self.readers, reversed(self.places))]
        may_come = len(self.connections) == 1 and any(t and t.owner is None and t.initial and t.initial.text == self.text for t in waits)
        return len(self.ended) == len(self.connections) and not may_come


class Links:
    """Reads frames, one by one."""

    def __init__(self, cells=()):
        self.cells = [described(*cell) for cell in cells]
        self.tenures = {}
        self.begun, self.connections, self.by_reference, self.by_peer = 0, [], {}, {}
        self.is_apart, self.trial, self.news = False, None, []  # news: what began and what ended by a frame
        self.said = []  # connections, and trials that are over, in the order in which all was said of them

    def read(self, frame):
        trial, self.news = self.trial, []
        if trial and (frame.octets is None or self.gives_again(frame)):
            self.said += [c for c, _ in trial.ended]
            trial = self.trial = None
        before = {c: trial.versions(c) for c in trial.connections if c.is_open} if trial else {}
        self.read_alone(frame)
        for reader in trial.readers if trial else ():
            reader.read_alone(frame)
        if trial:
            self.try_both(trial, before)
        else:
            self.said += [c for c in self.news if not c.is_open]

    def try_both(self, trial, before):
        """Its connections aren't said before it is over."""
        for c in self.news:
            if c in before:
                trial.ended.append((c, before[c]))
            elif not c.is_open:
                self.said.append(c)
            elif len(trial.connections) == 1 and c.got[0].text == trial.text:
                trial.connections.append(c)
        if trial.is_over():
            self.said.append(trial)
            self.trial = None

    def gives_again(self, frame):
        """The switch gives a connection a reference that it gave before."""
        message = sccp(frame.octets) if frame.station == 0 and frame.is_to_bsc else None
        c = message and message.kind == CC and self.by_reference.get(message.to)
        return bool(c and c.peer is None and self.by_peer.get(message.by))

    def all_said(self):
        """At the end of the frames: a trial, and then all connections that are open."""
        trial, left = self.trial, [c for c in self.connections if c.is_open]
        if trial:
            trial.ended += [(c, trial.versions(c)) for c in left if c in trial.connections]
            left = [c for c in left if c not in trial.connections]
        return self.said + ([trial] if trial else []) + left

    def apart(self, c, frame, tenure, other):
        """A reader that knows these two tenures, and that the CR of this frame is of the first."""
        reader = Links()
        reader.is_apart, reader.cells, reader.begun = True, self.cells, c.number
        for known in (tenure, other):
            reader.tenures[known.station, known.channel] = copy.deepcopy(known)
        copied = reader.by_reference[c.reference] = Connection(c.number, c.reference, frame)
        reader.connections.append(copied)
        reader.takes(copied, reader.tenures[tenure.station, tenure.channel])
        copied.got.append(Message(tenure.initial.text, 0, frame))
        return reader

    def read_alone(self, frame):
        if frame.octets is None:
            for c in self.connections:
                if c.is_open:
                    c.stop(frame, "a hole in the capture")
        elif frame.station == 0:
            message = sccp(frame.octets)
            if message:
                self.of_switch(frame, message)
        else:
            message = rsl(frame.octets)
            if message:
                (self.from_station if frame.is_to_bsc else self.to_station)(frame, *message)

    def owner(self, tenure):
        """The connection that has it, while it is open."""
        return tenure.owner if tenure and tenure.owner and tenure.owner.is_open else None

    # ---- a station's link

    def to_station(self, frame, name, channel, link, text, reference):
        place = frame.station, channel
        tenure = self.tenures.get(place)
        c = self.owner(tenure)
        if name == "CHANNEL ACTIVATION":
            self.tenures[place] = Tenure(*place, reference and reference[0])
        elif name == "RF CHANNEL RELEASE" and tenure and tenure.owner is None:
            del self.tenures[place]
        elif name == "DATA REQUEST" and text and c and c.is_judged() and link is not None and link & 7 in SAPIS:
            if discriminator(text) != RADIO_RESOURCE:
                c.handed.append(Message(text, link & 7, frame, fault=misplaced(c, tenure)))
            elif link & 7 == 0 and is_command(text) and tenure is c.tenures[-1]:
                self.command(frame, c, text)

    def from_station(self, frame, name, channel, link, text, _):
        place = frame.station, channel
        tenure = self.tenures.get(place)
        c = self.owner(tenure)
        if name == "RF CHANNEL RELEASE ACK" and c and tenure in c.tenures[:-1]:
            del self.tenures[place]
            c.left.append(tenure)
        elif name == "ESTABLISH INDICATION" and text and link == 0:
            self.established(frame, place, Message(text, 0, frame))
        elif name == "DATA INDICATION" and text and link is not None and (link == 0 or link & 7 == 3 and link >> 6 < 2):
            self.told(frame, tenure, c, Message(text, link & 7, frame))

    def established(self, frame, place, message):
        """A mobile may connect with it; on the channel of one that has connected it is passed over (TS 44.006, clause 5.4.1.4)."""
        tenure = self.tenures.get(place)
        if self.owner(tenure) or tenure and tenure.owner is None and tenure.reference is not None:
            return
        if tenure is None or tenure.owner:
            tenure = self.tenures[place] = Tenure(*place)
        for early in tenure.up:
            early.is_needed = False
        tenure.initial = message

    def told(self, frame, tenure, c, message):
        """A layer 3 message of a mobile."""
        if discriminator(message.text) == RADIO_RESOURCE:
            if c and c.is_judged() and c.command is not None and message.sapi == 0 and len(message.text) > 2:
                self.answered(c, tenure, message.text)
        elif tenure and tenure.owner is None:
            if tenure.initial:
                tenure.up.append(message)
        elif c and c.is_judged():
            if tenure in c.tenures:
                tenure.up.append(message)
            elif tenure is c.target:
                c.stop(frame, "a message on the next channel before its COMPLETE")
            else:
                c.outside = frame
                c.stop(frame, "a station brought a message outside the tenure of its channel")

    def answered(self, c, tenure, text):
        """COMPLETE and FAILURE of the COMMAND that is out."""
        if text[0] != RADIO_RESOURCE:
            return
        if tenure is c.target and text[1] == COMPLETES[c.command]:
            c.tenures.append(tenure)
        elif tenure is not c.tenures[-1] or text[1] != FAILURES[c.command]:
            return
        c.target = c.command = None

    def command(self, frame, c, text):
        """The COMMAND that begins a change of channel."""
        if text[1] == ASSIGNMENT_COMMAND:
            place = c.tenures[-1].station, text[2]
            targets = [self.tenures.get(place) or Tenure(*place)]
        else:
            targets = [t for (station, channel), t in self.tenures.items()
                       if channel == text[4] and t.owner is None and t.initial is None and t.reference == text[7]
                       and (station > len(self.cells) or self.cells[station - 1] == text[2:4])]
        if len(targets) != 1:
            c.stop(frame, "a command that may name two channels" if targets else "a command that names an unknown cell")
            return
        target = targets[0]
        if target.owner or target.initial:  # it is this connection's from now on, as if nothing had been there
            target = Tenure(target.station, target.channel)
        self.tenures[target.station, target.channel] = target
        target.owner, c.target, c.command = c, target, text[1]

    # ---- the switch's link

    def of_switch(self, frame, message):
        c = self.by_reference.get(message.to if frame.is_to_bsc else message.by)
        if message.kind == CR and not frame.is_to_bsc:
            self.connect(frame, c, message)
        elif message.kind == RLC and not frame.is_to_bsc:
            self.ends(c, frame)
        elif message.kind == CREF and frame.is_to_bsc and c and c.peer is None:
            self.ends(c, frame)
        elif message.kind == CC and frame.is_to_bsc and c and c.peer is None:
            self.confirmed(frame, c, message.by)
        elif message.kind == DT1 and frame.is_to_bsc and c and c.is_judged():
            self.lowered(c, frame, message.data)
        elif message.kind == DT1 and not frame.is_to_bsc and message.to in self.by_peer:
            for c in [c for c in self.by_peer[message.to] if c.is_judged()]:
                self.raised(c, frame, message.data)

    def ends(self, c, frame):
        if c:
            c.is_open, c.end = False, frame
            self.news.append(c)
            del self.by_reference[c.reference]
            if self.by_peer.get(c.peer) == [c]:
                del self.by_peer[c.peer]

    def confirmed(self, frame, c, peer):
        """Of a reference that it gave before, nobody can say whose a message with it is."""
        others = self.by_peer.setdefault(peer, [])
        if others:
            for one in [c, *others]:
                one.stop(frame, "the switch gave its reference to two connections")
        others.append(c)
        if len(others) == 1:
            c.peer = peer

    def connect(self, frame, before, message):
        initial = initial_in(message.data)
        if initial is None:
            return
        self.ends(before, frame)
        self.begun += 1
        c = self.by_reference[message.by] = Connection(self.begun, message.by, frame)
        self.connections.append(c)
        self.news.append(c)
        found = [t for t in self.tenures.values() if t.owner is None and t.initial and t.initial.text == initial]
        if len(found) == 1:
            self.takes(c, found[0])
        else:
            c.stop(frame, "two channels on which a mobile sent this first message" if found else
                   "a connection whose ESTABLISH INDICATION isn't there")
        c.got.append(Message(initial, 0, frame))
        if len(found) == 2 and self.trial is None and not self.is_apart:
            found.sort(key=lambda tenure: (tenure.station, tenure.channel))
            readers = [self.apart(c, frame, *found), self.apart(c, frame, *reversed(found))]
            self.trial = Trial(initial, [(t.station, t.channel) for t in found], readers, [c])

    def takes(self, c, tenure):
        """It is the first one of this connection."""
        tenure.owner, c.tenures = c, [tenure]
        tenure.up.insert(0, tenure.initial)

    def lowered(self, c, frame, data):
        """The switch says this."""
        found = dtap(data)
        if found and discriminator(found[1]) != RADIO_RESOURCE:
            if c.peer is not None:
                c.sent.append(Message(found[1], found[0], frame))
        elif found and is_command(found[1]):
            c.stop(frame, "the switch sent a COMMAND of radio resource management as DTAP")

    def raised(self, c, frame, data):
        """The BSC says this."""
        found = dtap(data)
        if found:
            c.got.append(Message(found[1], found[0], frame, fault="sent behind CLEAR COMPLETE" if c.is_cleared else None))
        elif c.is_cleared:
            c.behind_clear.append(frame)
        elif bssmap(data) == CLEAR_COMPLETE:
            c.is_cleared = True
        elif bssmap(data) == SAPI_N_REJECT:
            c.rejects.append(frame.place)


def is_command(text):
    """ASSIGNMENT or HANDOVER COMMAND."""
    return text[0] == RADIO_RESOURCE and len(text) > 1 and len(text) >= {ASSIGNMENT_COMMAND: 6, HANDOVER_COMMAND: 9}.get(text[1], 256)


def misplaced(c, tenure):
    """What is wrong with a message that is handed here now."""
    if c.command is not None:
        return "handed while the channel changed"
    return None if tenure is c.tenures[-1] else "handed on a channel that isn't serving"


def described(arfcn, bsic):
    """A cell description (TS 44.018, clause 10.5.2.2)."""
    return bytes([arfcn >> 8 << 6 | bsic, arfcn & 255])


# ---- the verdict


@dataclass
class Fault:
    whose: str
    direction: str
    kind: str
    says: str


class Flow:
    """The messages of one SAPI, one way. Each is known with its place among all, and the rank of its tenure."""

    def __init__(self, due, got, rejects, modulus):
        self.due, self.got, self.rejects, self.modulus = due, got, rejects, modulus  # modulus: None down
        self.is_up = modulus is not None

    def named(self, message):
        return named(message.text, self.modulus)

    def came(self, message):
        return f"{self.named(message)}, from the {'station' if self.is_up else 'switch'} in frame {message.frame.number}"

    def there(self, message):
        return f"{'at the switch' if self.is_up else 'handed'} in frame {message.frame.number}"

    def fault(self):
        """What is first wrong: its kind and what it says, or None."""
        events = [(m.frame.place, "due", (rank, m)) for rank, m in self.due] + [(m.frame.place, "got", m) for m in self.got]
        events += [(place, "rejected", None) for place in self.rejects]
        waits, passed, reached = [], [], 0  # waits: those that are due next, by rank, each with whether it may be missing
        for place, what, one in sorted(events, key=lambda event: event[0]):
            if what == "rejected":
                waits = [(rank, m, True) for rank, m, _ in waits]
            elif what == "due":
                copies = [m for rank, m in passed if m.text == one[1].text and rank > one[0]]
                if one[0] < reached and not copies:
                    return self.lost(one[1], passed[-1][1], place)
                waits.append((*one, one[0] < reached or not one[1].is_needed))
                waits.sort(key=lambda entry: entry[0])
            elif one.fault:
                return one.fault, f"{self.named(one)}, in frame {one.frame.number}"
            else:
                last = next((n for n, entry in enumerate(waits) if not entry[2]), len(waits) - 1)
                at = [n for n, entry in enumerate(waits[:last + 1]) if entry[1].text == one.text]
                if not at:
                    return self.wrong(one, waits, passed)
                at = last if last in at and not waits[last][2] else at[0]
                passed.append((waits[at][0], one))
                reached, waits = max(reached, waits[at][0]), waits[at + 1:]
        return None

    def wrong(self, message, waits, passed):
        """It isn't its turn."""
        needed = [m for _, m, may_be_missing in waits if not may_be_missing]
        before = [m for _, m in passed if m.text == message.text]
        if any(m.text == message.text for _, m, _ in waits):
            return self.lost(needed[0], message, message.frame.place)
        if before:
            return "doubled", f"{self.named(message)}, {self.there(before[0])}, and again in frame {message.frame.number}"
        if needed and len(message.text) > 1 and needed[0].text[:2] == message.text[:2]:
            return "changed", f"{self.came(needed[0])}, into {self.named(message)}, {self.there(message)}"
        return "made up", f"{self.named(message)}, {self.there(message)}"

    def lost(self, message, behind, place):
        late = [m for m in self.got if m.text == message.text and m.frame.place > place and not m.fault]
        if late:
            return "overtaken", f"{self.came(message)}, {self.there(late[0])}, behind that of frame {behind.frame.number}"
        return "lost", f"{self.came(message)}, missed in frame {behind.frame.number}"


class Verdict:
    """What is said of a connection."""

    def __init__(self, c, modulus):
        self.connection, self.modulus, self.fit = c, modulus, None
        up = [(rank, m) for rank, tenure in enumerate(c.tenures) for m in tenure.up] or [(0, c.got[0])]
        self.due, self.got, self.sent, self.handed = up, c.got, [(0, m) for m in c.sent], c.handed
        self.faults = [] if not c.tenures else [*self.of_flows("up"), *self.of_others(), *self.of_flows("down")]

    def of_flows(self, direction):
        c, is_up = self.connection, direction == "up"
        for sapi in SAPIS:
            due, got = (self.due, self.got) if is_up else (self.sent, self.handed)
            flow = Flow([(rank, m) for rank, m in due if m.sapi == sapi], [m for m in got if m.sapi == sapi],
                        c.rejects if sapi == 3 and not is_up else [], self.modulus if is_up else None)
            found = flow.fault()
            if is_up and sapi == 0 and c.behind_clear and found is None:
                found = "sent behind CLEAR COMPLETE", f"in frame {c.behind_clear[0].number}"
            if found:
                yield Fault(BSC, direction, *found)

    def of_others(self):
        c = self.connection
        if c.outside:
            yield Fault(STATION, "up", "a message outside the tenure of its channel", f"in frame {c.outside.number}")
        gap = self.first_gap()
        if gap and not list(self.of_flows("up")):
            yield Fault(MOBILE, "up", "a number that isn't its next", f"at the switch in frame {gap.frame.number}")

    def first_gap(self):
        """The first message with a number that the switch didn't expect, but for a mobile's last one that it repeats."""
        last = {}
        for message, word in self.judged():
            if word == "gap" or word == "duplicate" and last.get(message.sapi) != message.text:
                return message
            last[message.sapi] = message.text
        return None

    # ---- what is printed

    def judged(self):
        """Each message that the switch got, with what a switch by TS 24.007, clause 11.2.3.2.3, says of its number."""
        count, word = 0, None
        for message in self.got:
            if message.fault or not is_of_flow(message.text):
                yield message, None
                continue
            if word != "gap":
                difference = ((message.text[1] >> 6) - count) % self.modulus
                word = {0: "accepted", self.modulus - 1: "duplicate"}.get(difference, "gap")
            count += word == "accepted"
            yield message, word

    def is_blamed(self):
        return any(fault.whose == BSC for fault in self.faults)

    def lines(self):
        c, words = self.connection, Counter(word for _, word in self.judged() if word)
        yield (f"connection {c.number} (reference {c.reference.hex()}): {counted(max(1, len(c.tenures)), 'channel')}, "
               f"{counted(len(self.due), 'message')} up, {len(self.got)} at the switch: {self.word('up')}")
        yield from self.listed("up")
        yield (f"  a switch by TS 24.007 accepts {words['accepted']} of {counted(sum(words.values()), 'numbered message')}, takes "
               f"{words['duplicate']} for a duplicate, drops {words['gap']} behind a gap")
        yield f"  down: {len(self.handed)} of {len(self.sent)} handed, {self.word('down')}"
        yield from self.listed("down")
        if c.unjudged:
            yield f"  not judged from frame {c.unjudged[0].number} on: {c.unjudged[1]}"
        if self.fit:
            yield f"  two channels with this first message: {self.fit}"

    def word(self, direction):
        if not self.connection.tenures:
            return "not judged"
        return "not in order" if any(f.whose == BSC and f.direction == direction for f in self.faults) else "in order"

    def listed(self, direction):
        for fault in self.faults:
            if fault.direction == direction and fault.whose == BSC:
                yield f"  {fault.kind:<10} {fault.says}"
            elif fault.direction == direction:
                yield f"  {fault.whose}'s: {fault.kind}, {fault.says}"


def counted(number, what):
    return f"{number} {what}{'' if number == 1 else 's'}"


def tried(trial, modulus):
    """The verdicts of a trial."""
    orders = [[Verdict(versions[order] or c, modulus) for c, versions in trial.ended] for order in (0, 1)]
    first, second = [2 if any(v.is_blamed() for v in found) else 1 if any(v.connection.unjudged for v in found) else 0 for found in orders]
    fit = {2: "in order neither way round", 1: "the other way round not in order", 0: "in order either way round"}
    takes_second = second < 2 == first or (first, second) == (0, 1)
    for verdict in orders[takes_second]:
        verdict.fit = fit[(first, second).count(2)]
    return orders[takes_second]


class Judgement:
    """Of all frames: the verdicts, those of connections that ended in the order of their ends, and then the others."""

    def __init__(self, frames, modulus=4, cells=()):
        links = Links(cells)
        for frame in frames:
            links.read(frame)
        self.verdicts = []
        for one in links.all_said():
            self.verdicts += tried(one, modulus) if isinstance(one, Trial) else [Verdict(one, modulus)]

    def is_in_order(self):
        return not any(verdict.is_blamed() for verdict in self.verdicts)

    def stops(self):
        """From which frames on connections aren't judged, and why."""
        return [verdict.connection.unjudged for verdict in self.verdicts if verdict.connection.unjudged]

    def is_judged(self):
        return not self.stops()

    def status(self, is_strict=False):
        return 0 if self.is_in_order() and (self.is_judged() or not is_strict) else 1

    def faults(self):
        return [(verdict.connection.number, fault) for verdict in self.verdicts for fault in verdict.faults]

    def lines(self):
        for verdict in self.verdicts:
            yield from verdict.lines()
        blamed = sum(verdict.is_blamed() for verdict in self.verdicts)
        yield (f"{counted(len(self.verdicts), 'connection')}: {len(self.verdicts) - blamed} in order, {blamed} not, "
               f"{len(self.stops())} not judged to the end")


def frames_in(lines):
    """The frames of these lines; raises `BadLine` at the first that is none."""
    for place, line in enumerate(lines, 1):
        try:
            frame = frame_of(place, line)
        except BadLine as fault:
            raise BadLine(f"line {place}: {fault}") from fault
        if frame:
            yield frame


def main():
    words = sys.argv[1:]
    settings = tomllib.loads(open(words[words.index("--settings") + 1]).read()) if "--settings" in words else {"network": {}, "cell": []}
    is_release98 = "--release98" in words or settings["network"].get("release98", False)
    try:
        frames = list(frames_in(open(sys.stdin.fileno(), encoding="latin-1", newline="\n")))
    except BadLine as fault:
        print(f"judge: {fault}", file=sys.stderr)
        return 2
    judgement = Judgement(frames, 2 if is_release98 else 4, [(cell["arfcn"], cell["bsic"]) for cell in settings["cell"]])
    print(*judgement.lines(), sep="\n")
    return judgement.status("--strict" in words)


if __name__ == "__main__":
    sys.exit(main())
