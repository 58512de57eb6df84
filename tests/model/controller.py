# SPDX-License-Identifier: MIT OR Apache-2.0
"""The controller in few words: a second reading of its table (docs/CONNECTION.md), beside the proved one, for tests/random-scripts and
tests/run-order.

Messages are tuples: a name, for RSL the channel's number, and what the message carries; no octets but those of layer 3. A place
is a station's number and a channel's. SAPI 0 is the main signalling link, 3 that of short messages.
"""
import tomllib
from dataclasses import dataclass, field

NEW, LIVE = ("WaitActivation", "WaitEstablish"), ("Active", "Preparing", "Changing", "Draining")
MOST_HELD_UP, MOST_HELD_DOWN, MOST_DRAINING, MOST_INITIAL = 16, 32, 3, 113
COMPLETES = {"assignment": 0x29, "handover": 0x2C}
FAILURES = {"assignment": 0x2F, "handover": 0x28}


def discriminator(message):
    return message[0] & 15


def is_signalling(channel):
    """Whether it is an SDCCH; else it is a TCH."""
    return channel >= 0x20


class Settings:
    def __init__(self, text):
        table = tomllib.loads(text)
        self.cells = table["cell"]
        self.modulus = 2 if table["network"].get("release98", False) else 4
        timers, handover = table.get("timers", {}), table.get("handover1", {})
        self.t3101, self.t3103 = timers.get("t3101_ms", 3000), timers.get("t3103_ms", 5000)
        self.t3107, self.drain = timers.get("t3107_ms", 5000), timers.get("drain_ms", 2000)
        self.level_window = handover.get("window_rxlev_averaging", 10)
        self.neighbor_window = handover.get("window_rxlev_neighbor_averaging", 10)
        self.interval = handover.get("power_budget_interval", 6)
        self.hysteresis = handover.get("power_budget_hysteresis", 3)


class Report:
    """The 16 octets of measurement results (TS 44.018, clause 10.5.2.20)."""

    def __init__(self, octets):
        bits = "".join(f"{octet:08b}" for octet in octets)

        def number(first, width):
            return int(bits[first:first + width], 2)

        self.level, self.is_valid, self.quality = number(2, 6), bits[9] == "0", number(17, 3)
        count = number(23, 3) % 7
        self.neighbors = [(number(at, 6), number(at + 6, 5), number(at + 11, 6)) for at in range(26, 26 + 17 * count, 17)]


@dataclass
class Connection:
    number: int
    serving: tuple
    request: int
    state: str = "WaitActivation"
    target: tuple = None
    change: str = None
    reference: int = 0
    draining: list = field(default_factory=list)  # places, the oldest first, each with whether it is done
    held_up: list = field(default_factory=lambda: [[]])  # a list for each draining channel, and one for the serving one
    held_down: dict = field(default_factory=lambda: {0: [], 3: []})
    short_link: str = "Down"
    waits: bool = False  # an assignment request
    peer: int = None  # the switch's number of the connection, from CC on
    due: int = None  # the cause of a CLEAR REQUEST that waits for CC
    is_complete: bool = False  # CLEAR COMPLETE was put
    waited: int = 0
    drained: int = 0
    reports: list = field(default_factory=list)
    last_number: int = 0

    def enter(self, state):
        self.state, self.waited = state, 0

    def may_begin(self):
        return self.state == "Active" or self.state == "Draining" and len(self.draining) < MOST_DRAINING


class Controller:
    def __init__(self, settings):
        self.settings = settings
        self.is_up = [True] * (len(settings.cells) + 1)
        self.channels = {(number, channel): "free" for number, cell in enumerate(settings.cells, 1) for channel in cell["channels"]}
        self.users = {}  # connections by the places that they have, without draining ones
        self.connections = {}
        self.next_number = 1
        self.handovers = 0
        self.outputs = []

    # ---- what is put

    def put(self, link, message):
        if self.is_up[link]:
            self.outputs.append((link, message))

    def activate(self, c, place, kind, reference=None):
        self.channels[place], self.users[place] = "used", c
        self.put(place[0], ("CHANNEL ACTIVATION", place[1], kind, reference))

    def release(self, place):
        self.channels[place] = "releasing"
        self.users.pop(place, None)
        self.put(place[0], ("RF CHANNEL RELEASE", place[1]))

    def hand(self, c, sapi, message):
        self.put(c.serving[0], ("DATA REQUEST", c.serving[1], sapi, message))

    def to_switch(self, c, *message):
        self.put(0, ("DT1", c.peer, message))

    # ---- ends and beginnings

    def end(self, c, cause):
        self.hand(c, 0, bytes([6, 0x0D, cause]))
        self.release(c.serving)
        if c.target:
            self.release(c.target)
        c.target, c.draining, c.held_up, c.held_down, c.waits = None, [], [[]], {0: [], 3: []}, False

    def drop(self, c):
        self.release(c.serving)
        del self.connections[c.number]

    def fail(self, c, cause):
        if c.peer is None:
            c.due = cause
        else:
            self.to_switch(c, "CLEAR REQUEST", cause)
        self.end(c, 1)
        c.state = "Closed"

    def first_free(self, cell, signalling):
        for channel in self.settings.cells[cell - 1]["channels"]:
            if is_signalling(channel) == signalling and self.channels[cell, channel] == "free":
                return cell, channel
        return None

    def begin_assignment(self, c):
        place = self.first_free(c.serving[0], signalling=False)
        if place is None:
            self.to_switch(c, "ASSIGNMENT FAILURE", 0x21)
            return
        c.change, c.target = "assignment", place
        self.activate(c, place, "assignment")
        c.enter("Preparing")

    def begin_handover(self, c, cell):
        place = self.first_free(cell, is_signalling(c.serving[1])) if self.is_up[cell] else None
        if place is None:
            return
        c.change, c.target, c.reference = "handover", place, self.handovers % 256
        self.handovers += 1
        self.activate(c, place, "handover", c.reference)
        c.enter("Preparing")

    def begin_waiting(self, c):
        if c.waits and c.may_begin():
            c.waits = False
            self.begin_assignment(c)

    # ---- what is held

    def hold_up(self, c, tenure, sapi, message):
        if sum(len(held) for held in c.held_up) >= MOST_HELD_UP:
            self.fail(c, 0x20)
        else:
            c.held_up[tenure].append((sapi, message))

    def relay_oldest(self, c):
        for sapi in (0, 3):
            for held_sapi, message in c.held_up[0]:
                if held_sapi == sapi:
                    self.to_switch(c, "DTAP", sapi, message)
        c.held_up[0] = []

    def hand_held(self, c, sapi):
        for message in c.held_down[sapi]:
            self.hand(c, sapi, message)
        c.held_down[sapi] = []

    def ask_short_link(self, c):
        c.short_link = "Asked"
        self.put(c.serving[0], ("ESTABLISH REQUEST", c.serving[1]))

    def hand_after_change(self, c):
        self.hand_held(c, 0)
        if c.held_down[3]:
            self.ask_short_link(c)

    # ---- what comes

    def take(self, source, message):
        """The outputs, each with the link that it goes to."""
        self.outputs = []
        if message == "Down":
            self.lose(source)
        elif self.is_up[source] and source == 0:
            self.from_switch(message)
        elif self.is_up[source]:
            self.from_station(source, message)
        return self.outputs

    def lose(self, source):
        if not self.is_up[source]:
            return
        self.is_up[source] = False
        for c in [self.connections[number] for number in sorted(self.connections)]:
            if source == 0:
                self.lose_switch(c)
            else:
                self.lose_station(c, source)

    def lose_switch(self, c):
        if c.state in NEW:
            self.drop(c)
            return
        if c.state != "Closed":
            self.end(c, 1)
        del self.connections[c.number]

    def lose_station(self, c, station):
        places = [c.serving] + [c.target] * (c.target is not None) + [place for place, is_done in c.draining if not is_done]
        if c.state in NEW and c.serving[0] == station:
            self.drop(c)
        elif c.state not in NEW and c.state != "Closed" and any(place[0] == station for place in places):
            self.fail(c, 0x20)

    # ---- from a station

    def from_station(self, station, message):
        name, place = message[0], (station, message[1])
        if name == "CHANNEL REQUIRED":
            self.access(station, message[1])
        elif name == "RF CHANNEL RELEASE ACK":
            self.freed(place)
        elif name == "DATA INDICATION":
            self.data(place, *message[2:])
        elif place in self.users and self.users[place].state != "Closed":
            c = self.users[place]
            {"CHANNEL ACTIVATION ACK": self.activated, "ESTABLISH INDICATION": self.established, "ESTABLISH CONFIRM": self.confirmed,
             "RELEASE INDICATION": self.refused, "MEASUREMENT RESULT": self.measured}.get(name, lambda *_: None)(c, place, *message[2:])

    def access(self, station, request):
        place = self.first_free(station, signalling=True)
        if place is None or not self.is_up[0]:
            return
        c = self.connections[self.next_number] = Connection(self.next_number, place, request)
        self.next_number += 1
        self.activate(c, place, "immediate")

    def activated(self, c, place):
        if c.state == "WaitActivation":
            self.put(place[0], ("IMMEDIATE ASSIGN COMMAND", place[1], c.request))
            c.enter("WaitEstablish")
        elif c.state == "Preparing" and place == c.target:
            # what describes the cell and the channel isn't looked at by the mobiles of tests/model/world.py
            command = {"assignment": bytes([6, 0x2E, place[1], 0, 0, 0]), "handover": bytes([6, 0x2B, 0, 0, place[1], 0, 0, c.reference, 0])}
            self.put(c.serving[0], ("COMMAND", c.serving[1], 0, command[c.change]))
            c.short_link = "Down"
            c.enter("Changing")

    def established(self, c, place, sapi, message):
        if c.state == "WaitEstablish" and sapi == 0:
            if message is None or len(message) > MOST_INITIAL:
                self.drop(c)
            else:
                self.put(0, ("CR", c.number, message))
                c.state = "WaitConfirm"
        elif sapi == 3 and place == c.serving and c.state in ("Active", "Preparing", "Draining"):
            c.short_link = "Up"
            self.hand_held(c, 3)

    def confirmed(self, c, place):
        if c.short_link == "Asked":
            self.established(c, place, 3, None)

    def refused(self, c, place):
        if place != c.serving or c.state not in ("Active", "Preparing", "Draining"):
            return
        if c.short_link == "Asked":
            self.to_switch(c, "SAPI N REJECT", 0x25)
            c.held_down[3] = []
        c.short_link = "Down"

    def freed(self, place):
        if self.channels.get(place) != "releasing":
            return
        self.channels[place] = "free"
        for c in self.connections.values():
            if (place, False) in c.draining:
                c.draining[c.draining.index((place, False))] = (place, True)
                self.shift(c)
                return

    def shift(self, c):
        """Done channels leave, as far as no older one drains."""
        while c.draining and c.draining[0][1]:
            c.draining.pop(0)
            c.held_up.pop(0)
            c.drained = 0
            self.relay_oldest(c)
        if not c.draining and c.state == "Draining":
            c.enter("Active")
        self.begin_waiting(c)

    def data(self, place, sapi, message):
        drained_by = [c for c in self.connections.values() if (place, False) in c.draining]
        c = drained_by[0] if drained_by else self.users.get(place)
        if c is None:
            return
        if discriminator(message) == 6:
            if c.state == "Changing" and sapi == 0 and len(message) >= 3 and message[0] == 6:
                self.change_over(c, place, message[1])
        elif c.state == "WaitEstablish" and sapi == 0:
            self.drop(c)
        elif c.state == "WaitConfirm":
            self.hold_up(c, 0, sapi, message)
        elif c.state in LIVE and place == c.target and not drained_by:
            if c.state == "Changing" and sapi == 0:
                self.fail(c, 0x20)
        elif c.state in LIVE:
            tenure = c.draining.index((place, False)) if drained_by else len(c.draining)
            if tenure == 0:
                self.to_switch(c, "DTAP", sapi, message)
            else:
                self.hold_up(c, tenure, sapi, message)

    def change_over(self, c, place, kind):
        if place == c.target and kind == COMPLETES[c.change]:
            self.to_switch(c, "ASSIGNMENT COMPLETE" if c.change == "assignment" else "HANDOVER PERFORMED")
            self.release(c.serving)
            c.drained = c.drained if c.draining else 0
            c.draining.append((c.serving, False))
            c.held_up.append([])
            c.serving, c.target, c.reports = c.target, None, []
            self.hand_after_change(c)
            c.enter("Draining")
            self.begin_waiting(c)
        elif place == c.serving and kind == FAILURES[c.change]:
            if c.change == "assignment":
                self.to_switch(c, "ASSIGNMENT FAILURE", 0x0A)
            self.release(c.target)
            c.target = None
            self.hand_after_change(c)
            c.enter("Draining" if c.draining else "Active")
            self.begin_waiting(c)

    # ---- measurements

    def measured(self, c, place, number, octets):
        report = Report(octets)
        if place != c.serving or c.state in NEW or not report.is_valid:
            return
        c.reports.append(report)
        c.last_number = number
        if c.may_begin():
            cell = self.better_cell(c)
            if cell:
                self.begin_handover(c, cell)

    def better_cell(self, c):
        """The cell to move to, or None."""
        s, others = self.settings, [number for number in range(1, len(self.settings.cells) + 1) if number != c.serving[0]]
        arfcns = sorted({s.cells[number - 1]["arfcn"] for number in others})

        def level_in(report, number):
            cell = s.cells[number - 1]
            named = [level for level, place, bsic in report.neighbors
                     if place < len(arfcns) and (arfcns[place], bsic) == (cell["arfcn"], cell["bsic"])]
            return named[0] if named else 0

        def average(levels):
            return sum(levels) // len(levels)

        serving = average([report.level for report in c.reports[-s.level_window:]])
        is_bad = sum(report.quality >= 5 for report in c.reports[-4:]) >= 3
        if not (is_bad or serving == 0 or c.last_number % s.interval == s.interval - 1):
            return None
        averages = {number: average([level_in(report, number) for report in c.reports[-s.neighbor_window:]]) for number in others}
        better = [number for number in others if averages[number] >= serving + s.hysteresis]
        return max(better, key=averages.get) if better else None

    # ---- from the switch

    def from_switch(self, message):
        name, c = message[0], self.connections.get(message[1])
        if c is None:
            return
        if name == "CC" and c.peer is None:
            self.switch_confirms(c, message[2])
        elif name == "RLSD" and c.state not in NEW:
            if c.state != "Closed":
                self.end(c, 1)
            self.put(0, ("RLC", message[2]))
            del self.connections[c.number]
        elif name == "DT1" and c.peer is not None:
            self.switch_says(c, *message[2])

    def switch_confirms(self, c, number):
        if c.state == "WaitConfirm":
            c.peer = number
            self.relay_oldest(c)
            c.enter("Active")
        elif c.state == "Closed":
            c.peer = number
            self.to_switch(c, "CLEAR REQUEST", c.due)

    def switch_says(self, c, name, *what):
        if name == "DTAP" and c.state in LIVE:
            self.downlink(c, *what)
        elif name == "ASSIGNMENT REQUEST" and c.state in LIVE:
            if c.may_begin():
                self.begin_assignment(c)
            elif c.waits:
                self.to_switch(c, "ASSIGNMENT FAILURE", 0x60)
            else:
                c.waits = True
        elif name == "CLEAR COMMAND" and (c.state in LIVE or not c.is_complete):
            if c.state in LIVE:
                self.end(c, 0)
            self.to_switch(c, "CLEAR COMPLETE")
            c.is_complete = True
            c.state = "Closed"

    def downlink(self, c, sapi, message):
        if c.state != "Changing" and (sapi == 0 or c.short_link == "Up"):
            self.hand(c, sapi, message)
        elif len(c.held_down[0]) + len(c.held_down[3]) >= MOST_HELD_DOWN:
            self.fail(c, 0x20)
        else:
            c.held_down[sapi].append(message)
            if c.state != "Changing" and c.short_link == "Down":
                self.ask_short_link(c)

    # ---- time

    def tick(self, milliseconds):
        self.outputs = []
        for c in self.connections.values():
            c.waited += milliseconds
            c.drained += milliseconds if c.draining else 0
        for c in [self.connections[number] for number in sorted(self.connections)]:
            self.expire(c)
        return self.outputs

    def expire(self, c):
        s = self.settings
        if c.state in NEW:
            if c.waited >= s.t3101:
                self.drop(c)
        elif c.state in ("Preparing", "Changing") and c.waited >= (s.t3103 if c.change == "handover" else s.t3107):
            self.fail(c, 0x00)
        elif c.state in LIVE and c.draining and c.drained >= s.drain:
            self.fail(c, 0x20)
