# SPDX-License-Identifier: MIT OR Apache-2.0
"""Mobiles, stations and the switch round the controller of tests/model/controller.py: a second reading of docs/SCRIPT.md, beside the
proved one, for tests/random-scripts and tests/run-order. An event is its kind and its words, octets as bytes.
"""
from model.controller import Controller, discriminator

LONGEST, LONGEST_INITIAL = 251, 113
CALL_CONTROL = 9  # the cause with which the switch clears
COMMANDS = {0x2B: ("handover", 9), 0x2E: ("assignment", 6), 0x0D: ("release", 3)}  # by type: what it is, its octets at least
ARRIVED = {"assignment": bytes([6, 0x29, 0]), "handover": bytes([6, 0x2C, 0])}
RETURNED = {"assignment": bytes([6, 0x2F, 3]), "handover": bytes([6, 0x28, 3])}


def is_flow(message):
    return len(message) >= 2 and discriminator(message) in (3, 5, 11)


def without_number(message):
    return bytes([message[0], message[1] & 0x3F]) + message[2:]


def is_unnumbered_flow(message):
    """Of the flow, and its number bits are clear; or of no flow at all."""
    return discriminator(message) not in (3, 5, 11) or is_flow(message) and message == without_number(message)


def is_initial(message):
    return len(message) <= LONGEST_INITIAL and discriminator(message) in (5, 6) and is_unnumbered_flow(message)


def is_sendable(sapi, message):
    is_short = discriminator(message) == 9
    return len(message) <= LONGEST and discriminator(message) != 6 and is_unnumbered_flow(message) and (sapi == 3) == is_short


def command_in(message):
    """What a message of radio resource management tells a mobile to do."""
    what, least = COMMANDS.get(message[1], (None, 0)) if len(message) > 1 and message[0] == 6 else (None, 0)
    return what if len(message) >= least else None


class Mobile:
    def __init__(self, modulus, initial, takes_short):
        self.modulus, self.takes_short, self.opens = modulus, takes_short, True
        self.sent, self.received = [], []
        self.waiting, self.air, self.cut = {0: [], 3: []}, {0: None, 3: None}, {0: None, 3: None}
        self.place = "asking"  # or: on, between, gone
        self.tenure = self.command = None  # a tenure is a station, a channel, and the number of its activation
        self.was_taken = {0: False, 3: False}
        self.send(0, initial)

    def send(self, sapi, message):
        if is_flow(message):
            number = len(self.sent) % self.modulus
            self.sent.append(message)
            message = bytes([message[0], message[1] | number << 6]) + message[2:]
        self.waiting[sapi].append(message)

    def frame(self, sapi):
        """What is in the air and wasn't taken; it is taken with that."""
        if self.air[sapi] is None and self.waiting[sapi]:
            self.air[sapi], self.was_taken[sapi] = self.waiting[sapi].pop(0), False
        if self.air[sapi] is None or self.was_taken[sapi]:
            return None
        self.was_taken[sapi] = True
        return self.air[sapi]

    def acknowledged(self, sapi):
        was_taken = self.air[sapi] is not None and self.was_taken[sapi]
        if was_taken:
            self.air[sapi] = None
        return was_taken

    def leave(self):
        self.cut, self.air = self.air, {0: None, 3: None}
        self.place, self.opens = "between", False

    def settle(self, tenure, control):
        """On a channel, with this message of radio resource management first; those of the channel before are dropped."""
        for sapi in (0, 3):
            if self.cut[sapi] is not None:
                self.waiting[sapi].insert(0, self.cut[sapi])
        self.waiting[0] = [control] + [message for message in self.waiting[0] if discriminator(message) != 6]
        self.place, self.tenure, self.command = "on", tenure, None


class Reception:
    """A connection of the switch."""

    def __init__(self, peer, initial):
        self.peer, self.taken, self.stage = peer, [initial], "open"

    def judged(self, modulus):
        """The messages of the flow, each with what the filter says of it (TS 24.007, clause 11.2.3.2.3)."""
        count, word = 0, None
        for message in filter(is_flow, self.taken):
            if word != "gap":
                word = {0: "accepted", modulus - 1: "duplicate"}.get(((message[1] >> 6) - count) % modulus, "gap")
            count += word == "accepted"
            yield word, message

    def accepted(self, modulus):
        return [without_number(message) for word, message in self.judged(modulus) if word == "accepted"]


class World:
    def __init__(self, settings):
        links = len(settings.cells) + 1
        self.modulus, self.controller = settings.modulus, Controller(settings)
        self.is_up, self.outboxes, self.made = [True] * links, [[] for _ in range(links)], [[] for _ in range(links)]
        self.inbox, self.mobiles, self.receptions, self.not_taken = [], {}, [], 0
        self.active, self.activations, self.short_links, self.air, self.reports = set(), {}, set(), {}, {}

    def run(self, event):
        """Whether it was taken."""
        was_taken = bool(getattr(self, event[0])(*event[1:]))
        self.not_taken += not was_taken
        return was_taken

    # ---- mobiles

    def is_reached(self, tenure):
        place = tenure[:2]
        return self.is_up[place[0]] and place in self.active and self.activations[place] == tenure[2]

    def mobile_on(self, number):
        mobile = self.mobiles.get(number)
        return mobile if mobile and mobile.place == "on" and self.is_reached(mobile.tenure) else None

    def mobile_between(self, number):
        mobile = self.mobiles.get(number)
        return mobile if mobile and mobile.place == "between" else None

    def connect(self, number, station, initial, takes_short):
        if number in self.mobiles or not self.is_up[station] or not is_initial(initial):
            return False
        self.mobiles[number] = Mobile(self.modulus, initial, takes_short)
        self.made[station].append(("CHANNEL REQUIRED", number))
        return True

    def upper(self, number, sapi, message):
        mobile = self.mobiles.get(number)
        if not mobile or mobile.place not in ("on", "between") or not is_sendable(sapi, message):
            return False
        mobile.send(sapi, message)
        return True

    def airup(self, number, sapi):
        mobile = self.mobile_on(number)
        frame = mobile and mobile.frame(sapi)
        if frame is None:
            return False
        station, channel, _ = mobile.tenure
        if sapi == 3 and (station, channel) not in self.short_links:
            self.short_links.add((station, channel))
            self.made[station].append(("ESTABLISH INDICATION", channel, 3, None))
        name = "ESTABLISH INDICATION" if sapi == 0 and mobile.opens else "DATA INDICATION"
        self.made[station].append((name, channel, sapi, frame))
        mobile.opens = mobile.opens and sapi == 3
        return True

    def airack(self, number, sapi):
        mobile = self.mobile_on(number)
        return mobile and mobile.acknowledged(sapi)

    def from_air(self, number):
        mobile = self.mobile_on(number)
        return self.air[mobile.tenure[:2]].pop(0) if mobile and self.air[mobile.tenure[:2]] else None

    def airdown(self, number):
        entry = self.from_air(number)
        if entry is None:
            return False
        (message, target), mobile = entry, self.mobiles[number]
        if discriminator(message) != 6:
            mobile.received.append(message)
        elif command_in(message) == "release":
            mobile.place = "gone"
        elif command_in(message) and target:
            mobile.command = command_in(message), target
        return True

    def airdownlost(self, number):
        return self.from_air(number) is not None

    def move(self, number):
        mobile = self.mobile_on(number)
        if not mobile or not mobile.command:
            return False
        self.air[mobile.tenure[:2]] = []
        self.short_links.discard(mobile.tenure[:2])
        mobile.leave()
        return True

    def touch(self, number):
        mobile = self.mobile_between(number)
        if not mobile or mobile.command[0] != "handover" or not self.is_reached(mobile.command[1]):
            return False
        self.made[mobile.command[1][0]].append(("HANDOVER DETECTION", mobile.command[1][1]))
        return True

    def settled(self, mobile, tenure, control):
        if not self.is_reached(tenure):
            return False
        self.made[tenure[0]].append(("ESTABLISH INDICATION", tenure[1], 0, None))
        mobile.settle(tenure, control)
        return True

    def arrive(self, number):
        mobile = self.mobile_between(number)
        return mobile and self.settled(mobile, mobile.command[1], ARRIVED[mobile.command[0]])

    def back(self, number):
        mobile = self.mobile_between(number)
        return mobile and self.settled(mobile, mobile.tenure, RETURNED[mobile.command[0]])

    def report(self, number, octets):
        mobile = self.mobile_on(number)
        if not mobile or len(octets) != 16:
            return False
        station, channel, _ = mobile.tenure
        count = self.reports[station, channel]
        self.reports[station, channel] = (count + 1) % 256
        self.made[station].append(("MEASUREMENT RESULT", channel, count, octets))
        return True

    # ---- stations

    def basetakes(self, station):
        if not self.is_up[station] or not self.outboxes[station]:
            return False
        (name, *words), target = self.outboxes[station].pop(0)
        place = station, words[0]
        if name == "CHANNEL ACTIVATION" and place not in self.active:
            self.active.add(place)
            self.activations[place] = self.activations.get(place, 0) + 1
            self.air[place], self.reports[place] = [], 0
            self.made[station].append(("CHANNEL ACTIVATION ACK", words[0]))
        elif name == "IMMEDIATE ASSIGN COMMAND":
            mobile = self.mobiles.get(words[1])
            if mobile and mobile.place == "asking":
                mobile.place, mobile.tenure = "on", place + (self.activations.get(place, 0),)
        elif name in ("DATA REQUEST", "COMMAND") and place in self.active:
            self.air[place].append((words[2], target))
        elif name == "ESTABLISH REQUEST":
            self.answer_for_link(place)
        elif name == "RF CHANNEL RELEASE":
            self.active.discard(place)
            self.short_links.discard(place)
            self.made[station].append(("RF CHANNEL RELEASE ACK", words[0]))
        return True

    def answer_for_link(self, place):
        tenure = place + (self.activations.get(place, 0),)
        users = [mobile for mobile in self.mobiles.values() if mobile.place == "on" and mobile.tenure == tenure]
        if place in self.active and any(mobile.takes_short for mobile in users):
            self.short_links.add(place)
            self.made[place[0]].append(("ESTABLISH CONFIRM", place[1]))
        else:
            self.short_links.discard(place)
            self.made[place[0]].append(("RELEASE INDICATION", place[1]))

    # ---- queues and the controller

    def basepush(self, source):
        if not self.made[source]:
            return False
        self.inbox.append((source, self.made[source].pop(0)))
        return True

    def join(self, outputs, target):
        for link, message in outputs:
            if self.is_up[link]:
                self.outboxes[link].append((message, target if message[0] == "COMMAND" else None))

    def handle(self):
        if not self.inbox:
            return False
        source, message = self.inbox.pop(0)
        target = None
        if message[0] == "CHANNEL ACTIVATION ACK":
            target = source, message[1], self.activations.get((source, message[1]), 0)
        self.join(self.controller.take(source, message), target)
        return True

    def tick(self, milliseconds):
        self.join(self.controller.tick(milliseconds), None)
        return True

    def basedown(self, source):
        if not self.is_up[source]:
            return False
        self.is_up[source], self.made[source], self.outboxes[source] = False, [], []
        self.inbox.append((source, "Down"))
        return True

    # ---- the switch

    def reception(self, number):
        return self.receptions[number - 1] if 1 <= number <= len(self.receptions) else None

    def switchtakes(self):
        if not self.is_up[0] or not self.outboxes[0]:
            return False
        (name, number, *words), _ = self.outboxes[0].pop(0)
        reception = self.reception(number) if name == "DT1" else None
        if name == "CR":
            self.receptions.append(Reception(number, words[0]))
            self.made[0].append(("CC", number, len(self.receptions)))
        elif reception and reception.stage != "ended":
            self.hear(reception, number, words[0])
        return True

    def hear(self, reception, number, message):
        if message[0] == "DTAP":
            reception.taken.append(message[2])
        elif message[0] == "CLEAR REQUEST":
            reception.stage = "clearing"
            self.made[0].append(("DT1", reception.peer, ("CLEAR COMMAND", message[1])))
        elif message[0] == "CLEAR COMPLETE":
            reception.stage = "ended"
            self.made[0].append(("RLSD", reception.peer, number))

    def switchdoes(self, what, number, *words):
        reception = self.reception(number)
        if not self.is_up[0] or not reception or reception.stage != "open":
            return False
        if what == "dtap" and len(words[1]) > LONGEST:
            return False
        if what == "clear":
            reception.stage = "clearing"
        message = {"dtap": ("DTAP", *words), "assign": ("ASSIGNMENT REQUEST",), "clear": ("CLEAR COMMAND", CALL_CONTROL)}[what]
        self.made[0].append(("DT1", reception.peer, message))
        return True

    # ---- what is seen

    def lists(self):
        for number, mobile in sorted(self.mobiles.items()):
            yield f"mobile {number} sent", mobile.sent
            yield f"mobile {number} received", mobile.received
        for number, reception in enumerate(self.receptions, 1):
            yield f"conn {number} taken", reception.taken
            yield f"conn {number} accepted", reception.accepted(self.modulus)
            yield f"conn {number} unnumbered", [message for message in reception.taken if not is_flow(message)]

    def report_text(self):
        lines = [line for name, messages in self.lists()
                 for line in [f"{name} {len(messages)}"] + [message.hex() for message in messages]]
        return "\n".join(lines + [f"events not taken {self.not_taken}"]) + "\n"


# 'return' is no name in Python
setattr(World, "return", World.back)
