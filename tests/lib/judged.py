# SPDX-License-Identifier: MIT OR Apache-2.0
"""Lines for `bsc judge` and tests/model/judge.py: those that `bsc trace` prints of random scripts, edits of them, and what an edit has to
do to a verdict, told without a model of channels.
"""
import random
import re
import subprocess
from collections import Counter

from lib.random_world import WEIGHTS, eager, line_of, random_event, random_settings
from lib.telling import Unique
from lib.waited import OFTEN
from model.controller import Settings
from model.judge import DT1, RADIO_RESOURCE, Frame, discriminator, dtap, frames_in, rsl, sccp
from model.world import World

SIZES, MOBILES, SLOW = (120, 250, 500), (1, 2, 2, 3), 0.8  # events; mobiles; how often what a slow source brings has to wait
TIMERS = (200, 500)
# messages that say nothing of the order, whatever becomes of them
IDLE = {0x0C13, 0x0C16, 0x0822, 0x0827, 0x0828, 0x0204, 0x0205, 0x0209}


def random_script(number):
    """Settings of two to four cells, and the text of a script whose messages are there once."""
    dice, text = random.Random(number), ""
    while text.count("[[cell]]") < 2:
        text = random_settings(dice, TIMERS)
    settings, unique, events = Settings(eager(text)), Unique(with_control=False), []
    world, size, mobiles, slow = World(settings), dice.choice(SIZES), dice.choice(MOBILES), dice.randint(0, 3)
    weights = {**WEIGHTS, **OFTEN, "tick": dice.choice((0, 0.1)), "basedown": dice.choice((0, 0, 0.02))}
    for _ in range(40 * size):
        event = unique(random_event(dice, world, settings, mobiles, weights))
        if event is None or event == ("basepush", slow) and dice.random() < SLOW:
            continue
        if len(events) < size and world.run(event):
            events.append(event)
    return eager(text), "".join(line_of(event) + "\n" for event in events)


def traced(program, settings, script):
    """The lines of `bsc trace`."""
    done = subprocess.run([program, "trace", "--config", settings], input=script, capture_output=True, text=True, timeout=60)
    if done.returncode != 0 or done.stderr:
        raise RuntimeError(f"trace: status {done.returncode}: {done.stderr}")
    return done.stdout.splitlines()


def numbered(lines):
    """The same, each with its place among them as its number."""
    return [f"{place}\t{line.partition(chr(9))[2]}" for place, line in enumerate(lines, 1)]


def sent(lines):
    """The lines of frames that are put on links, each with its frame."""
    found = [(line, frame) for line in lines for frame in frames_in([line])]
    return [(line, Frame(place, *list(vars(frame).values())[1:])) for place, (line, frame) in enumerate(found, 1)]


def edits(count):
    """Each edit of so many lines, as the places of the lines that are left, in their order."""
    every = list(range(count))
    for at in every:
        yield "dropped", at, every[:at] + every[at + 1:]
        yield "doubled", at, every[:at + 1] + every[at:]
        if at + 1 < count:
            yield "swapped", at, every[:at] + [at + 1, at] + every[at + 2:]


def disturbed(dice, lines):
    """The lines after many edits: some are dropped, doubled, earlier, of another station; here and there frames are missing."""
    found, often = [], dice.choice((0.01, 0.05, 0.2))
    for line in lines:
        what = dice.choice(("dropped", "doubled", "earlier", "hole", "station")) if dice.random() < often else None
        if what == "earlier":
            found.insert(max(0, len(found) - dice.randint(1, 6)), line)
            continue
        if what == "hole" and dice.random() < often:
            found.append(f"1\tbsc\tstation {dice.randint(1, 3)}\tX\tmissing\t")
        if what == "station":
            line = re.sub(r"station \d+", f"station {dice.randint(1, 3)}", line)
        found += [line] * {"dropped": 0, "doubled": 2}.get(what, 1)
    return numbered(found)


# ---- what an edit has to do


def content(frame):
    """Of a frame that carries a message of a mobile or for one: the way, the connection or the channel, the SAPI, the message."""
    if frame.station == 0:
        message = sccp(frame.octets)
        found = dtap(message.data) if message and message.kind == DT1 else None
        return ("lowered" if frame.is_to_bsc else "raised", message.to, *found) if found else None
    message = rsl(frame.octets)
    if not message or message[0] not in ("DATA INDICATION", "DATA REQUEST") or not message[3]:
        return None
    if discriminator(message[3]) == RADIO_RESOURCE:
        return None
    return "told" if frame.is_to_bsc else "handed", (frame.station, message[1]), message[2] and message[2] & 7, message[3]


def texts(frames):
    return [one[3] for one in map(content, frames) if one]


def is_idle(frame):
    return frame.station != 0 and int.from_bytes(frame.octets[:2], "big") in IDLE


def wanted(edit, at, frames):
    """What has to be said of the edit of frames that were in order: a fault's name, 'nothing', or None where only a model of channels
    knows it."""
    one = content(frames[at])
    if edit == "swapped":
        return wanted_of_swap(frames[at], frames[at + 1], is_first=texts(frames[:at]).count(one and one[3]) == 0)
    if is_idle(frames[at]):
        return "nothing"
    if not one or one[0] not in ("raised", "handed"):
        return None
    if edit == "doubled":
        told = Counter(content(frame)[3] for frame in frames[:at] if content(frame) and content(frame)[0] in ("told", "lowered"))
        got = Counter(content(frame)[3] for frame in frames[:at + 1] if content(frame) and content(frame)[0] == one[0])
        return "doubled" if got[one[3]] >= told[one[3]] else None
    return wanted_of_drop(one, [content(frame) for frame in frames[at + 1:]])


def wanted_of_drop(one, later):
    """It is lost where another message of its connection, or of its channel, and its SAPI comes behind it."""
    others = [other for other in later if other and other[:3] == one[:3]]
    if others and all(other[3] != one[3] for other in others):
        return "lost" if one[0] == "raised" or one[2] == 0 else None
    return "nothing" if one[0] == "raised" and not others else None


def wanted_of_swap(frame, next_frame, is_first):
    """Where it is the first time that this is told or sent, nobody may have relayed it before."""
    one, other = content(frame), content(next_frame)
    if is_idle(frame) and is_idle(next_frame):
        return "nothing"
    if not one or not other:
        return None
    if one[3] == other[3]:
        return "made up" if is_first and (one[0], other[0]) in (("told", "raised"), ("lowered", "handed")) else None
    if one[0] == other[0] and one[0] in ("raised", "handed"):
        return "overtaken" if one[:3] == other[:3] else "nothing" if one[1] != other[1] and one[0] == "raised" else None
    return None
