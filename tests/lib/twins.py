# SPDX-License-Identifier: MIT OR Apache-2.0
"""Random plays in which two or three mobiles send the same initial message at once, each on a channel of its own, and a BSC that passes on
what they send: rightly, or with one connection's messages in the other, or not all of them.
"""
import random

from lib.judge_play import CM_SERVICE_REQUEST, SHORT, Play

OTHER = "052472"
ORDERLY, HONEST = 0.8, 0.6  # how often all mobiles send before the first CR; how often each message is passed on where it belongs


def texts(dice, count):
    """Messages of call control in order; those of two mobiles are often alike."""
    return [f"03{(number % 4) << 6 | 5:02x}{dice.choice(('01', '02'))}" for number in range(1, count + 1)]


def access(dice, channel, text):
    steps = [("activates", *channel)] if dice.random() < 0.9 else []
    return [*steps, ("establishes", *channel, text)]


def call(dice, channel, number, text, numbers):
    """What becomes of a connection on this channel."""
    if dice.random() < 0.12:
        return [("releases", *channel), ("released", *channel)] if dice.random() < 0.7 else []
    steps = [("connects", number, text)] + ([("confirms", number)] if dice.random() < 0.95 else [])
    serving, waiting = channel, []
    for message in texts(dice, dice.randint(0, 4)):
        if dice.random() < 0.15 and serving == channel:
            serving = channel[0] + 1, channel[1] + 8
            steps += [("activates", *serving, number), ("sends_over", *channel, "0a16", serving[1], number), ("completes", *serving),
                      ("releases", *channel)] + [("released", *channel)] * (dice.random() < 0.7)
        steps.append(("tells", *serving, message))
        waiting.append(message)
        while waiting and dice.random() < 0.8:
            owner = number if dice.random() < HONEST else dice.choice(numbers)
            steps.append(("relays", waiting.pop(0), 0, owner))
        if dice.random() < 0.3:
            steps += [("says", f"83{dice.randint(0, 3):02x}", dice.choice((0, 0, SHORT)), number)]
            steps += [("hands", *serving, steps[-1][1], steps[-1][2])] * (dice.random() < 0.9)
    steps += [("relays", message, 0, number) for message in waiting if dice.random() < 0.8]
    if dice.random() < 0.8:
        steps += [("clears", number), ("ends", number), ("releases", *serving), ("released", *serving)]
    return steps


def merged(dice, lists):
    """All steps, each list's in its order."""
    lists, found = [list(steps) for steps in lists if steps], []
    while lists:
        steps = dice.choice(lists)
        found.append(steps.pop(0))
        lists = [rest for rest in lists if rest]
    return found


def twins(number):
    """The lines of a play."""
    dice = random.Random(number)
    count = dice.choice((2, 2, 2, 3, 4))
    channels = [(dice.randint(1, 2), 0x41 + place) for place in range(count)]
    numbers = dice.sample(range(1, count + 1), count)
    words = [OTHER if place > 1 and dice.random() < 0.5 else CM_SERVICE_REQUEST for place in range(count)]
    accesses = [access(dice, channel, text) for channel, text in zip(channels, words)]
    calls = [call(dice, *one, numbers) for one in zip(channels, numbers, words)]
    if dice.random() < ORDERLY:
        steps = merged(dice, accesses) + merged(dice, calls)
    else:
        steps = merged(dice, [one + other for one, other in zip(accesses, calls)])
    play = Play()
    for name, *words in steps:
        getattr(play, name)(*words)
    return play.lines
