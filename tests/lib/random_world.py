# SPDX-License-Identifier: MIT OR Apache-2.0
"""Random settings, and random events of the world of tests/model/world.py, for tests/random-scripts and tests/run-order.

The dice decide alone: the same dice give the same settings and, in the same world, the same event.
"""
import re

# what upper layers, the switch and a mobile that connects may say; some of it is refused
UPPER = [bytes.fromhex(text) for text in 4 * ["0305", "050801", "0b3a"] + ["0902", "03", "0345", "0601", "04aa", "07"]]
INITIAL = [bytes.fromhex(text) for text in 9 * ["052471"] + ["0524", "062771", "060000", "05", "0564", "0305"]]
SPOKEN = [(0, bytes.fromhex(text)) for text in 3 * ["8302", "832a01"] + ["062e0a201400", "060d00", "062b121e41401e0000", "0615"]]
SPOKEN += 4 * [(3, bytes.fromhex("0904"))]
# how often a kind of event is tried
WEIGHTS = {
    "connect": 4, "upper": 8, "airup": 12, "airack": 10, "airdown": 10, "airdownlost": 0.2, "move": 10, "touch": 1, "arrive": 10,
    "return": 0.7, "basetakes": 10, "basepush": 14, "handle": 14, "switchtakes": 6, "switchdoes": 4, "tick": 0.1,
    "basedown": 0.01, "report": 6,
}


def random_settings(dice, timers=(100, 200, 500)):
    """A text of settings with one to four cells."""
    text = '[network]\nmcc = "001"\nmnc = "01"\n' + dice.choice(["", "release98 = true\n"]) + '[switch]\naddress = "x"\n[timers]\n'
    text += "".join(f"{key} = {dice.choice(timers)}\n" for key in ("t3101_ms", "t3103_ms", "t3107_ms", "drain_ms"))
    windows = ("window_rxlev_averaging", "window_rxqual_averaging", "window_rxlev_neighbor_averaging")
    text += "[handover1]\n" + "".join(f"{key} = {dice.randint(1, 10)}\n" for key in windows)
    text += f"power_budget_interval = {dice.choice([1, 1, 1, 2, 3])}\npower_budget_hysteresis = {dice.randint(0, 4)}\n"
    arfcns = dice.sample(range(1, 1024), 4)
    for number in range(1, dice.choice([1, 2, 2, 2, 3, 4]) + 1):
        channels = dice.sample(range(0x20, 0x80), dice.randint(1, 5)) + dice.sample(range(0x08, 0x20), dice.randint(0, 5))
        dice.shuffle(channels)
        text += f'[[cell]]\nlisten = "{number}"\nlac = 1\nci = {number}\n'
        text += f"arfcn = {arfcns[number - 1]}\nbsic = {dice.randint(0, 63)}\nchannels = {channels}\n"
    return text


def eager(text):
    """The settings with which each report may decide."""
    return re.sub(r"(averaging|interval) = \d+", r"\1 = 1", text)


def random_report(dice, settings, serving):
    """16 octets that name some cells, most of them rightly."""
    others = sorted({cell["arfcn"] for number, cell in enumerate(settings.cells, 1) if number != serving})
    level, invalid = dice.choice([0, 10, 20, 20]), dice.random() < 0.1
    quality, count = dice.choice([0, 0, 0, 5, 7]), dice.choice([0, 1, 1, 2, 3, 6, 7])
    bits = f"00{level:06b}0{invalid:b}{level:06b}0{quality:03b}000{count:03b}"
    for _ in range(6):
        cell = dice.choice(settings.cells)
        place = others.index(cell["arfcn"]) if cell["arfcn"] in others else dice.randint(0, 31)
        bits += f"{dice.choice([5, 23, 30, 63]):06b}{place:05b}{cell['bsic'] if dice.random() < 0.95 else 0:06b}"
    return int(bits.ljust(128, "0"), 2).to_bytes(16, "big")


def random_event(dice, world, settings, mobiles, weights=None):
    """One that may be taken or not; these weights are those of its kinds."""
    weights = weights or WEIGHTS
    kind = dice.choices(list(weights), list(weights.values()))[0]
    mobile, station, source = dice.randint(1, mobiles), dice.randint(1, len(settings.cells)), dice.randint(0, len(settings.cells))
    connection = dice.randint(1, max(1, len(world.receptions)))
    if kind == "connect":
        return kind, mobile, station, dice.choice(INITIAL), dice.random() < 0.6
    if kind == "upper":
        message = dice.choice(UPPER) + dice.choice([b"", b"", dice.randbytes(1), dice.randbytes(2)])
        return kind, mobile, 3 if (message[0] & 15 == 9) == (dice.random() < 0.95) else 0, message
    if kind in ("airup", "airack"):
        return kind, mobile, dice.choice([0, 0, 0, 3])
    if kind == "report":
        there = world.mobiles.get(mobile)
        return kind, mobile, random_report(dice, settings, there.tenure[0] if there and there.tenure else station)
    if kind == "switchdoes":
        what = dice.choice(["dtap"] * 50 + ["assign"] * 12 + ["clear"])
        return (kind, what, connection) + (dice.choice(SPOKEN) if what == "dtap" else ())
    if kind == "tick":
        return kind, dice.choice([1, 50, 99, 100])
    if kind == "basetakes":
        return kind, station
    if kind in ("basepush", "basedown"):
        return kind, source
    return (kind,) if kind in ("handle", "switchtakes") else (kind, mobile)


def line_of(event):
    """The line of a script."""
    words = {True: "y", False: "n"}
    return " ".join(word.hex() if isinstance(word, bytes) else words[word] if isinstance(word, bool) else str(word) for word in event)


def event_of(line):
    """The event of a good line."""
    kind, *words = line.split(" ")
    if kind == "connect":
        mobile, station, message, answer = words
        return kind, int(mobile), int(station), bytes.fromhex(message), answer == "y"
    if kind == "switchdoes":
        what, *words = words
        return kind, what, *event_words(words, 2)
    return kind, *event_words(words, {"upper": 2, "report": 1}.get(kind, 3))


def event_words(words, place):
    """Numbers, and octets at one place."""
    return tuple(bytes.fromhex(word) if at == place else int(word) for at, word in enumerate(words))
