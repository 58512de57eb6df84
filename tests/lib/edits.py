# SPDX-License-Identifier: MIT OR Apache-2.0
"""Edits of a journal of lib/at_will, each of which breaks the order: what judges has to find each of them."""
from collections import Counter

from model.controller import discriminator
from model.world import is_flow


def relayed(journal):
    """The messages of the flow that the switch got, and each once: place in the journal, connection, message."""
    found = [(place, entry[2][1], entry[2][2][2]) for place, entry in enumerate(journal)
             if entry[:2] == (0, "got") and entry[2][0] == "DT1" and entry[2][2][0] == "DTAP" and is_flow(entry[2][2][2])]
    counts = Counter(text for link, way, message in journal if link and way == "sent" and message[0] == "DATA INDICATION"
                     for text in message[3:])
    return [one for one in found if counts[one[2]] == 1]


def handed(journal):
    """The messages of the switch that stations got: place in the journal, the entry."""
    return [(place, entry) for place, entry in enumerate(journal)
            if entry[0] and entry[1] == "got" and entry[2][0] == "DATA REQUEST" and discriminator(entry[2][3]) != 6]


def neighbours(journal):
    """The places of such messages, each with that of the next one of its connection."""
    by_connection = {}
    for place, connection, _ in relayed(journal):
        by_connection.setdefault(connection, []).append(place)
    return [pair for places in by_connection.values() for pair in zip(places, places[1:])]


def left_out(journal, dice):
    """A message of a mobile, where another one comes behind it."""
    pairs = neighbours(journal)
    if pairs:
        place = dice.choice(pairs)[0]
        return journal[:place] + journal[place + 1:]


def swapped(journal, dice):
    """Two messages of a mobile, in the other order."""
    pairs = neighbours(journal)
    if pairs:
        one, other = dice.choice(pairs)
        return journal[:one] + [journal[other]] + journal[one + 1:other] + [journal[one]] + journal[other + 1:]


def doubled(journal, dice):
    """A message of a mobile, twice."""
    found = relayed(journal)
    if found:
        place = dice.choice(found)[0]
        return journal[:place] + [journal[place]] + journal[place:]


def on_another_connection(journal, dice):
    """A message of a mobile, on the connection of another."""
    found = relayed(journal)
    pairs = [(one, other) for one in found for other in found if one[1] != other[1]]
    if pairs:
        (place, _, text), (_, number, _) = dice.choice(pairs)
        return journal[:place] + [(0, "got", ("DT1", number, ("DTAP", 0, text)))] + journal[place + 1:]


def behind_the_end(journal, dice):
    """A message of a mobile, behind CLEAR COMPLETE."""
    ends = {entry[2][1]: place for place, entry in enumerate(journal)
            if entry[:2] == (0, "got") and entry[2][0] == "DT1" and entry[2][2][0] == "CLEAR COMPLETE"}
    found = [one for one in relayed(journal) if one[1] in ends]
    if found:
        place, number, _ = max(found)
        end = ends[number] + 1
        return journal[:place] + journal[place + 1:end] + [journal[place]] + journal[end:]


def handed_twice(journal, dice):
    """A message of the switch, twice."""
    found = handed(journal)
    if found:
        place, entry = dice.choice(found)
        return journal[:place] + [entry] + journal[place:]


def on_another_channel(journal, dice):
    """A message of the switch, on a channel that another mobile has, or nobody."""
    found = handed(journal)
    if found:
        place, (link, way, (name, channel, *words)) = dice.choice(found)
        others = {entry[2][1] for entry in journal[:place] if entry[:2] == (link, "got") and entry[2][0] == "CHANNEL ACTIVATION"}
        other = dice.choice(sorted(others - {channel}) or [channel ^ 1])
        return journal[:place] + [(link, way, (name, other, *words))] + journal[place + 1:]


def amid_the_change(journal, dice):
    """A message of the switch, on the channel that the mobile is told to leave."""
    commands = [place for place, entry in enumerate(journal) if entry[0] and entry[1] == "got" and entry[2][0] == "COMMAND"]
    found = handed(journal)
    if commands and found:
        place = dice.choice(commands)
        link, _, command = journal[place]
        behind = [one for one in found if one[0] > place] or found
        other, (_, _, message) = dice.choice(behind)
        put = (link, "got", ("DATA REQUEST", command[1], *message[2:]))
        rest = [entry for number, entry in enumerate(journal) if number != other]
        place -= other < place
        return rest[:place + 1] + [put] + rest[place + 1:]


EDITS = (left_out, swapped, doubled, on_another_connection, behind_the_end, handed_twice, on_another_channel, amid_the_change)
