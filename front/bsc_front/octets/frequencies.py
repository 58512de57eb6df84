# SPDX-License-Identifier: MIT OR Apache-2.0
"""Bands (TS 45.005 clause 2), and lists of ARFCNs in 16 octets (TS 44.018 clause 10.5.2.13). Not proved."""
from collections.abc import Iterable

from bsc_front.octets.description import DescriptionFault

GSM_900, DCS_1800, PCS_1900 = "GSM900", "DCS1800", "PCS1900"
# by band, from which ARFCN to which; of a number that two bands have the first one is meant, unless a cell says another
BANDS = {GSM_900: ((0, 124), (955, 1023)), DCS_1800: ((512, 885),), PCS_1900: ((512, 810),), "GSM850": ((128, 251),),
         "GSM450": ((259, 293),), "GSM480": ((306, 340),), "GSM750": ((438, 511),)}

BITS = 128  # of a list


def band_of(arfcn: int) -> str:
    """The band of an ARFCN, that of DCS 1800 where PCS 1900 has the same numbers."""
    for band in BANDS:
        if is_in(band, arfcn):
            return band
    raise DescriptionFault(f"ARFCN {arfcn} is in no band")


def is_in(band: str, arfcn: int) -> bool:
    """Whether an ARFCN is in a band."""
    return any(first <= arfcn <= last for first, last in BANDS[band])


def as_reported(band: str, arfcns: Iterable[int]) -> tuple[tuple[int, ...], tuple[int, ...]]:
    """The neighbours of a cell in its own band and in others, each in the order of measurement reports: rising, 0 at the end."""
    order = sorted(set(arfcns), key=lambda arfcn: arfcn or 1024)
    return tuple(one for one in order if is_in(band, one)), tuple(one for one in order if not is_in(band, one))


def frequency_list(band: str, arfcns: tuple[int, ...]) -> bytearray:
    """A list in the first format that has it: bit map 0 in GSM 900, the variable bit map, and then the narrowest range."""
    if not arfcns or band == GSM_900 and all(1 <= arfcn <= 124 for arfcn in arfcns):
        return bit_map(arfcns)
    for origin in arfcns:
        steps = [(arfcn - origin) % 1024 for arfcn in arfcns]
        if max(steps) <= 111:
            return variable_bit_map(origin, steps)
    for bits, prefix in ((7, 0b1000110), (8, 0b1000101), (9, 0b1000100)):
        for origin in arfcns:
            steps = [(arfcn - origin) % 1024 for arfcn in arfcns if arfcn != origin]
            if max(steps) < 1 << bits and len(steps) <= most_in(bits, BITS - 17):
                return range_format(prefix << 10 | origin, 17, bits, steps)
    others = [arfcn for arfcn in arfcns if arfcn]
    if len(others) > most_in(10, BITS - 6):
        raise DescriptionFault(f"the ARFCNs {', '.join(map(str, arfcns))} are too many for one list")
    return range_format(0b10000 << 1 | (0 in arfcns), 6, 10, others)


def bit_map(arfcns: Iterable[int]) -> bytearray:
    """Clause 10.5.2.13.2: bit map 0, a bit for each of ARFCN 1 to 124."""
    return bytearray(sum(1 << arfcn - 1 for arfcn in arfcns).to_bytes(16, "big"))


def variable_bit_map(origin: int, steps: list[int]) -> bytearray:
    """Clause 10.5.2.13.7: the format 10..111, the first ARFCN in ten bits, and a bit for each of the 111 that follow it."""
    bits = 0b1000111 << 121 | origin << 111
    for step in steps:
        if step:
            bits |= 1 << 111 - step
    return bytearray(bits.to_bytes(16, "big"))


def widths(bits: int) -> Iterable[int]:
    """The bits of W(1), W(2), ..: one less from each power of two on."""
    index = 1
    while True:
        yield bits + 1 - index.bit_length()
        index += 1


def most_in(bits: int, room: int) -> int:
    """How many W have room."""
    count = 0
    for width in widths(bits):
        room -= width
        if room < 0:
            return count
        count += 1
    return count


def range_format(head: int, head_bits: int, bits: int, values: list[int]) -> bytearray:
    """Clauses 10.5.2.13.3 to 10.5.2.13.6: head, and W(1), W(2), .. of the values, 1 to 2^bits - 1 each."""
    found: dict[int, int] = {}
    place(found, 1, len(values), bits, values)
    left = BITS - head_bits
    octets = head
    for index, width in zip(range(1, len(values) + 1), widths(bits)):
        octets = octets << width | found[index]
        left -= width
    return bytearray((octets << left).to_bytes(16, "big"))


def place(found: dict[int, int], index: int, count: int, bits: int, values: list[int]) -> None:
    """Annex J: gives W(index) a value that has as many others in the half circle before it as the tree has places to its left."""
    if not values:
        return
    step, size, half = 1 << index.bit_length() - 1, (1 << bits) - 1, 1 << bits - 1
    wanted = places(index + step, count)
    for value in values:
        before = [(other - value + half - 1) % size + 1 for other in values if 0 < (value - other) % size < half]
        if len(before) == wanted:
            behind = [(other - value - 1) % size + 1 for other in values if 0 < (other - value) % size < half]
            found[index] = value
            place(found, index + step, count, bits - 1, before)
            place(found, index + 2 * step, count, bits - 1, behind)
            return
    raise DescriptionFault("the ARFCNs can't be said in a range format")


def places(index: int, count: int) -> int:
    """How many of W(1) to W(count) are at this place of the tree, and below it."""
    step = 1 << index.bit_length() - 1
    return 1 + places(index + step, count) + places(index + 2 * step, count) if index <= count else 0
