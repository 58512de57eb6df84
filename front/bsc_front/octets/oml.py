# SPDX-License-Identifier: MIT OR Apache-2.0
"""OML (TS 12.21, with the messages that ip.access added): what configures a base station, and what it answers. Not proved."""
from bsc_front.octets.description import Cell, DescriptionFault
from bsc_front.octets.system_information import cell_identity

# TS 12.21 clause 9.1: message types; an answer has the type and 1 where it accepts, and 2 where it refuses
SET_BTS_ATTRIBUTES = 0x41
SET_RADIO_CARRIER_ATTRIBUTES = 0x44
SET_CHANNEL_ATTRIBUTES = 0x47
CHANGED_STATE_REPORT = 0x61
CHANGE_ADMINISTRATIVE_STATE = 0x69
OPSTART = 0x74
RSL_CONNECT = 0xE0  # of ip.access

# clause 9.2: object classes
SITE_MANAGER = 0x00
BTS = 0x01
RADIO_CARRIER = 0x02
CHANNEL = 0x03
BASEBAND_TRANSCEIVER = 0x04

# clause 9.4: attributes
ADMINISTRATIVE_STATE = 0x04
AVAILABILITY_STATUS = 0x07
UNLOCKED = 0x02
DEPENDENCY = 0x05

# clause 9.4.13: channel combinations
TCH_FULL = 0x00
TCH_HALF = 0x01
SDCCH8 = 0x03
MAIN_BCCH = 0x04
MAIN_BCCH_COMBINED = 0x05

FORMATTED = 0x80  # clause 8.1: a message of the standard
MANUFACTURER = 0x10  # one of the manufacturer, with the identifier below
IPACCESS = b"\x0dcom.ipaccess\0"

Object = tuple[int, int, int, int]  # class, and the numbers of BTS, transceiver and timeslot
SITE: Object = (SITE_MANAGER, 0xFF, 0xFF, 0xFF)
STATION: Object = (BTS, 0, 0xFF, 0xFF)
CARRIER: Object = (RADIO_CARRIER, 0, 0, 0xFF)
TRANSCEIVER: Object = (BASEBAND_TRANSCEIVER, 0, 0, 0xFF)


def combinations(cell: Cell) -> dict[int, int]:
    """The channel combination of each timeslot that the cell uses, by the numbers of its channels (TS 48.058 clause 9.3.1)."""
    found = {0: MAIN_BCCH}
    for number in cell.channels:
        timeslot, kind = number & 7, number >> 3
        combination = (TCH_FULL if kind == 1 else TCH_HALF if kind < 4 else MAIN_BCCH_COMBINED if kind < 8 else SDCCH8)
        if (timeslot == 0) != (combination == MAIN_BCCH_COMBINED):
            raise DescriptionFault(f"cell {cell.number}: channel {number:#04x} can't be on timeslot {timeslot} beside the BCCH")
        if timeslot and found.get(timeslot, combination) != combination:
            raise DescriptionFault(f"cell {cell.number}: channels of several kinds on timeslot {timeslot}")
        found[timeslot] = combination
    return found


def bts_attributes(cell: Cell, mcc: str, mnc: str) -> bytes:
    """The attributes of the BTS: the values of osmo-bsc, but for what the cell's settings say."""
    return (bytes.fromhex("19 73 6D 67 61 5B 55")  # interference level boundaries, in dBm
            + bytes.fromhex("18 06")  # interference level averaging
            + bytes.fromhex("0E 00 02 01 20")  # connection failure criterion: the radio link's timeout
            + bytes.fromhex("33 1E 24 24 A8 34 21 A8")  # T200 of each channel's kind
            + bytes.fromhex("1F 3F")  # largest timing advance
            + bytes.fromhex("25 00 01 0A")  # overload period
            + bytes.fromhex("0C 0A 0B 01")  # load of the CCCH: threshold, and period of its indications
            + bytes.fromhex("2A 5A 2B 03 E8")  # load of the RACH: threshold, and slots that are averaged
            + bytes.fromhex("0A 0A 23 0A")  # BTS air timer; repetitions of PHYSICAL INFORMATION
            + b"\x08" + cell.arfcn.to_bytes(2, "big") + b"\x09" + bytes((cell.bsic,))
            + bytes.fromhex("99 00 07") + cell_identity(mcc, mnc, cell))  # cell global identity, of ip.access


def message(kind: int, which: Object, attributes: bytes = b"") -> bytes:
    """A message to an object: of the standard, or of the manufacturer."""
    text = bytes((kind, *which)) + attributes
    if kind == RSL_CONNECT:
        return bytes((MANUFACTURER, 0x80, 0x00, len(text))) + IPACCESS + text
    return bytes((FORMATTED, 0x80, 0x00, len(text))) + text


def read(body: bytes) -> tuple[int, Object, bytes] | None:
    """A message's type, object and attributes, or None of what can't be read."""
    at = 4 + (len(IPACCESS) if body[:1] == bytes((MANUFACTURER,)) else 0)
    if len(body) < at + 5:
        return None
    return body[at], (body[at + 1], body[at + 2], body[at + 3], body[at + 4]), body[at + 5:]


def availability_of(attributes: bytes) -> int | None:
    """The availability that a report of a changed state has: attribute 07 follows the operational state (24)."""
    return attributes[5] if len(attributes) > 5 and attributes[2] == AVAILABILITY_STATUS else None


def channel(timeslot: int) -> Object:
    """The object of a timeslot."""
    return CHANNEL, 0, 0, timeslot


def carrier_attributes(cell: Cell) -> bytes:
    """The attributes of the radio carrier: no power reduction, and the ARFCN."""
    return bytes.fromhex("2D 00 05 00 02") + cell.arfcn.to_bytes(2, "big")


def channel_attributes(cell: Cell, combination: int) -> bytes:
    """The attributes of a timeslot: channel combination, and training sequence, that of the BCCH: the base station's colour code."""
    return bytes((0x0D, combination, 0x40, cell.bsic & 7))


def rsl_attributes(stream: int, address: bytes) -> bytes:
    """Where RSL is: stream, port, and address; of the address given the first four octets are the host."""
    return bytes((0x85, stream, 0x81)) + address[4:] + b"\x80" + address[:4]
