# SPDX-License-Identifier: MIT OR Apache-2.0
"""Layer 3 of the radio interface: names of messages, and what a mobile reads of them. Not proved.

TS 24.007 clause 11.2.3 (discriminator, type, N(SD)), TS 44.018 (radio resource), TS 24.008 (mobility management and
call control), TS 24.011 (short messages).
"""
from __future__ import annotations

from dataclasses import dataclass

CALL_CONTROL, MOBILITY, RADIO, SHORT_MESSAGE, SUPPLEMENTARY = 0x3, 0x5, 0x6, 0x9, 0xB
NUMBERED = (CALL_CONTROL, MOBILITY, SUPPLEMENTARY)  # one N(SD) for all three, TS 24.007 clause 11.2.3.2.3

RADIO_NAMES = {
    0x3F: "IMMEDIATE ASSIGNMENT", 0x39: "IMMEDIATE ASSIGNMENT EXTENDED", 0x3A: "IMMEDIATE ASSIGNMENT REJECT",
    0x35: "CIPHERING MODE COMMAND", 0x32: "CIPHERING MODE COMPLETE",
    0x2E: "ASSIGNMENT COMMAND", 0x29: "ASSIGNMENT COMPLETE", 0x2F: "ASSIGNMENT FAILURE",
    0x2B: "HANDOVER COMMAND", 0x2C: "HANDOVER COMPLETE", 0x28: "HANDOVER FAILURE", 0x2D: "PHYSICAL INFORMATION",
    0x0D: "CHANNEL RELEASE", 0x21: "PAGING REQUEST TYPE 1", 0x22: "PAGING REQUEST TYPE 2",
    0x24: "PAGING REQUEST TYPE 3", 0x27: "PAGING RESPONSE",
    0x19: "SYSTEM INFORMATION TYPE 1", 0x1A: "SYSTEM INFORMATION TYPE 2", 0x1B: "SYSTEM INFORMATION TYPE 3",
    0x1C: "SYSTEM INFORMATION TYPE 4", 0x1D: "SYSTEM INFORMATION TYPE 5", 0x1E: "SYSTEM INFORMATION TYPE 6",
    0x00: "SYSTEM INFORMATION TYPE 13", 0x10: "CHANNEL MODE MODIFY", 0x17: "CHANNEL MODE MODIFY ACKNOWLEDGE",
    0x12: "RR STATUS", 0x13: "CLASSMARK ENQUIRY", 0x15: "MEASUREMENT REPORT", 0x16: "CLASSMARK CHANGE",
}
MOBILITY_NAMES = {
    0x01: "IMSI DETACH INDICATION", 0x02: "LOCATION UPDATING ACCEPT", 0x04: "LOCATION UPDATING REJECT",
    0x08: "LOCATION UPDATING REQUEST", 0x11: "AUTHENTICATION REJECT", 0x12: "AUTHENTICATION REQUEST",
    0x14: "AUTHENTICATION RESPONSE", 0x18: "IDENTITY REQUEST", 0x19: "IDENTITY RESPONSE",
    0x1A: "TMSI REALLOCATION COMMAND", 0x1B: "TMSI REALLOCATION COMPLETE", 0x21: "CM SERVICE ACCEPT",
    0x22: "CM SERVICE REJECT", 0x23: "CM SERVICE ABORT", 0x24: "CM SERVICE REQUEST", 0x29: "ABORT",
    0x31: "MM STATUS", 0x32: "MM INFORMATION",
}
CALL_NAMES = {
    0x01: "ALERTING", 0x02: "CALL PROCEEDING", 0x03: "PROGRESS", 0x05: "SETUP", 0x07: "CONNECT", 0x08: "CALL CONFIRMED",
    0x0F: "CONNECT ACKNOWLEDGE", 0x25: "DISCONNECT", 0x2A: "RELEASE COMPLETE", 0x2D: "RELEASE", 0x31: "STOP DTMF",
    0x32: "STOP DTMF ACKNOWLEDGE", 0x34: "STATUS ENQUIRY", 0x35: "START DTMF", 0x36: "START DTMF ACKNOWLEDGE",
    0x37: "START DTMF REJECT", 0x3D: "STATUS", 0x3E: "NOTIFY",
}
SHORT_MESSAGE_NAMES = {0x01: "CP-DATA", 0x04: "CP-ACK", 0x10: "CP-ERROR"}
SUPPLEMENTARY_NAMES = {0x2A: "RELEASE COMPLETE", 0x3A: "FACILITY", 0x3B: "REGISTER"}
NAMES = {RADIO: RADIO_NAMES, MOBILITY: MOBILITY_NAMES, CALL_CONTROL: CALL_NAMES, SHORT_MESSAGE: SHORT_MESSAGE_NAMES,
         SUPPLEMENTARY: SUPPLEMENTARY_NAMES}


def discriminator(message: bytes) -> int:
    """The protocol discriminator (TS 24.007 clause 11.2.3.1.1)."""
    return message[0] & 0x0F


def message_type(message: bytes) -> int:
    """The message type, without N(SD) where the protocol has one (TS 24.007 clause 11.2.3.2)."""
    return message[1] & 0x3F if discriminator(message) in NUMBERED else message[1]


def message_name(message: bytes) -> str:
    """The standard's name of a message."""
    if len(message) < 2:
        return "NO MESSAGE"
    names = NAMES.get(discriminator(message), {})
    kind = message_type(message)
    return names.get(kind, f"UNKNOWN {discriminator(message):x} {kind:02X}")


def is_message(message: bytes, protocol: int, kind: int) -> bool:
    """Whether it is the message of this protocol and type."""
    return len(message) >= 2 and discriminator(message) == protocol and message_type(message) == kind


def with_number(message: bytes, number: int) -> bytes:
    """The message with N(SD) in bits 8 and 7 of its type (TS 24.007 clause 11.2.3.2.1)."""
    return bytes([message[0], message[1] & 0x3F | number << 6]) + message[2:]


@dataclass(frozen=True)
class ChannelDescription:
    """Where a channel is (TS 44.018 clause 10.5.2.5), without frequency hopping."""

    channel_number: int  # as in TS 48.058 clause 9.3.1, the timeslot in its low three bits
    arfcn: int

    @property
    def timeslot(self) -> int:
        """The timeslot, 0 to 7."""
        return self.channel_number & 0x07

    @property
    def name(self) -> str:
        """SDCCH/8 with its sub-slot, or TCH/F, and where it is."""
        if self.channel_number & 0xC0 == 0x40:
            kind = f"SDCCH/8 {self.channel_number >> 3 & 0x07}"
        elif self.channel_number & 0xF8 == 0x08:
            kind = "TCH/F"
        else:
            kind = f"channel {self.channel_number:02X}"
        return f"{kind} timeslot {self.timeslot} ARFCN {self.arfcn}"


def read_channel_description(octets: bytes) -> ChannelDescription | None:
    """Reads the three octets; None where the channel hops, which this mobile can't."""
    if len(octets) < 3 or octets[1] & 0x10:
        return None
    return ChannelDescription(octets[0], (octets[1] & 0x03) << 8 | octets[2])


def read_cell_description(octets: bytes) -> tuple[int, int]:
    """ARFCN and BSIC of a cell (TS 44.018 clause 10.5.2.2)."""
    return (octets[0] & 0xC0) << 2 | octets[1], octets[0] & 0x3F


def request_reference(random_octet: int, frame_number: int) -> bytes:
    """The request reference (TS 44.018 clause 10.5.2.30): the octet of the access burst, T1', T3 and T2."""
    time_1, time_3, time_2 = frame_number // 1326 % 32, frame_number % 51, frame_number % 26
    return bytes([random_octet, time_1 << 3 | time_3 >> 3, (time_3 & 0x07) << 5 | time_2])


def read_immediate_assignment(block: bytes, reference: bytes) -> ChannelDescription | None:
    """The channel that an IMMEDIATE ASSIGNMENT gives to this request (TS 44.018 clauses 9.1.18 and 9.1.19).

    The block begins with its pseudo length, L2. In the extended form two requests are answered.
    """
    if len(block) < 10 or block[1] != RADIO:
        return None
    if block[2] == 0x3F and block[7:10] == reference and not block[3] & 0x10:
        return read_channel_description(block[4:7])
    if block[2] == 0x39 and block[7:10] == reference:
        return read_channel_description(block[4:7])
    if block[2] == 0x39 and block[14:17] == reference:
        return read_channel_description(block[11:14])
    return None


def is_rejected(block: bytes, reference: bytes) -> bool:
    """Whether an IMMEDIATE ASSIGNMENT REJECT answers this request (TS 44.018 clause 9.1.20)."""
    if len(block) < 20 or block[1] != RADIO or block[2] != 0x3A:
        return False
    return any(block[at:at + 3] == reference for at in range(4, 20, 4))


def paged_identities(block: bytes) -> list[bytes]:
    """The identities that a PAGING REQUEST calls, as octets of a mobile identity (TS 44.018 clauses 9.1.22 to 24)."""
    if len(block) < 5 or block[1] != RADIO:
        return []
    if block[2] == 0x24:
        return [b"\xf4" + block[at:at + 4] for at in range(4, 20, 4)]
    if block[2] == 0x22:
        first = [b"\xf4" + block[at:at + 4] for at in (4, 8)]
        return first + optional_identity(block[12:1 + (block[0] >> 2)])
    if block[2] != 0x21 or 5 + block[4] > len(block):
        return []
    return [block[5:5 + block[4]]] + optional_identity(block[5 + block[4]:1 + (block[0] >> 2)])


def optional_identity(octets: bytes) -> list[bytes]:
    """The second identity of a PAGING REQUEST, behind its identifier 17."""
    if len(octets) < 3 or octets[0] != 0x17:
        return []
    return [octets[2:2 + octets[1]]]


def read_frequency_list(octets: bytes) -> list[int]:
    """The ARFCNs of a neighbour cell description of 16 octets (TS 44.018 clause 10.5.2.22), as reports count them.

    Bit map 0 (ARFCN 1 to 124) and the variable bit map are read; of the other forms nothing is.
    """
    if len(octets) < 16:
        return []
    field = int.from_bytes(octets[:16], "big")
    if octets[0] & 0xC0 == 0x00:
        return [arfcn for arfcn in range(1, 125) if field >> (arfcn - 1) & 1]
    if octets[0] & 0xCE == 0x8E:  # bit map with the first ARFCN in front
        first = field >> 111 & 0x3FF
        found = [first] + [(first + place) % 1024 for place in range(1, 112) if field >> (111 - place) & 1]
        return sorted(found, key=lambda arfcn: (arfcn == 0, arfcn))
    return []


def measurement_report(serving: int, neighbours: list[tuple[int, int, int]]) -> bytes:
    """A MEASUREMENT REPORT (TS 44.018 clauses 9.1.21 and 10.5.2.20), 18 octets, valid, quality 0.

    Each neighbour is its level, the place of its ARFCN in the neighbour list, and its BSIC; six at most, strongest
    first.
    """
    field = serving << 8 | serving  # BA-USED 0, DTX-USED 0, RXLEV-FULL; MEAS-VALID 0 (valid), RXLEV-SUB
    strongest = sorted(neighbours, reverse=True)[:6]
    field = field << 10 | len(strongest)  # RXQUAL-FULL 0, RXQUAL-SUB 0; NO-NCELL
    for level, place, bsic in strongest:
        field = field << 17 | level << 11 | place << 6 | bsic
    field <<= 17 * (6 - len(strongest))
    return b"\x06\x15" + field.to_bytes(16, "big")
