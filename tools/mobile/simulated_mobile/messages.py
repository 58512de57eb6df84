# SPDX-License-Identifier: MIT OR Apache-2.0
"""The messages that a mobile sends: mobility management and radio resource (TS 24.008, TS 44.018). Not proved."""
from __future__ import annotations

from dataclasses import dataclass

NO_KEY = 0x7  # ciphering key sequence number: no key (TS 24.008 clause 10.5.1.2)
IMSI, IMEI, IMEISV, TMSI = 1, 2, 3, 4  # kinds of identity, TS 24.008 clause 10.5.1.4
NORMAL_UPDATING, PERIODIC_UPDATING, IMSI_ATTACH = 0, 1, 2  # TS 24.008 clause 10.5.3.5
DELETED_AREA_CODE = b"\xff\xfe"  # TS 23.003 clause 4.1

# Reasons of a channel request for a network with NECI 1: fixed bits, number of random bits (TS 44.018 clause 9.1.8).
REASON_LOCATION_UPDATING = (0x00, 4)
REASON_OTHER_ON_SDCCH = (0x10, 4)
REASON_ORIGINATING_CALL = (0xE0, 5)
REASON_PAGING = (0x80, 5)


def digits_identity(kind: int, digits: str) -> bytes:
    """An IMSI, IMEI or IMEISV as a mobile identity (TS 24.008 clause 10.5.1.4)."""
    odd = len(digits) % 2
    numbers = [int(digit) for digit in digits] + ([] if odd else [0xF])
    octets = [numbers[0] << 4 | odd << 3 | kind]
    octets += [numbers[at + 1] << 4 | numbers[at] for at in range(1, len(numbers) - 1, 2)]
    return bytes(octets)


def number_digits(number: str) -> bytes:
    """A number's digits, two in an octet, the first one low (TS 24.008 clause 10.5.4.7)."""
    padded = number + ("F" if len(number) % 2 else "")
    return bytes(int(padded[at + 1] + padded[at], 16) for at in range(0, len(padded), 2))


@dataclass
class Subscriber:
    """Who the mobile is, and what the network said to it."""

    imsi: str
    imei: str
    revision: int  # revision level of its classmark, TS 24.008 clause 10.5.1.5: 1 phase 2, 2 release 99
    tmsi: bytes | None = None
    location: bytes | None = None  # location area identification of the last LOCATION UPDATING ACCEPT

    @property
    def modulus(self) -> int:
        """How many values N(SD) has: 4, and 2 before release 99 (TS 24.007 clause 11.2.3.2.3.2)."""
        return 4 if self.revision == 2 else 2

    @property
    def identity(self) -> bytes:
        """The TMSI where the mobile has one, else the IMSI."""
        return b"\xf4" + self.tmsi if self.tmsi else digits_identity(IMSI, self.imsi)

    @property
    def classmark_1(self) -> bytes:
        """Mobile station classmark 1: ES IND, A5/1 not available, power class 4 (TS 24.008 clause 10.5.1.5)."""
        return bytes([self.revision << 5 | 0x10 | 0x08 | 0x03])

    @property
    def classmark_2(self) -> bytes:
        """Mobile station classmark 2, with its length: short messages to the mobile (TS 24.008 clause 10.5.1.6)."""
        return bytes([3]) + self.classmark_1 + b"\x18\x81"

    def identity_of_kind(self, kind: int) -> bytes:
        """The identity that an IDENTITY REQUEST asks for."""
        if kind == TMSI and self.tmsi:
            return b"\xf4" + self.tmsi
        if kind in (IMEI, IMEISV):
            return digits_identity(kind, self.imei if kind == IMEI else self.imei[:14] + "01")
        return digits_identity(IMSI, self.imsi)


def with_length(value: bytes) -> bytes:
    """A value with its length in front (format LV)."""
    return bytes([len(value)]) + value


def location_updating_request(subscriber: Subscriber, kind: int, area: bytes) -> bytes:
    """LOCATION UPDATING REQUEST (TS 24.008 clause 9.2.15)."""
    return (bytes([0x05, 0x08, NO_KEY << 4 | kind]) + area + subscriber.classmark_1
            + with_length(subscriber.identity))


def imsi_detach_indication(subscriber: Subscriber) -> bytes:
    """IMSI DETACH INDICATION (TS 24.008 clause 9.2.12)."""
    return b"\x05\x01" + subscriber.classmark_1 + with_length(subscriber.identity)


def cm_service_request(subscriber: Subscriber, service: int) -> bytes:
    """CM SERVICE REQUEST (TS 24.008 clause 9.2.9)."""
    return bytes([0x05, 0x24, NO_KEY << 4 | service]) + subscriber.classmark_2 + with_length(subscriber.identity)


def paging_response(subscriber: Subscriber, identity: bytes) -> bytes:
    """PAGING RESPONSE with the identity that was called (TS 44.018 clause 9.1.25)."""
    return bytes([0x06, 0x27, NO_KEY]) + subscriber.classmark_2 + with_length(identity)


def identity_response(identity: bytes) -> bytes:
    """IDENTITY RESPONSE (TS 24.008 clause 9.2.11)."""
    return b"\x05\x19" + with_length(identity)


TMSI_REALLOCATION_COMPLETE = b"\x05\x1b"
CIPHERING_MODE_COMPLETE = b"\x06\x32"


def classmark_change(subscriber: Subscriber) -> bytes:
    """CLASSMARK CHANGE (TS 44.018 clause 9.1.11)."""
    return b"\x06\x16" + subscriber.classmark_2


def radio_message(kind: int, cause: int) -> bytes:
    """HANDOVER or ASSIGNMENT COMPLETE or FAILURE: a type and a cause (TS 44.018 clauses 9.1.3, 4, 16 and 17)."""
    return bytes([0x06, kind, cause])
