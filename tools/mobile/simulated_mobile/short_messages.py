# SPDX-License-Identifier: MIT OR Apache-2.0
"""Short messages of a mobile (TS 24.011, TS 23.040): it acknowledges those that come, and sends one. Not proved."""
from __future__ import annotations

from simulated_mobile import layer3
from simulated_mobile.journal import Journal
from simulated_mobile.messages import number_digits
from simulated_mobile.mobility import Mobility

CP_DATA, CP_ACK, CP_ERROR = 0x01, 0x04, 0x10  # TS 24.011 clause 8.1.3
RP_DATA_UP, RP_DATA_DOWN, RP_ACK_UP, RP_ACK_DOWN, RP_ERROR_DOWN = 0x00, 0x01, 0x02, 0x03, 0x05  # clause 8.2.2
OTHER_SIDE = 0x80  # the flag of the transaction identifier: who gave it (TS 24.007 clause 11.2.3.1.3)
SERVICE_CENTRE = "447785016005"  # any number does for osmo-msc, which is its own service centre


# The alphabet of 7 bits (TS 23.038 clause 6.2.1) as far as ASCII has its characters; an underscore in place of others.
ALPHABET = "".join(chr(code) if code in (10, 13) or 32 <= code <= 90 and code not in (36, 64) or 97 <= code <= 122
                   else {0: "@", 2: "$"}.get(code, "_") for code in range(128))
LONGEST_TEXT = 160


def is_sendable(text: str) -> bool:
    """Whether a text goes into one short message of this alphabet."""
    return len(text) <= LONGEST_TEXT and all(character in ALPHABET and character != "_" for character in text)


def packed(text: str) -> bytes:
    """Text in septets (TS 23.038 clause 6.1.2.1)."""
    field = 0
    for place, character in enumerate(text):
        field |= ALPHABET.index(character) << 7 * place
    return field.to_bytes((7 * len(text) + 7) // 8, "little")


def unpacked(octets: bytes, length: int) -> str:
    """The text of so many characters in octets."""
    field = int.from_bytes(octets, "little")
    return "".join(ALPHABET[field >> 7 * place & 0x7F] for place in range(length))


def read_deliver(unit: bytes) -> str:
    """The text of an SMS-DELIVER (TS 23.040 clause 9.2.2.1); its octets where it isn't in the 7 bit alphabet."""
    at = 3 + (unit[1] + 1) // 2  # behind the originating address
    coding, length, data = unit[at + 1], unit[at + 9], unit[at + 10:]
    return unpacked(data, length) if coding == 0 and not unit[0] & 0x40 else data.hex()


def submit(number: str, text: str) -> bytes:
    """An SMS-SUBMIT (TS 23.040 clause 9.2.2.2)."""
    address = bytes([len(number), 0x81]) + number_digits(number)
    return b"\x01\x00" + address + b"\x00\x00" + bytes([len(text)]) + packed(text)


class ShortMessages:
    """The transactions of short messages of one mobile."""

    def __init__(self, mobility: Mobility, journal: Journal) -> None:
        self.mobility = mobility
        self.journal = journal
        self.waiting: bytes | None = None
        mobility.users[layer3.SHORT_MESSAGE] = self

    def submit(self, number: str, text: str) -> bool:
        """Sends a short message: asks for the service first."""
        unit = submit(number, text)
        centre = b"\x91" + number_digits(SERVICE_CENTRE)
        relay = bytes([RP_DATA_UP, 0, 0, len(centre)]) + centre + bytes([len(unit)]) + unit
        self.waiting = bytes([layer3.SHORT_MESSAGE, CP_DATA, len(relay)]) + relay
        return self.mobility.service("short-message", self)

    def accepted(self) -> None:
        """The network gives the service."""
        if self.waiting is not None:
            self.mobility.send(3, self.waiting)
            self.waiting = None

    def ended(self) -> None:
        """The channel is gone."""
        self.waiting = None

    def received(self, message: bytes) -> None:
        """CP-DATA is acknowledged, and answered where it has a short message (TS 24.011 clause 5.2)."""
        if message[1] != CP_DATA or len(message) < 5:
            return
        answer = message[0] ^ OTHER_SIDE
        self.mobility.send(3, bytes([answer, CP_ACK]))
        relay = message[3:3 + message[2]]
        if len(relay) < 2:
            return
        if relay[0] == RP_DATA_DOWN:
            self.journal.event("short message", self._text(relay))
            self.mobility.send(3, bytes([answer, CP_DATA, 2, RP_ACK_UP, relay[1]]))
        elif relay[0] == RP_ACK_DOWN:
            self.journal.event("short message taken")
        elif relay[0] == RP_ERROR_DOWN:
            self.journal.event("short message refused")

    @staticmethod
    def _text(relay: bytes) -> str:
        """The text in an RP-DATA: behind both addresses, each with its length (TS 24.011 clause 7.3.1.1)."""
        try:
            at = 3 + relay[2]
            at += 1 + relay[at]
            return read_deliver(relay[at + 1:at + 1 + relay[at]])
        except IndexError:
            return relay.hex()
