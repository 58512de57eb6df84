# SPDX-License-Identifier: MIT OR Apache-2.0
"""SCCP as the front needs it (Q.713): connections' messages on their way, and connectionless ones (UDT). Not proved."""
from dataclasses import dataclass

from bsc_front.octets import dtap

# clause 2.1: message types
CONNECTION_REQUEST = 0x01
CONNECTION_CONFIRM = 0x02
CONNECTION_REFUSED = 0x03
RELEASED = 0x04
RELEASE_COMPLETE = 0x05
DATA_FORM_1 = 0x06
UNITDATA = 0x09
INACTIVITY_TEST = 0x10

# octets of a message's part that is always there; a shorter one can't be read
FIXED = {CONNECTION_REQUEST: 7, CONNECTION_CONFIRM: 9, CONNECTION_REFUSED: 6, RELEASED: 9, RELEASE_COMPLETE: 7, DATA_FORM_1: 7,
         INACTIVITY_TEST: 10}
NAMES = {CONNECTION_REQUEST: "CR", CONNECTION_CONFIRM: "CC", CONNECTION_REFUSED: "CREF", RELEASED: "RLSD",
         RELEASE_COMPLETE: "RLC", DATA_FORM_1: "DT1", INACTIVITY_TEST: "IT"}

# clause 3: parameters
END_OF_OPTIONS = 0x00
CALLING_ADDRESS = 0x04
DATA = 0x0F

DESTINATION_INACCESSIBLE = 0x05  # clause 3.15: refusal causes
END_USER_FAILURE = 0x02  # clause 3.11: release causes

BSSAP = 0xFE  # subsystem number
ADDRESS = bytes((0x02, 0x42, BSSAP))  # length, routed on the subsystem number, no point code; subsystem number

DT1 = bytes((DATA_FORM_1,))
REFERENCE = slice(1, 4)  # of the side that gets the message (of the sender in a connection request)
SECOND_REFERENCE = slice(4, 7)  # of the sender
DATA_AT = 7  # where the data of DT1 begin, as everybody writes it


@dataclass
class Data:
    """A message of a connection that carries data: DT1."""
    reference: bytes
    text: bytes

    def octets(self) -> bytes:
        """As it is sent."""
        return bytes((DATA_FORM_1,)) + self.reference + bytes((0x00, 0x01, len(self.text))) + self.text


def read_data(body: bytes) -> Data | None:
    """DT1, or None of another message and of a broken one."""
    if len(body) < 7 or body[0] != DATA_FORM_1 or 5 + body[5] >= len(body):
        return None
    return Data(body[REFERENCE], data_of(body))


def data_of(body: bytes) -> bytes:
    """What DT1 carries, or nothing of a broken one."""
    at = 5 + body[5]
    return body[at + 1:at + 1 + body[at]] if at < len(body) else b""


def has_dtap(body: bytes) -> bool:
    """Whether DT1 carries a message of the mobile, or for it, right behind its length."""
    return len(body) > DATA_AT and body[5] == 0x01 and body[DATA_AT] == dtap.DTAP and body[0] == DATA_FORM_1


def with_reference(body: bytes, to: bytes) -> bytes:
    """DT1 with another reference."""
    return DT1 + to + body[4:]


def unitdata(text: bytes) -> bytes:
    """UDT of class 0: pointers to called address, calling address, and data."""
    return bytes((UNITDATA, 0x00, 0x03, 0x05, 0x07)) + ADDRESS + ADDRESS + bytes((len(text),)) + text


def read_unitdata(body: bytes) -> bytes | None:
    """What a UDT carries, or None of a broken one."""
    if len(body) < 5:
        return None
    at = 4 + body[4]
    return body[at + 1:at + 1 + body[at]] if at < len(body) else None


def connection_request(reference: bytes, data: bytes) -> bytes:
    """CR of class 2: pointers to called address and options, and the data as an option."""
    return (bytes((CONNECTION_REQUEST,)) + reference + bytes((0x02, 0x02, 0x04)) + ADDRESS + bytes((DATA, len(data))) + data
            + bytes((END_OF_OPTIONS,)))


def with_calling_address(body: bytes, point_code: int) -> bytes:
    """A connection request with the calling address as its first option (clause 3.5): osmo-msc ends at one without.

    The pointer to the options is octet 7 and counts from itself; 0 means that there is none.
    """
    if len(body) < 7 or body[0] != CONNECTION_REQUEST:
        return body
    calling = bytes((CALLING_ADDRESS, 0x04, 0x43)) + point_code.to_bytes(2, "little") + bytes((BSSAP,))
    at = 6 + body[6]
    if not body[6]:
        return body[:6] + bytes((len(body) - 6,)) + body[7:] + calling + bytes((END_OF_OPTIONS,))
    return body[:at] + calling + body[at:]


def read_requested(body: bytes) -> bytes:
    """What a CR carries for its user, or nothing."""
    at = 6 + body[6] if len(body) > 6 and body[6] else len(body)
    while at + 1 < len(body) and body[at] != END_OF_OPTIONS:
        if body[at] == DATA:
            return body[at + 2:at + 2 + body[at + 1]]
        at += 2 + body[at + 1]
    return b""


def is_whole(body: bytes) -> bool:
    """Whether a message of a connection has all that the front reads of it."""
    return len(body) >= FIXED.get(body[0] if body else 0, len(body) + 1)


def addressed(body: bytes, to: bytes, sender: bytes = b"") -> bytes:
    """A message with another reference in its first place and, where one is given, in its second one."""
    return body[:1] + to + sender + body[4 + len(sender):]


def refused(to: bytes) -> bytes:
    """CREF (clause 4.4): the destination can't be reached."""
    return bytes((CONNECTION_REFUSED,)) + to + bytes((DESTINATION_INACCESSIBLE, 0x00))


def released(to: bytes, sender: bytes) -> bytes:
    """RLSD (clause 4.5), with the references of both sides, and no data."""
    return bytes((RELEASED,)) + to + sender + bytes((END_USER_FAILURE, 0x00))


def release_complete(to: bytes, sender: bytes) -> bytes:
    """RLC (clause 4.6)."""
    return bytes((RELEASE_COMPLETE,)) + to + sender


def inactivity_test(to: bytes, sender: bytes) -> bytes:
    """IT (clause 4.16) of class 2: sequencing and credit say nothing there."""
    return bytes((INACTIVITY_TEST,)) + to + sender + bytes((0x02, 0x00, 0x00, 0x00))
