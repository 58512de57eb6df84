# SPDX-License-Identifier: MIT OR Apache-2.0
"""BSSMAP (TS 48.008) as far as the front does it by itself, or looks at it on the way. Not proved."""

# clause 3.2.2.1: message types
ASSIGNMENT_REQUEST = 0x01
ASSIGNMENT_COMPLETE = 0x02
ASSIGNMENT_FAILURE = 0x03
CLEAR_COMMAND = 0x20
CLEAR_COMPLETE = 0x21
RESET = 0x30
RESET_ACKNOWLEDGE = 0x31
PAGING = 0x52
COMPLETE_LAYER_3_INFORMATION = 0x57

# clause 3.2.2: elements
CAUSE = 0x04
CELL_IDENTIFIER = 0x05
CHANNEL_TYPE = 0x0B
RR_CAUSE = 0x15
LAYER_3_INFORMATION = 0x17
TRANSPORT_ADDRESS = 0x7C
SPEECH_CODEC_CHOSEN = 0x7E

SPEECH = 0x01  # clause 3.2.2.11
EQUIPMENT_FAILURE = 0x20  # clause 3.2.2.5


def bssmap(text: bytes) -> bytes:
    """A message with the header of TS 48.006 clause 9.3."""
    return bytes((0x00, len(text))) + text


def message_of(data: bytes) -> int | None:
    """The type of a BSSMAP message, or None of a DTAP message."""
    return data[2] if len(data) > 2 and data[0] == 0x00 else None


def reset() -> bytes:
    """RESET (clause 3.2.1.23)."""
    return bssmap(bytes((RESET, CAUSE, 0x01, EQUIPMENT_FAILURE)))


def reset_acknowledge() -> bytes:
    """RESET ACKNOWLEDGE (clause 3.2.1.24)."""
    return bssmap(bytes((RESET_ACKNOWLEDGE,)))


def greeting(data: bytes) -> tuple[bytes, bytes]:
    """Of COMPLETE LAYER 3 INFORMATION as bsc writes it: location area code with cell identity, and the mobile's message."""
    if message_of(data) != COMPLETE_LAYER_3_INFORMATION or len(data) < 15 or data[13] != LAYER_3_INFORMATION:
        return b"", b""
    return data[9:13], data[15:15 + data[14]]


def asks_for_speech(data: bytes) -> bool:
    """Whether an ASSIGNMENT REQUEST, whose first element is the channel type, asks for speech."""
    return message_of(data) == ASSIGNMENT_REQUEST and data[3:4] == bytes((CHANNEL_TYPE,)) and data[5:6] == bytes((SPEECH,))


def with_speech(data: bytes, address: bytes, codec: bytes) -> bytes:
    """An ASSIGNMENT COMPLETE with AoIP Transport Layer Address and Speech Codec (Chosen) (clauses 3.2.2.102 and 3.2.2.104)."""
    text = data[2:2 + data[1]]
    for identifier, value in ((TRANSPORT_ADDRESS, address), (SPEECH_CODEC_CHOSEN, codec)):
        if value:
            text += bytes((identifier, len(value))) + value
    return bssmap(text)
