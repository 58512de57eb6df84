# SPDX-License-Identifier: MIT OR Apache-2.0
"""RSL (TS 48.058): what the front makes of it by itself, and what it looks at on the way. Not proved.

Everything else is passed on as it is.
"""
from bsc_front.octets.description import Cell
from bsc_front.octets.system_information import on_bcch, on_sacch

# clauses 9.1 and 9.2: message discriminator without bit 1, which tells whether the station passes it on, and message type
DATA_REQUEST = 0x0201
DATA_INDICATION = 0x0202
ERROR_INDICATION = 0x0203
ESTABLISH_INDICATION = 0x0206
RELEASE_INDICATION = 0x0209
BCCH_INFORMATION = 0x0C11
CCCH_LOAD_INDICATION = 0x0C12
CHANNEL_REQUIRED = 0x0C13
DELETE_INDICATION = 0x0C14
PAGING_COMMAND = 0x0C15
IMMEDIATE_ASSIGN_COMMAND = 0x0C16
CHANNEL_ACTIVATION = 0x0821
CHANNEL_ACTIVATION_ACK = 0x0822
CHANNEL_ACTIVATION_NACK = 0x0823
CONNECTION_FAILURE = 0x0824
DEACTIVATE_SACCH = 0x0825
MEASUREMENT_RESULT = 0x0828
RF_CHANNEL_RELEASE = 0x082E
RF_CHANNEL_RELEASE_ACK = 0x0833
RF_RESOURCE_INDICATION = 0x1019
SACCH_FILLING = 0x101A
OVERLOAD = 0x101B
ERROR_REPORT = 0x101C

# what bsc knows of what a station sends: CHANNEL REQUIRED, and these on a dedicated channel: DATA, ERROR, ESTABLISH and RELEASE
# INDICATION, ESTABLISH and RELEASE CONFIRM; CHANNEL ACTIVATION ACK and NACK, CONNECTION FAILURE, HANDOVER DETECTION,
# MEASUREMENT RESULT, RF CHANNEL RELEASE ACK
OF_DEDICATED_CHANNEL = frozenset((0x0202, ERROR_INDICATION, 0x0205, 0x0206, 0x0208, 0x0209, CHANNEL_ACTIVATION_ACK,
                                  CHANNEL_ACTIVATION_NACK, CONNECTION_FAILURE, 0x0827, 0x0828, RF_CHANNEL_RELEASE_ACK))

# those by which the state of a channel may change
CHANGES_CHANNEL = frozenset((CHANNEL_ACTIVATION_ACK, CHANNEL_ACTIVATION_NACK, RF_CHANNEL_RELEASE_ACK))

# what a station tells of itself and bsc doesn't know, by name
FILTERED = {
    CCCH_LOAD_INDICATION: "CCCH LOAD INDICATION", DELETE_INDICATION: "DELETE INDICATION",
    RF_RESOURCE_INDICATION: "RF RESOURCE INDICATION", OVERLOAD: "OVERLOAD", ERROR_REPORT: "ERROR REPORT",
}

# clause 9.3: elements
CHANNEL_NUMBER = 0x01
LINK_IDENTIFIER = 0x02
L3_INFORMATION = 0x0B
PAGING_GROUP = 0x0E
MS_IDENTITY = 0x0C
PAGING_LOAD = 0x0F
RLM_CAUSE = 0x16
CAUSE = 0x1A
SYSTEM_INFORMATION_TYPE = 0x1E
FULL_BCCH_INFORMATION = 0x27
CHANNEL_NEEDED = 0x28

# clause 9.3.26: causes
RADIO_LINK_FAILURE = 0x01
RADIO_RESOURCE_NOT_AVAILABLE = 0x21

# what is said in a station's place: message, its name, and its cause, if it has one
IN_ITS_PLACE = {
    CHANNEL_ACTIVATION_NACK: ("CHANNEL ACTIVATION NACK", RADIO_RESOURCE_NOT_AVAILABLE),
    CONNECTION_FAILURE: ("CONNECTION FAILURE INDICATION", RADIO_LINK_FAILURE),
    RF_CHANNEL_RELEASE_ACK: ("RF CHANNEL RELEASE ACKNOWLEDGE", None),
}

BCCH = 0x80
PCH = 0x90

# clause 9.3.22: responses that nobody asked for, of which layer 2 tells without leaving its state (TS 44.006 clause 5.4.5):
# UA, DM with its final bit, a supervisory frame with its final bit
LEAVES_LINK_UP = (0x03, 0x04, 0x06)

HEAD = slice(0, 4)  # discriminator, message type, and channel number
LAYER_3_TYPE = slice(9, 11)  # discriminator and type of the layer 3 message in DATA REQUEST and DATA INDICATION

CHANNEL_RELEASE = b"\x06\x0D"  # layer 3 (TS 44.018 clause 9.1.7)
PAGING_RESPONSE = b"\x06\x27"  # the same (clause 9.1.25)


def message_of(body: bytes) -> int:
    """Discriminator and type of a message."""
    return (body[0] & 0xFE) << 8 | body[1] if len(body) > 1 else 0


def channel_of(body: bytes) -> int:
    """The channel number of a message that begins with it."""
    return body[3] if len(body) > 3 and body[2] == CHANNEL_NUMBER else 0


def heads(message: int, number: int) -> tuple[bytes, bytes]:
    """How a message begins that begins with this channel number: without bit 1 of the discriminator, and with it."""
    rest = bytes((message & 0xFF, CHANNEL_NUMBER, number))
    return bytes((message >> 8,)) + rest, bytes((message >> 8 | 1,)) + rest


def on_channel(message: int, number: int) -> bytes:
    """A message that begins with a channel number, with its cause where it is said in a station's place."""
    cause = IN_ITS_PLACE.get(message, ("", None))[1]
    ending = b"" if cause is None else bytes((CAUSE, 1, cause))
    return message.to_bytes(2, "big") + bytes((CHANNEL_NUMBER, number)) + ending


def assigned_channel(body: bytes) -> int:
    """The channel number of the channel description in an IMMEDIATE ASSIGN COMMAND (TS 44.018 clause 9.1.18)."""
    return body[10] if len(body) > 10 else 0


def is_channel_release(body: bytes) -> bool:
    """Whether a DATA REQUEST has CHANNEL RELEASE for the mobile."""
    return body[LAYER_3_TYPE] == CHANNEL_RELEASE and message_of(body) == DATA_REQUEST and body[4:5] == bytes((LINK_IDENTIFIER,)) and (
        body[6:7] == bytes((L3_INFORMATION,)))


def is_left(body: bytes) -> bool:
    """Whether a station says that a mobile has left a channel: RELEASE INDICATION of SAPI 0 of the main signalling link."""
    return message_of(body) == RELEASE_INDICATION and body[4:6] == bytes((LINK_IDENTIFIER, 0x00))


def leaves_link_up(body: bytes) -> bool:
    """Whether an ERROR INDICATION tells of a link of layer 2 that goes on."""
    return (message_of(body) == ERROR_INDICATION and len(body) > 8 and body[4] == LINK_IDENTIFIER and body[6] == RLM_CAUSE
            and body[8] & 0x7F in LEAVES_LINK_UP)


def system_information(cell: Cell, mcc: str, mnc: str) -> list[bytes]:
    """BCCH INFORMATION (clause 8.5.1) for types 1 to 4, and SACCH FILLING (clause 8.6.2) for 5 and 6."""
    found = []
    for kind, text in on_bcch(cell, mcc, mnc).items():
        found.append(BCCH_INFORMATION.to_bytes(2, "big") + bytes(
            (CHANNEL_NUMBER, BCCH, SYSTEM_INFORMATION_TYPE, kind, FULL_BCCH_INFORMATION, len(text))) + text)
    for kind, text in on_sacch(cell, mcc, mnc).items():
        found.append(SACCH_FILLING.to_bytes(2, "big") + bytes((SYSTEM_INFORMATION_TYPE, kind, L3_INFORMATION))
                     + len(text).to_bytes(2, "big") + text)
    return found


def paging_command(group: int, identity: bytes, needed: int) -> bytes:
    """PAGING COMMAND (clause 8.5.5)."""
    return PAGING_COMMAND.to_bytes(2, "big") + bytes(
        (CHANNEL_NUMBER, PCH, PAGING_GROUP, group, MS_IDENTITY, len(identity))) + identity + bytes((CHANNEL_NEEDED, needed))
