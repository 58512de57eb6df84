# SPDX-License-Identifier: MIT OR Apache-2.0
"""DTAP (TS 24.008) as far as the front looks at it on the way. Not proved."""

DTAP = 0x01  # TS 48.006 clause 9.3: the discriminator
PROTOCOL, CALL_CONTROL = 0x0F, 0x03  # TS 24.007 clause 11.2.3.1.1: mask, and value of call control
MESSAGE = 0x3F  # clause 11.2.3.2.1: mask of the type without the number N(SD)
BEGINS = (0x05, 0x0E)  # TS 24.008 clause 10.4: SETUP, EMERGENCY SETUP


def begins_call(data: bytes, at: int = 0) -> bool:
    """Whether a message of a connection, which begins there, begins a call: discriminator, DLCI, length, protocol discriminator and
    message type."""
    return len(data) > at + 4 and data[at + 4] & MESSAGE in BEGINS and data[at + 3] & PROTOCOL == CALL_CONTROL and data[at] == DTAP
