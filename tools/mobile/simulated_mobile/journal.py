# SPDX-License-Identifier: MIT OR Apache-2.0
"""What a mobile tells: each layer 3 message both ways with its name, and what happens to its channel. Not proved."""
from __future__ import annotations

import sys
import time

from simulated_mobile import layer3


class Journal:
    """Prints a line for each message and event, and keeps their names for those who wait for one."""

    def __init__(self, name: str) -> None:
        self.name = name
        self.start = time.monotonic()
        self.names: list[str] = []
        self.looked_at = 0
        self.last: dict[tuple[str, str], bytes] = {}

    def line(self, text: str) -> None:
        """Prints a line with the time since the start and the mobile's name."""
        print(f"{time.monotonic() - self.start:8.3f} {self.name} {text}", flush=True)

    def event(self, name: str, detail: str = "") -> None:
        """Something that isn't a message but can be waited for."""
        self.names.append(name)
        self.line(f"   {name}" + (f": {detail}" if detail else ""))

    def message(self, direction: str, place: str, message: bytes) -> None:
        """A layer 3 message that goes up (from the mobile) or down (to it)."""
        name = layer3.message_name(message)
        self.names.append(name)
        number = ""
        if direction == "up" and len(message) >= 2 and layer3.discriminator(message) in layer3.NUMBERED:
            number = f" N(SD) {message[1] >> 6}"
        arrow = "->" if direction == "up" else "<-"
        self.line(f"{arrow} {name}{number} ({place}): {message.hex()}")

    def repeated(self, direction: str, place: str, message: bytes) -> None:
        """A message that is sent again and again: printed where it differs from the last one of its place."""
        key = (direction, place + layer3.message_name(message))
        if self.last.get(key) != message:
            self.last[key] = message
            self.message(direction, place, message)

    def look_for(self, name: str) -> bool:
        """Whether a message or event of this name came behind the one that the last successful look found."""
        while self.looked_at < len(self.names):
            self.looked_at += 1
            if self.names[self.looked_at - 1] == name:
                return True
        return False


def complain(text: str) -> None:
    """One line on standard error."""
    print(f"mobile: {text}", file=sys.stderr, flush=True)
