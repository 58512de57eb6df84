# SPDX-License-Identifier: MIT OR Apache-2.0
"""How many of something are taken in a second. Not proved."""
import time
from collections.abc import Callable


class Limit:
    """So many in a second, and so many at once where none came for a second."""

    def __init__(self, in_second: int, clock: Callable[[], float] = time.monotonic) -> None:
        self.in_second = in_second
        self.clock = clock
        self.room = float(in_second)
        self.last = clock()

    def takes(self) -> bool:
        """Whether one more is taken now."""
        now = self.clock()
        self.room = min(self.room + (now - self.last) * self.in_second, float(self.in_second))
        self.last = now
        if self.room < 1:
            return False
        self.room -= 1
        return True
