# SPDX-License-Identifier: MIT OR Apache-2.0
"""The mobiles that are paged in a cell: which command is due, and until when each is repeated. Not proved."""
import time
from collections.abc import Callable
from dataclasses import dataclass

from bsc_front.tables.limits import Limit

EVERY = 2.0  # seconds between two commands for one mobile: its paging group comes round within 1.2
WHOLE = 10.0  # seconds for which a mobile is paged where it doesn't answer; the switch may ask again
MOST = 256  # mobiles that are paged at once
IN_SECOND = 8  # commands for each block of the PCH in a multiframe: two in each, of which four come in a second
LOAD_LASTS = 3.0  # seconds for which the last CCCH LOAD INDICATION is heeded; stations send one a second while there is a load
NO_LOAD = 0xFFFF


@dataclass
class Page:
    """A mobile that is paged."""
    identities: tuple[bytes, ...]  # by which it may answer
    command: bytes
    end: float
    due: float
    count: int = 0


class Pages:
    """All of a cell, the oldest first, by the IMSI. The PCH has so many blocks in each multiframe."""

    def __init__(self, blocks: int, clock: Callable[[], float] = time.monotonic) -> None:
        self.clock = clock
        self.pages: dict[bytes, Page] = {}
        self.limit = Limit(blocks * IN_SECOND, clock)
        self.room = NO_LOAD  # commands for which the station has room
        self.heard = clock()  # when it has said so

    def ask(self, imsi: bytes, identities: tuple[bytes, ...], command: bytes) -> bool:
        """Has a mobile paged from now on. Gives whether there is a place for it."""
        now = self.clock()
        self.expire(now)
        before = self.pages.pop(imsi, None)
        if not before and len(self.pages) >= MOST:
            return False
        self.pages[imsi] = Page(identities, command, now + WHOLE, now)
        return True

    def expire(self, now: float) -> None:
        """Forgets those whose time has passed."""
        self.pages = {imsi: page for imsi, page in self.pages.items() if page.end > now}

    def answered(self, identity: bytes) -> bool:
        """A mobile has answered. Gives whether it was paged here."""
        found = [imsi for imsi, page in self.pages.items() if identity in page.identities]
        for imsi in found:
            del self.pages[imsi]
        return bool(found)

    def take_load(self, room: int) -> None:
        """The station says for how many commands it has room."""
        self.room, self.heard = room, self.clock()

    def due(self) -> list[Page]:
        """The pages whose commands are sent now: as many as the PCH and the station have room for, those first that wait longest."""
        now = self.clock()
        self.expire(now)
        if now - self.heard > LOAD_LASTS:
            self.room = NO_LOAD
        found = []
        for page in sorted((page for page in self.pages.values() if page.due <= now), key=lambda page: page.due):
            if not self.room or not self.limit.takes():
                break
            self.room -= self.room != NO_LOAD
            page.count, page.due = page.count + 1, now + EVERY
            found.append(page)
        return found
