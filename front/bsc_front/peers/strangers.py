# SPDX-License-Identifier: MIT OR Apache-2.0
"""Links on which nobody has said yet who he is: how many of them are kept. Not proved.

Whoever comes next has a place: the stranger who has waited longest makes room for him. So links that say nothing shut nobody out.
"""
import contextlib
from collections import Counter
from collections.abc import Iterator

from bsc_front.peers.link import Link
from bsc_front.service.log import Subject

MOST = 64  # strangers at all ports
MOST_OF_HOST = 8  # strangers from one address


class Strangers:
    """All strangers, the oldest first, and of whom the lines about them are said."""

    def __init__(self) -> None:
        self.subject = Subject()
        self.links: list[Link] = []

    @contextlib.contextmanager
    def waiting(self, link: Link) -> Iterator[None]:
        """Has a link among the strangers for as long as it isn't known whose it is."""
        if oldest := self.too_many(link.host):
            self.links.remove(oldest)
            oldest.end(f"it hadn't said who it is, and made room for {link.peer}")
        self.links.append(link)
        try:
            yield
        finally:
            if link in self.links:
                self.links.remove(link)

    def too_many(self, host: str) -> Link | None:
        """Who has to make room for a stranger from an address: the oldest one from there, or from where most of them are."""
        hosts = Counter(link.host for link in self.links)
        if hosts[host] < MOST_OF_HOST and len(self.links) < MOST:
            return None
        most = host if hosts[host] >= MOST_OF_HOST else hosts.most_common(1)[0][0]
        return next(link for link in self.links if link.host == most)
