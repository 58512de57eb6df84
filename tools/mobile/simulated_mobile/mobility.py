# SPDX-License-Identifier: MIT OR Apache-2.0
"""Mobility management of a mobile (TS 24.008 clause 4), and the numbers of its messages (TS 24.007 clause 11.2.3.2).

Not proved. Authentication is left out: an AUTHENTICATION REQUEST isn't answered.
"""
from __future__ import annotations

from typing import Protocol

from simulated_mobile import layer3, messages
from simulated_mobile.layer3 import MOBILITY
from simulated_mobile.cells import Cells
from simulated_mobile.journal import Journal
from simulated_mobile.messages import Subscriber
from simulated_mobile.radio_resource import RadioResource

LOCATION_UPDATING_KINDS = {"normal": messages.NORMAL_UPDATING, "periodic": messages.PERIODIC_UPDATING,
                           "attach": messages.IMSI_ATTACH}
SERVICES = {"call": 1, "emergency": 2, "short-message": 4, "supplementary": 8}  # TS 24.008 clause 10.5.3.3


class ConnectionUser(Protocol):
    """Who is above: call control or short messages."""

    def accepted(self) -> None:
        """The network gives the service that was asked for."""

    def received(self, message: bytes) -> None:
        """A message of its protocol has come."""

    def ended(self) -> None:
        """The channel is gone."""


class Mobility:
    """Mobility management: it numbers what goes up on SAPI 0."""

    def __init__(self, resource: RadioResource, cells: Cells, subscriber: Subscriber, journal: Journal) -> None:
        self.resource = resource
        self.cells = cells
        self.subscriber = subscriber
        self.journal = journal
        self.users: dict[int, ConnectionUser] = {}
        self.asking: ConnectionUser | None = None  # who asked for the service
        self.number = 0  # V(SD)
        resource.user = self

    # What is asked for by command.

    def location_update(self, kind: str) -> bool:
        """LOCATION UPDATING REQUEST on a channel of its own; False where the mobile is busy or heard no cell."""
        area = self.subscriber.location or self._unknown_area()
        if area is None:
            return False
        request = messages.location_updating_request(self.subscriber, LOCATION_UPDATING_KINDS[kind], area)
        return self._connect(request, messages.REASON_LOCATION_UPDATING)

    def detach(self) -> bool:
        """IMSI DETACH INDICATION; the network answers by CHANNEL RELEASE alone."""
        detached = messages.imsi_detach_indication(self.subscriber)
        return self._connect(detached, messages.REASON_OTHER_ON_SDCCH)

    def service(self, service: str, user: ConnectionUser | None = None) -> bool:
        """CM SERVICE REQUEST, on a channel of its own where there is none; the user hears when it is given."""
        self.asking = user
        request = messages.cm_service_request(self.subscriber, SERVICES[service])
        if not self.resource.is_idle:
            return self.send(0, request)
        is_call = service in ("call", "emergency")
        return self._connect(request, messages.REASON_ORIGINATING_CALL if is_call else messages.REASON_OTHER_ON_SDCCH)

    def send(self, sapi: int, message: bytes) -> bool:
        """Sends a message, with the next N(SD) where its protocol has numbers; False where there is no channel."""
        if self.resource.channel is None:
            return False
        if sapi == 0 and layer3.discriminator(message) in layer3.NUMBERED:
            message = layer3.with_number(message, self.number)
            self.number = (self.number + 1) % self.subscriber.modulus
        return self.resource.send(sapi, message)

    def _connect(self, initial: bytes, reason: tuple[int, int]) -> bool:
        """The initial message of a connection has N(SD) 0; behind PAGING RESPONSE, which has none, it comes next."""
        if not self.resource.is_idle or self.cells.serving is None:
            return False
        self.number = 1 if layer3.discriminator(initial) in layer3.NUMBERED else 0
        self.resource.connect(initial, reason)
        return True

    def _unknown_area(self) -> bytes | None:
        """The serving cell's network with the area code that means none."""
        here = self.cells.location
        return here[:3] + messages.DELETED_AREA_CODE if here is not None else None

    # From radio resource management.

    def paged(self, identity: bytes) -> None:
        """The network calls an identity on the paging channel."""
        own = [messages.digits_identity(messages.IMSI, self.subscriber.imsi)]
        if self.subscriber.tmsi is not None:
            own.append(b"\xf4" + self.subscriber.tmsi)
        if identity in own and self.resource.is_idle:
            self.journal.event("paged", f"identity {identity.hex()}")
            self._connect(messages.paging_response(self.subscriber, identity), messages.REASON_PAGING)

    def disconnected(self) -> None:
        """The channel is gone, and with it all connections."""
        self.asking = None
        for user in self.users.values():
            user.ended()

    def received(self, sapi: int, message: bytes) -> None:
        """A message of the network."""
        protocol = layer3.discriminator(message)
        if protocol == MOBILITY and len(message) >= 2:
            self._mobility_message(message)
        elif protocol in self.users:
            self.users[protocol].received(message)

    def _mobility_message(self, message: bytes) -> None:
        kind = layer3.message_type(message)
        if kind == 0x18 and len(message) >= 3:
            identity = self.subscriber.identity_of_kind(message[2] & 0x07)
            self.send(0, messages.identity_response(identity))
        elif kind == 0x02 and len(message) >= 7:
            self.subscriber.location = message[2:7]
            self._new_identity(message[7:])
        elif kind == 0x1A and len(message) >= 7:
            self.subscriber.location = message[2:7]
            self._new_identity(b"\x17" + message[7:])
        elif kind in (0x04, 0x11):
            self.subscriber.tmsi = self.subscriber.location = None
        elif kind == 0x21:
            user, self.asking = self.asking, None
            if user is not None:
                user.accepted()

    def _new_identity(self, octets: bytes) -> None:
        """The mobile identity behind its identifier 17: a new TMSI is confirmed (TS 24.008 clause 4.4.4.6)."""
        if len(octets) < 3 or octets[0] != 0x17:
            return
        value = octets[2:2 + octets[1]]
        if value[:1] == b"\xf4" and len(value) == 5:
            self.subscriber.tmsi = value[1:]
            self.send(0, messages.TMSI_REALLOCATION_COMPLETE)
        else:
            self.subscriber.tmsi = None
