# SPDX-License-Identifier: MIT OR Apache-2.0
"""Base stations and a switch in Python, which connect to the front over loopback as real ones do.

All links are read in one place, `Peers.until`, and by nobody else: there each peer answers what it answers by itself, which is
identification, PING, OML and RESET. The frames of calls wait for the script, or are answered at once where a peer is automatic.
"""
import collections
import selectors
import socket
import struct
import time

PATIENCE = 30.0  # seconds for whatever has to come, on a loaded machine

RSL, SCCP, CCM, OML = 0x00, 0xFD, 0xFE, 0xFF
PING, PONG, ID_GET, ID_RESPONSE = 0, 1, 4, 5
UNIT_ID = 8
RSL_CONNECT = 0xE0  # of ip.access, behind the header with its name
IPACCESS_HEADER = 18  # octets
DEACTIVATE_SACCH = b"\x08\x25"
SYSTEM_INFORMATION = (0x0C11, 0x101A)  # BCCH INFORMATION, SACCH FILLING

CHANNEL_ACTIVATION_ACK, RF_CHANNEL_RELEASE_ACK = "08 22", "08 33"
CHANNEL_ACTIVATION, RF_CHANNEL_RELEASE = b"\x08\x21", b"\x08\x2e"
ACKNOWLEDGED = {CHANNEL_ACTIVATION: CHANNEL_ACTIVATION_ACK + " 01 {channel:02x} 08 00 00",
                RF_CHANNEL_RELEASE: RF_CHANNEL_RELEASE_ACK + " 01 {channel:02x}"}
IMMEDIATE_ASSIGN_COMMAND, ESTABLISH_INDICATION, CONNECTION_FAILURE = b"\x0c\x16", "02 06", "08 24 01 {channel:02x} 1a 01 01"
CR, CC, RLSD, RLC, DT1, UDT = 0x01, 0x02, 0x04, 0x05, 0x06, 0x09
RESET_ACKNOWLEDGE = bytes.fromhex("09 00 03 05 07 02 42 fe 02 42 fe 03 00 01 31")
CLEAR_COMMAND, CLEAR_COMPLETE, CLEAR_REQUEST = "00 04 20 04 01 09", 0x21, 0x22


class Wrong(Exception):
    """What isn't as it should be."""


class Link:
    """A link to the front."""

    def __init__(self, peers, address, taken, accepted=None):
        self.peers = peers
        self.taken = taken  # is given each frame: stream and body
        self.octets = b""
        self.is_ended = False
        self.is_mute = False  # reads, and says nothing, not even PONG
        self.socket = accepted or socket.create_connection(address, PATIENCE)
        self.socket.setsockopt(socket.IPPROTO_TCP, socket.TCP_NODELAY, 1)
        peers.selector.register(self.socket, selectors.EVENT_READ, self)

    def send(self, stream, body):
        """Sends a frame; where the link has ended there is nobody to get it."""
        if self.is_ended or self.is_mute:
            return
        try:
            self.socket.sendall(len(body).to_bytes(2, "big") + bytes([stream]) + body)
        except OSError:
            self.end()

    def read(self):
        """Takes what has come."""
        try:
            octets = self.socket.recv(65536)
        except OSError:
            octets = b""
        if not octets:
            self.end()
            return
        self.octets += octets
        while len(self.octets) >= 3 and len(self.octets) >= (length := 3 + int.from_bytes(self.octets[:2], "big")):
            stream, body, self.octets = self.octets[2], self.octets[3:length], self.octets[length:]
            if stream == CCM and body[:1] == bytes([PING]):
                self.send(CCM, bytes([PONG]))
            elif not self.is_ended:
                self.taken(stream, body)

    def end(self, is_reset=False):
        """Closes the link, or resets it."""
        if self.is_ended:
            return
        self.is_ended = True
        self.peers.selector.unregister(self.socket)
        if is_reset:
            self.socket.setsockopt(socket.SOL_SOCKET, socket.SO_LINGER, struct.pack("ii", 1, 0))
        self.socket.close()


class Peers:
    """All peers of a script."""

    def __init__(self):
        self.selector = selectors.DefaultSelector()

    def until(self, wanted, what, seconds=PATIENCE):
        """Reads all links until something is so, and gives it; what isn't so in time is wrong."""
        end = time.monotonic() + seconds
        while not (found := wanted()):
            if time.monotonic() > end:
                raise Wrong(f"{what}: not within {seconds:g} s")
            for key, _ in self.selector.select(0.02):
                key.data.read()
        return found

    def connect(self, address, taken):
        """Connects, as soon as somebody listens."""
        def attempt():
            try:
                return Link(self, address, taken)
            except ConnectionRefusedError:
                time.sleep(0.02)
                return None
        return self.until(attempt, f"a link to {address[0]}:{address[1]}")


class Station:
    """A base station with its OML link and, once it is told where, its RSL link."""

    def __init__(self, peers, number, oml, unit=None):
        self.peers = peers
        self.number = number
        self.unit = unit or f"{number}/0/0"
        self.address = oml
        self.oml = self.rsl = None
        self.is_automatic = False
        self.is_alone = False  # doesn't go on to RSL
        self.is_slow = False  # doesn't answer OML behind that, until it is told to
        self.configured = 0  # OML messages that it has got in this life
        self.late = b""  # the answer to the last one
        self.informed = 0  # messages with system information
        self.deactivated = 0  # times that the SACCH of a channel was to end
        self.frames = collections.deque()
        self.history = []  # all messages of RSL that this life has got, but for system information
        self.owed = {}  # by channel: what the script has taken and not acknowledged

    def start(self):
        """Begins a life; the front configures it meanwhile."""
        self.frames.clear()
        self.history.clear()
        self.owed.clear()
        self.is_automatic = False
        self.configured = self.informed = 0
        self.rsl = None
        self.oml = self.peers.connect(self.address, self.take_oml)

    def is_there(self):
        return self.rsl is not None and not self.rsl.is_ended and self.informed >= 6

    def identify(self, link, body):
        """Answers ID GET; ID ACK wants no answer."""
        if body[:1] == bytes([ID_GET]):
            item = bytes([UNIT_ID]) + self.unit.encode() + b"\0"
            link.send(CCM, bytes([ID_RESPONSE]) + len(item).to_bytes(2, "big") + item)

    def take_oml(self, stream, body):
        """Acknowledges each message of OML: its type and 1, for the same object."""
        if stream == CCM:
            self.identify(self.oml, body)
            return
        at = IPACCESS_HEADER if body[0] == 0x10 else 4
        self.configured += 1
        self.late = body[:at] + bytes([body[at] + 1]) + body[at + 1:]
        if not (self.is_slow and self.rsl):
            self.oml.send(OML, self.late)
        if body[at] == RSL_CONNECT and not self.is_alone:
            attributes = body[at + 5:]
            host = socket.inet_ntoa(attributes[-4:])
            self.rsl = self.peers.connect((host, int.from_bytes(attributes[3:5], "big")), self.take_rsl)

    def finish(self):
        """Answers the message of OML that is left, and all others at once."""
        self.is_slow = False
        self.oml.send(OML, self.late)

    def take_rsl(self, stream, body):
        """Keeps a frame for the script, or answers it."""
        if stream == CCM:
            self.identify(self.rsl, body)
        elif (body[0] & 0xFE) << 8 | body[1] in SYSTEM_INFORMATION:
            self.informed += 1
        elif body[:2] == DEACTIVATE_SACCH:
            self.deactivated += 1
        else:
            self.history.append(body)
            self.acknowledge(body) if self.is_automatic else self.frames.append(body)

    def acknowledge(self, body):
        """Acknowledges an activation and a release. A mobile that is assigned a channel never comes; all else wants no answer."""
        if body[:2] in ACKNOWLEDGED:
            self.send(ACKNOWLEDGED[body[:2]].format(channel=body[3]))
        elif body[:2] == IMMEDIATE_ASSIGN_COMMAND:
            self.send(CONNECTION_FAILURE.format(channel=body[10]))

    def go_on_alone(self):
        """From now on this station acknowledges what comes, and at first what has come."""
        self.is_automatic = True
        for body in [*self.owed.values(), *self.frames]:
            self.acknowledge(body)
        self.frames.clear()

    def send(self, text):
        """Sends a message of RSL, in hexadecimal."""
        body = bytes.fromhex(text)
        if text.startswith((CHANNEL_ACTIVATION_ACK, RF_CHANNEL_RELEASE_ACK, ESTABLISH_INDICATION)):
            self.owed.pop(body[3], None)
        self.rsl.send(RSL, body)

    def strays(self):
        """What this life has got on a channel that it hasn't been asked to activate."""
        active, found = set(), []
        for body in self.history:
            channel = body[10] if body[:2] == IMMEDIATE_ASSIGN_COMMAND else body[3]
            if body[:2] == CHANNEL_ACTIVATION:
                active.add(channel)
            elif channel not in active:
                found.append(body.hex(" "))
            elif body[:2] == RF_CHANNEL_RELEASE:
                active.remove(channel)
        return found

    def look(self, what):
        """The next message of RSL, which stays the next one."""
        self.peers.until(lambda: self.frames, f"station {self.number}: {what}")
        return self.frames[0]

    def get(self, what):
        """The next message of RSL."""
        body = self.look(what)
        self.frames.popleft()
        if body[:2] in ACKNOWLEDGED:
            self.owed[body[3]] = body
        elif body[:2] == IMMEDIATE_ASSIGN_COMMAND:
            self.owed[body[10]] = body
        return body

    def wants(self, text, what):
        """The next message has to be this one."""
        if (found := self.get(what)) != bytes.fromhex(text):
            raise Wrong(f"station {self.number}: {what}: got {found.hex(' ')}, and not {text}")

    def leave(self, is_reset=True):
        """Ends its life: both links are reset, or closed."""
        for link in (self.rsl, self.oml):
            if link:
                link.end(is_reset)


class Switch:
    """A switch. It gives the same references in each of its lives."""

    def __init__(self, peers, address):
        self.peers = peers
        self.address = address
        self.link = None
        self.frames = collections.deque()
        self.begin()

    def begin(self):
        """A new life, with no connection."""
        self.frames.clear()
        self.is_automatic = False
        self.is_reset = False
        self.last = 0
        self.connections = {}  # by the switch's reference: that of the other side

    def start(self):
        """Connects to the front, which then identifies and resets it."""
        self.begin()
        self.link = self.peers.connect(self.address, self.take)

    def take(self, stream, body):
        """Keeps a frame for the script, or answers it."""
        if stream == CCM:
            if body[:1] == bytes([ID_GET]):
                self.link.send(CCM, bytes.fromhex("05 00 04 01 6d 73 63 00 01 08"))
        elif body[0] == UDT:
            self.take_unitdata(body)
        elif self.is_automatic:
            self.answer(body)
        else:
            self.frames.append(body)

    def answer(self, body):
        """Does what a switch does that ends each call."""
        if body[0] == CR:
            self.clear(self.confirm(body[1:4]))
        elif body[0] == DT1 and len(body) > 9 and body[7] == 0 and body[9] == CLEAR_REQUEST:
            self.clear(body[1:4])
        elif body[0] == DT1 and len(body) > 9 and body[7] == 0 and body[9] == CLEAR_COMPLETE:
            self.release(body[1:4])
        elif body[0] == RLC:
            self.connections.pop(body[1:4], None)
        elif body[0] == RLSD:
            self.take_released(body)

    def go_on_alone(self):
        """From now on this switch answers what comes, and at first what has come."""
        self.is_automatic = True
        for body in self.frames:
            self.answer(body)
        self.frames.clear()

    def take_unitdata(self, body):
        """RESET ends each connection."""
        if body.endswith(bytes.fromhex("30 04 01 20")):
            self.connections.clear()
            self.link.send(SCCP, RESET_ACKNOWLEDGE)
            self.is_reset = True

    def take_released(self, body):
        """RLSD is answered by RLC."""
        self.connections.pop(body[1:4], None)
        self.send(bytes([RLC]) + body[4:7] + body[1:4])

    def confirm(self, theirs):
        """CC; gives the reference of this side."""
        self.last += 1
        own = (0x800000 | self.last).to_bytes(3, "big")
        self.connections[own] = theirs
        self.send(bytes([CC]) + theirs + own + bytes.fromhex("02 00"))
        return own

    def data(self, own, text):
        """DT1 with a message of BSSAP, in hexadecimal."""
        octets = bytes.fromhex(text)
        self.send(bytes([DT1]) + self.connections[own] + bytes([0, 1, len(octets)]) + octets)

    def clear(self, own):
        """CLEAR COMMAND."""
        if own in self.connections:
            self.data(own, CLEAR_COMMAND)

    def release(self, own):
        """RLSD."""
        if own in self.connections:
            self.send(bytes([RLSD]) + self.connections[own] + own + bytes.fromhex("00 00"))

    def send(self, body):
        self.link.send(SCCP, body)

    def get(self, what):
        """The next message of a connection."""
        self.peers.until(lambda: self.frames, f"switch: {what}")
        return self.frames.popleft()

    def wants(self, body, what):
        """The next message has to be this one."""
        if (found := self.get(what)) != body:
            raise Wrong(f"switch: {what}: got {found.hex(' ')}, and not {body.hex(' ')}")

    def leave(self, is_reset=True):
        """Ends its life."""
        self.link.end(is_reset)
