# SPDX-License-Identifier: MIT OR Apache-2.0
"""A stub of bsc, for what is tried of the front by itself: it has bsc's links, and does nothing that it isn't told to."""
import selectors
import socket

from lib.peers import RSL, SCCP, Link


class Port:
    """A cell's port, and the cell's link, which is the last one that has come."""

    def __init__(self, peers, port, host):
        self.peers, self.link, self.frames, self.links = peers, None, [], 0
        family = socket.AF_INET6 if ":" in host else socket.AF_INET
        self.socket = socket.create_server((host, port), family=family)
        peers.selector.register(self.socket, selectors.EVENT_READ, self)

    def read(self):
        """Takes a link; what comes over it is kept."""
        self.link = Link(self.peers, None, lambda stream, body: self.frames.append((stream, body)), self.socket.accept()[0])
        self.links += 1

    def send(self, text):
        """Sends a message of RSL, in hexadecimal."""
        self.link.send(RSL, bytes.fromhex(text))


class Stub:
    """The ports of the cells by their numbers, and the link to the front as to the switch."""

    def __init__(self, peers, cells, switch, host="127.0.0.1"):
        self.cells = {number: Port(peers, port, host) for number, port in enumerate(cells, 1)}
        self.frames = []
        self.switch = peers.connect((host, switch), lambda stream, body: self.frames.append((stream, body)))

    def send(self, text):
        """Sends a message of SCCP, in hexadecimal."""
        self.switch.send(SCCP, bytes.fromhex(text))
