# SPDX-License-Identifier: MIT OR Apache-2.0
"""The controller of tests/model, or one like it, as a program in the place of `bsc run`: the links, and no timers."""
import selectors
import socket
import sys
import tomllib

from lib.octets import ABIS, CCM, PING, PONG, SCCP, frame, frames_in
from lib.relay_octets import from_station, from_switch, to_station, to_switch


def open_links(text):
    """The switch's link, and that of each cell's station; the lines that are awaited are those of bsc."""
    table = tomllib.loads(text)
    servers = [socket.create_server((cell["listen"].split(":")[0], 0)) for cell in table["cell"]]
    for number, server in enumerate(servers, 1):
        print("cell {}: waiting at {}:{}".format(number, *server.getsockname()), file=sys.stderr, flush=True)
    host, port = table["switch"]["address"].split(":")
    links = [socket.create_connection((host, int(port)))] + [server.accept()[0] for server in servers]
    for link in links:
        link.setsockopt(socket.IPPROTO_TCP, socket.TCP_NODELAY, 1)
    print("relaying", file=sys.stderr, flush=True)
    return links


class Program:
    """Gives the controller each item as it comes, and writes what it puts."""

    def __init__(self, links, controller):
        self.links, self.controller = links, controller
        self.octets = [b"" for _ in links]

    def run(self):
        """Until each link has ended."""
        with selectors.DefaultSelector() as selector:
            for number, link in enumerate(self.links):
                selector.register(link, selectors.EVENT_READ, number)
            while selector.get_map():
                for key, _ in selector.select():
                    if not self.reads(key.data):
                        selector.unregister(key.fileobj)

    def reads(self, source):
        """Whether the link goes on."""
        try:
            octets = self.links[source].recv(65536)
        except OSError:
            octets = b""
        if not octets:
            self.takes(source, "Down")
            return False
        self.octets[source] += octets
        end = 0
        for stream, body, end in frames_in(self.octets[source]):
            if stream == CCM and body == PING:
                self.writes(source, CCM, PONG)
            elif stream != CCM:
                self.takes(source, from_switch(body) if source == 0 else from_station(body))
        self.octets[source] = self.octets[source][end:]
        return True

    def takes(self, source, message):
        for link, output in self.controller.take(source, message):
            self.writes(link, *((SCCP, to_switch(output)) if link == 0 else (ABIS, to_station(output))))

    def writes(self, link, stream, body):
        try:
            self.links[link].sendall(frame(stream, body))
        except OSError:
            pass  # the link has ended, which its reading finds
