# SPDX-License-Identifier: MIT OR Apache-2.0
"""A relay, `bsc run` or a program in its place, with a link as the switch and one as each cell's station, over loopback."""
import itertools
import re
import socket
import struct
import subprocess
import time

PATIENCE = 30.0  # seconds for whatever has to come, on a loaded machine


class Wrong(Exception):
    """What isn't as it should be."""


def with_addresses(text, port):
    """Settings in which the switch is at this port, and each cell's port is one that the system chooses, at an address of its own."""
    hosts = itertools.count(2)
    text = re.sub(r"^address = .*$", f'address = "127.0.0.1:{port}"', text, flags=re.MULTILINE)
    return re.sub(r"^listen = .*$", lambda _: f'listen = "127.0.0.{next(hosts)}:0"', text, flags=re.MULTILINE)


class Relay:
    """The program with these options of `run`, and the sockets of its peers: `links[0]` is the switch's, the others are those of
    stations."""

    def __init__(self, words, text, work, environment=None, options=()):
        self.log, self.links = work / "log", []
        with socket.create_server(("127.0.0.1", 0)) as server:
            server.settimeout(PATIENCE)
            file = work / "settings.toml"
            file.write_text(with_addresses(text, server.getsockname()[1]))
            with open(self.log, "w") as log:
                self.process = subprocess.Popen([*words, "run", "--config", file, *options], stderr=log, env=environment)
            try:
                self.open(server, text.count("[[cell]]"))
            except (OSError, Wrong) as fault:
                self.end(0)
                raise Wrong(f"the relay doesn't open its links: {fault}\n{self.log.read_text()}") from fault

    def open(self, server, cells):
        """Opens the links, and waits until it relays: before, it is the end where one breaks."""
        self.links.append(server.accept()[0])
        # where each cell is listened for is logged before the switch is connected to
        addresses = self.logged(r"cell \d+: waiting at ([\d.]+):(\d+)$", cells)
        self.links += [socket.create_connection((host, int(port)), PATIENCE) for host, port in addresses]
        for link in self.links:
            link.setsockopt(socket.IPPROTO_TCP, socket.TCP_NODELAY, 1)
        self.logged(r"relaying$", 1)

    def logged(self, line, count):
        """Waits for so many lines of this form, and gives what they have."""
        end = time.monotonic() + PATIENCE
        while len(found := re.findall(line, self.log.read_text(), re.MULTILINE)) < count:
            if time.monotonic() > end or self.process.poll() is not None:
                raise Wrong(f"{len(found)} of {count} lines are logged: {line}")
            time.sleep(0.002)
        return found

    def close(self, number, how="end"):
        """Ends a link: 'end' closes it, 'reset' resets it, 'half' ends the sending side alone."""
        link = self.links[number]
        if how == "half":
            link.shutdown(socket.SHUT_WR)
            return
        if how == "reset":
            link.setsockopt(socket.SOL_SOCKET, socket.SO_LINGER, struct.pack("ii", 1, 0))
        link.close()

    def end(self, seconds=PATIENCE):
        """Closes all links, whereupon the relay ends; gives its status, or None where it doesn't end and is killed."""
        for link in self.links:
            link.close()
        try:
            return self.process.wait(seconds)
        except subprocess.TimeoutExpired:
            self.process.kill()
            self.process.wait()
            return None
