# SPDX-License-Identifier: MIT OR Apache-2.0
"""The built program over loopback, with the links of a switch and of stations that a script plays."""
import os
import re
import socket
import subprocess
import time

from lib.common import proved_program
from lib.player import play
from lib.ports import free_ports

PATIENCE = 5.0  # seconds for a frame, while nobody stalls
GOOD = 1  # the cell whose station behaves
MEASUREMENT_RESULT = bytes.fromhex("08 28 01 41 1b 05 19 03 14 14 00 04 00")  # says nothing, where its channel is free


class Wrong(Exception):
    pass


def in_kernel(near, far):
    """How many octets from the first of these ports to the second lie there: not acknowledged, or not read."""
    count = 0
    with open("/proc/net/tcp") as lines:
        for fields in (line.split() for line in list(lines)[1:]):
            ports = [int(fields[place].split(":")[1], 16) for place in (1, 2)]
            sent, got = (int(octets, 16) for octets in fields[4].split(":"))
            if ports == [near, far]:
                count += sent
            elif ports == [far, near]:
                count += got
    return count


def in_kernel_for(station):
    return in_kernel(station.getpeername()[1], station.getsockname()[1])


def waiting(sent, switch, station):
    """How many of the octets that the station is to get wait in bsc, once nothing moves any more."""
    last = None
    while (now := (in_kernel(switch.getsockname()[1], switch.getpeername()[1]), in_kernel_for(station))) != last:
        last = now
        time.sleep(0.05)
    return sent - sum(now)


def floods_with_nothing(station):
    """In a process of its own: sends what says nothing as fast as it is taken, until the link ends or the process is ended."""
    station.settimeout(None)
    block = play.frame(play.ABIS, MEASUREMENT_RESULT) * 512
    try:
        while True:
            station.sendall(block)
    except OSError:
        pass


def settings(switch, cells, channels):
    lines = ['[network]', 'mcc = "001"', 'mnc = "01"', '[switch]', f'address = "127.0.0.1:{switch}"']
    for number, port in enumerate(cells, 1):
        lines += ['[[cell]]', f'listen = "127.0.0.1:{port}"', 'lac = 1', f'ci = {number}', f'arfcn = {10 + 10 * number}',
                  'bsic = 9', f'channels = {list(channels)}']
    return "\n".join(lines) + "\n"


def connect(port, is_small, segment):
    """Connects as a cell's station. What lies in the kernel for those that are slow is little, and doesn't grow. With segments of so
    few octets bsc's socket keeps little for it, too."""
    end = time.monotonic() + 30
    while True:
        station = socket.socket()
        if is_small:
            station.setsockopt(socket.SOL_SOCKET, socket.SO_RCVBUF, 4096)
        if segment:
            station.setsockopt(socket.IPPROTO_TCP, socket.TCP_MAXSEG, segment)
        try:
            station.connect(("127.0.0.1", port))
            return station
        except ConnectionRefusedError:
            station.close()
            if time.monotonic() > end:
                raise
            time.sleep(0.05)


class Run:
    """The program, with the links of a switch and of so many stations, each with these channels; these stations are slow. It gets settings
    as `describe` writes them and these further words, and its process these options."""

    def __init__(self, work, cells, slow, channels=(0x41,), segment=None, words=(), describe=settings, **options):
        self.log = os.path.join(work, "log")
        self.began = time.monotonic()
        server = socket.create_server(("127.0.0.1", 0))
        server.settimeout(30)
        ports = free_ports(cells)
        file = os.path.join(work, "settings.toml")
        with open(file, "w") as text:
            text.write(describe(server.getsockname()[1], ports, channels))
        with open(self.log, "w") as log:
            self.process = subprocess.Popen([proved_program(), "run", "--config", file, *words], stderr=log, **options)
        self.switch = server.accept()[0]
        server.close()
        self.stations = [None] + [connect(port, number in slow, segment) for number, port in enumerate(ports, 1)]
        for link in [self.switch] + self.stations[1:]:
            link.settimeout(PATIENCE)
            link.setsockopt(socket.IPPROTO_TCP, socket.TCP_NODELAY, 1)
        self.peers = [None] + ["{}:{}".format(*station.getsockname()) for station in self.stations[1:]]
        self.names = {"switch": "switch"}  # of a link: its name in the log, once it is open
        for number, peer in enumerate(self.peers[1:], 1):
            self.names[f"cell {number}"] = f"cell {number} ({peer})"
        self.references = {}  # of a cell's call: that of bsc
        self.sent = {}  # of a cell's call: how many numbered messages went up

    def lines(self):
        """The lines of the log, without their levels."""
        with open(self.log) as log:
            return [re.sub(r"^\[(INFO|WARN|ERROR) ?\] ", "", line) for line in log.read().splitlines()]

    def told(self, cell):
        """What the log tells of a cell's link, once it is open."""
        name = self.names[f"cell {cell}"] + ": "
        return [line.removeprefix(name) for line in self.lines() if line.startswith(name)]

    def await_line(self, cell, begin, when):
        """Waits for a line of the log that tells this of a cell's link."""
        for _ in range(50):
            if any(line.startswith(begin) for line in self.told(cell)):
                return
            time.sleep(0.1)
        raise Wrong(f"{when}: the log tells {self.told(cell)} of cell {cell}, and not: {begin}")

    def resident(self):
        """VmRSS, in KiB."""
        with open(f"/proc/{self.process.pid}/status") as status:
            return int(re.search(r"VmRSS:\s+(\d+)", status.read()).group(1))

    def processor_time(self):
        """Seconds that the program has taken of processors."""
        with open(f"/proc/{self.process.pid}/stat") as stat:
            user, system = stat.read().rpartition(")")[2].split()[11:13]
        return (int(user) + int(system)) / os.sysconf("SC_CLK_TCK")

    def get(self, link, stream, octets, what):
        try:
            found = play.next_frame(link)
        except OSError as fault:
            raise Wrong(f"{what}: no frame: {fault}") from fault
        if found != (stream, octets):
            raise Wrong(f"{what}: got {found[1].hex(' ')}, and not {octets.hex(' ')}")

    def to_switch(self, octets, what):
        self.get(self.switch, play.SCCP, octets, what)

    def begin_call(self, cell):
        """The access of a mobile in this cell, up to the switch's CC: the first steps of the call that an example plays."""
        reference = len(self.references) + 1
        self.references[cell] = reference
        self.sent[cell] = 1
        station = self.stations[cell]
        for who, what, text in play.CALL[:7]:
            octets = bytearray.fromhex(text)
            if what.startswith("IMMEDIATE"):
                octets[11:13] = (0x20, 10 + 10 * cell)
            if what.startswith("CR "):
                octets[1:4] = reference.to_bytes(3, "big")
                octets[24] = cell
            if what == "CC":
                octets[1:4] = reference.to_bytes(3, "big")
                octets[4:7] = (0x800000 | reference).to_bytes(3, "big")
            link, stream = (self.switch, play.SCCP) if "switch" in who else (station, play.ABIS)
            if who.startswith("bsc"):
                self.get(link, stream, bytes(octets), f"cell {cell}: {what}")
            else:
                link.sendall(play.frame(stream, bytes(octets)))

    def up(self, cell, data):
        """A frame with a message of the mobile, in its number's turn, and the frame that the switch is to get."""
        number = self.sent[cell] % 4
        self.sent[cell] += 1
        message = bytes([0x03, number << 6 | 0x05]) + data
        indication = bytes.fromhex("03 02 01 41 02 00 0b") + len(message).to_bytes(2, "big") + message
        dtap = bytes([0x01, 0x00, len(message)]) + message
        far = (0x800000 | self.references[cell]).to_bytes(3, "big")
        return indication, bytes([0x06]) + far + bytes([0x00, 0x01, len(dtap)]) + dtap

    def down(self, cell, data):
        """A frame with a message of the switch, and the frame that the station is to get."""
        message = bytes([0x83, 0x02]) + data
        dtap = bytes([0x01, 0x00, len(message)]) + message
        near = self.references[cell].to_bytes(3, "big")
        request = bytes.fromhex("03 01 01 41 02 00 0b") + len(message).to_bytes(2, "big") + message
        return bytes([0x06]) + near + bytes([0x00, 0x01, len(dtap)]) + dtap, request

    def is_to_clear(self, cell, when):
        """The switch gets a CLEAR REQUEST of this cell's call: equipment failure."""
        far = (0x800000 | self.references[cell]).to_bytes(3, "big")
        self.to_switch(bytes([0x06]) + far + bytes.fromhex("00 01 06 00 04 22 04 01 20"), f"{when}: CLEAR REQUEST of cell {cell}")

    def is_shut(self, cell, when):
        """The station gets no more octets, and sees that its link is shut."""
        try:
            got = self.stations[cell].recv(65536)
        except ConnectionResetError:
            return
        except OSError as fault:
            raise Wrong(f"{when}: the link of cell {cell} isn't shut: {fault}") from fault
        if got:
            raise Wrong(f"{when}: cell {cell} got {got.hex(' ')}")

    def relays(self, when):
        """A message each way over the link of the station that behaves; the answer is how long it took."""
        begin = time.monotonic()
        data = when.encode()[:100]
        sent, wanted = self.up(GOOD, data)
        self.stations[GOOD].sendall(play.frame(play.ABIS, sent))
        self.to_switch(wanted, f"{when}: up")
        sent, wanted = self.down(GOOD, data)
        self.switch.sendall(play.frame(play.SCCP, sent))
        self.get(self.stations[GOOD], play.ABIS, wanted, f"{when}: down")
        if self.process.poll() is not None:
            raise Wrong(f"{when}: the program has ended, status {self.process.returncode}")
        return time.monotonic() - begin
