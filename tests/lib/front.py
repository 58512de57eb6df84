# SPDX-License-Identifier: MIT OR Apache-2.0
"""The built program behind the front, with the stations and the switch of lib/peers.py, and calls over them."""
import json
import os
import socket
import subprocess
import sys
import tempfile

from lib.common import TOP, proved_program
from lib.peers import PATIENCE, Peers, Station, Switch, Wrong
from lib.player import play
from lib.ports import free_ports

FRONT = TOP / "front"
TIMER = 10000  # T3101, T3103 and T3107 of the settings, in milliseconds: no script waits for them
DRAIN = 20000  # milliseconds
SILENCE = 10.0  # seconds after which the front takes a silent peer for gone

SETTINGS = """[network]
mcc = "001"
mnc = "01"
[timers]
t3101_ms = {timer}
t3103_ms = {timer}
t3107_ms = {timer}
drain_ms = {drain}
[switch]
address = "127.0.0.1:{switch}"
[[cell]]
listen = "127.0.0.1:{cells[0]}"
lac = 1
ci = 1
arfcn = 20
bsic = 9
channels = [0x41, 0x0a]
[[cell]]
listen = "127.0.0.1:{cells[1]}"
lac = 1
ci = 2
arfcn = 30
bsic = 18
channels = [0x41, 0x0a]
"""
FRONT_SETTINGS = """status_socket = "{work}/status"
[station]
oml = "127.0.0.1:{oml}"
rsl = "127.0.0.1:{rsl}"
t3109_ms = 20
t3111_ms = 20
silence_ms = {silence}
[switch]
listen = "127.0.0.1:{switch}"
silence_ms = {silence}
"""


ACCESS = play.CALL[:7]  # of a mobile, up to the switch's CC
ASSIGNMENT = play.CALL[11:19]  # from ASSIGNMENT REQUEST to the release of the SDCCH
CLEARING = play.CALL[33:]  # of a call on the TCH
CLEARED = [step for step in CLEARING if "switch" in step[0]][1:]  # what the switch gets and says behind CLEAR COMMAND
# where the call's frames of cell 1 say so, and what those of cell 2 have there: channel description, cell identity
CELL_AT = {"IMMEDIATE ASSIGN COMMAND": 11, "DATA REQUEST with ASSIGNMENT COMMAND": 12, "CR with COMPLETE LAYER 3 INFORMATION": 24}
# what the front adds to an activation: MS Power, which is 15 dBm (level 14), and the access delay of the call as Timing Advance
RADIO = {"CHANNEL ACTIVATION of an SDCCH": "0d 0e 18 05", "CHANNEL ACTIVATION of a TCH": "0d 0e 18 05",
         "CHANNEL ACTIVATION for a handover": "0d 0e"}
HANDOVER_REFERENCE = 13  # its octet in an activation
CELL_2 = {11: (0x40, 30), 12: (0x40, 30), 24: (2,)}


class Front:
    """Settings, processes and peers of a script, in a folder of its own."""

    def __init__(self, work, drain=DRAIN):
        self.work = work
        self.program = proved_program()
        self.running = {}
        self.lives = 0  # of bsc
        self.peers = Peers()
        bsc, oml, rsl, switch, *self.cells = free_ports(6)
        self.oml = ("127.0.0.1", oml)
        self.write("bsc.toml", SETTINGS.format(timer=TIMER, drain=drain, switch=bsc, cells=self.cells))
        self.write("front.toml", FRONT_SETTINGS.format(oml=oml, rsl=rsl, silence=int(SILENCE * 1000), work=work, switch=switch))
        self.stations = {number: Station(self.peers, number, self.oml) for number in (1, 2)}
        self.switch = Switch(self.peers, ("127.0.0.1", switch))

    def write(self, name, text):
        with open(os.path.join(self.work, name), "w") as file:
            file.write(text)

    def start(self, name):
        """Starts 'bsc' or 'front'."""
        self.lives += name == "bsc"
        front = [sys.executable, "-B", FRONT, "run", "--config", "bsc.toml", "--front", "front.toml"]
        words = [self.program, "run", "--config", "bsc.toml"] if name == "bsc" else front
        with open(os.path.join(self.work, f"{name}.log"), "ab") as log:
            self.running[name] = subprocess.Popen(words, stderr=log, cwd=self.work)

    def kill(self, name):
        """Kills a process, by its id."""
        process = self.running.pop(name)
        process.kill()
        process.wait()

    def log(self, name):
        """What a process has said, in all its lives."""
        path = os.path.join(self.work, f"{name}.log")
        if not os.path.exists(path):
            return []
        with open(path) as log:
            return log.read().splitlines()

    def begin(self, *stations):
        """Starts the front, the switch, bsc and these stations, and waits until all of them are joined."""
        self.start("front")
        self.switch.start()
        self.wait_for(self.ask, "the front answers")
        self.start("bsc")
        for number in stations:
            self.stations[number].start()
        self.joined(*stations)

    def joined(self, *stations):
        """Waits until bsc, the switch and these stations are joined."""
        self.wait_for(lambda: all(self.cell(number)["bsc"]["there"] for number in (1, 2)), "bsc is joined to each cell")
        self.wait_for(lambda: self.other()["bsc"]["there"], "bsc is joined to the switch")
        self.wait_for(lambda: self.other()["switch"]["there"] and self.other()["switch"]["reset"], "the switch is reset")
        self.wait_for(lambda: self.log("bsc").count("[INFO ] relaying") == self.lives, "bsc relays")
        for number in stations:
            self.present(number)

    def present(self, number):
        """Waits until a station is there."""
        self.wait_for(lambda: self.stations[number].is_there() and self.cell(number)["station"]["there"], f"station {number} is there")

    def away(self, number):
        """Waits until the front knows that a station is away."""
        self.wait_for(lambda: not self.cell(number)["station"]["there"], f"station {number} is away")

    def wait_for(self, wanted, what):
        """Waits until something is so, while all processes run."""
        def look():
            for name, process in self.running.items():
                if process.poll() is not None:
                    raise Wrong(f"{what}: {name} has ended, status {process.returncode}")
            return wanted()
        return self.peers.until(look, what)

    def ask(self):
        """What the front answers at its local socket: its lines, or none where it isn't there yet."""
        with socket.socket(socket.AF_UNIX) as own:
            own.settimeout(PATIENCE)
            try:
                own.connect(os.path.join(self.work, "status"))
            except OSError:
                return []
            with own.makefile() as answer:
                return [json.loads(line) for line in answer]

    def cell(self, number):
        """How it is with a cell."""
        lines = self.ask()
        return lines[number - 1] if lines else {"bsc": {"there": False}, "station": {"there": False}}

    def other(self):
        """How it is with switch and bsc."""
        return self.ask()[-1]

    def is_at_rest(self):
        """No channel is in use, and no connection is there."""
        return not any(self.cell(number)["channels"] for number in (1, 2)) and not self.other()["connections"]

    def links_lasted(self, process):
        """bsc is this process, and no link of it has ended."""
        if process.poll() is not None or self.running["bsc"] is not process:
            raise Wrong("bsc isn't the process that was started first")
        if ended := [line for line in self.log("bsc") if "link closed" in line or "failed" in line or "shut" in line]:
            raise Wrong(f"bsc tells of links that ended: {ended}")

    def end(self):
        """Ends all processes."""
        for name in list(self.running):
            self.kill(name)


class Call:
    """A call of examples/play-call over the front: its frames, with the references of this connection."""

    def __init__(self, front):
        self.front = front
        self.theirs = b""  # the other side's reference at the switch
        self.own = b""  # the switch's
        self.handover = 0  # handover reference, which bsc counts

    def play(self, steps, cell=None):
        """Plays steps. With a cell, all of them are there: access, assignment or clearing."""
        for who, what, text in steps:
            octets = bytearray.fromhex(text)
            if cell == 2 and (place := CELL_AT.get(what)):
                octets[place:place + len(CELL_2[place])] = CELL_2[place]
            name = who.removeprefix("bsc > ")
            if name == "switch":
                self.with_switch(who != name, bytes(octets), what)
                continue
            station = self.front.stations[cell or int(name[-1])]
            if who == name:
                station.send(octets.hex(" "))
            else:
                self.with_station(station, octets, what)

    def with_station(self, station, octets, what):
        """A frame that a station is to get; the handover reference is what bsc has given."""
        if what.endswith("for a handover"):
            self.handover = octets[HANDOVER_REFERENCE] = station.look(what)[HANDOVER_REFERENCE]
        elif what.endswith("HANDOVER COMMAND"):
            octets[-2] = self.handover
        station.wants((octets + bytes.fromhex(RADIO.get(what, ""))).hex(" "), what)

    def with_switch(self, is_wanted, octets, what):
        """A frame of the switch, or one that it is to get."""
        switch = self.front.switch
        if octets[0] == 0x01:
            found = switch.get(what)
            if found[:1] != b"\x01" or not found.endswith(octets[octets.index(0x0F):]):
                raise Wrong(f"switch: {what}: got {found.hex(' ')}")
            self.theirs = found[1:4]
        elif octets[0] == 0x02:
            self.own = switch.confirm(self.theirs)
        elif not is_wanted:
            switch.send(octets[:1] + self.theirs + (self.own if octets[0] == 0x04 else octets[4:7]) + octets[7:])
        elif octets[0] == 0x05:
            switch.wants(octets[:1] + self.own + self.theirs, what)
            del switch.connections[self.own]
        else:
            switch.wants(octets[:1] + self.own + octets[4:], what)

    def sends_up(self, cell, channel, number, data):
        """The mobile sends a message, numbered; what the switch is to get."""
        message = bytes([0x03, number % 4 << 6 | 0x05]) + data
        self.front.stations[cell].send(f"03 02 01 {channel:02x} 02 00 0b 00 {len(message):02x} {message.hex()}")
        dtap = bytes([0x01, 0x00, len(message)]) + message
        return bytes([0x06]) + self.own + bytes([0, 1, len(dtap)]) + dtap

    def sends_down(self, channel, data):
        """The switch sends a message; what the station is to get."""
        message = bytes([0x83, 0x02]) + data
        self.front.switch.data(self.own, (bytes([0x01, 0x00, len(message)]) + message).hex())
        return bytes.fromhex(f"03 01 01 {channel:02x} 02 00 0b 00 {len(message):02x}") + message

    def speaks(self, cell, channel, number, data):
        """A message each way."""
        self.front.switch.wants(self.sends_up(cell, channel, number, data), "a message of the mobile")
        self.front.stations[cell].wants(self.sends_down(channel, data).hex(" "), "a message of the switch")


def played(name, script, drain=DRAIN):
    """Plays a script, which gives a line to print, with all that it wants; gives the status."""
    with tempfile.TemporaryDirectory() as work:
        front = Front(work, drain)
        try:
            print(f"{name}: {script(front)}")
        except (Wrong, OSError) as fault:
            for program in ("bsc", "front"):
                print(f"-- {program}", *front.log(program)[-30:], sep="\n")
            print(front.ask(), f"{name}: {fault}", sep="\n")
            return 1
        finally:
            front.end()
    return 0
