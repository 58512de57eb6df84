# SPDX-License-Identifier: MIT OR Apache-2.0
"""The front with a stub of bsc, and with stations and a switch in Python: neither the proved program is wanted nor a package."""
import json
import os
import socket
import subprocess
import sys
import tempfile

from lib.front import FRONT, FRONT_SETTINGS, SETTINGS, SILENCE
from lib.peers import PATIENCE, Peers, Station, Switch, Wrong
from lib.ports import free_ports
from lib.stub import Stub


class Alone:
    """A front that is tried; its peers are started by the script."""

    def __init__(self, work, before=None, own=""):
        """Starts it. `before` is called in its process before the front is; `own` is more of the settings' table [switch]."""
        self.work, self.peers = work, Peers()
        bsc, oml, rsl, switch, *self.cells = free_ports(6)
        self.ports = {"bsc": bsc, "oml": oml, "rsl": rsl, "switch": switch}
        self.write("bsc.toml", SETTINGS.format(timer=10000, drain=1000, switch=bsc, cells=self.cells))
        text = FRONT_SETTINGS.format(oml=oml, rsl=rsl, silence=int(SILENCE * 1000), work=work, switch=switch)
        self.write("front.toml", text + own)
        words = [sys.executable, "-B", FRONT, "run", "--config", "bsc.toml", "--front", "front.toml"]
        with open(os.path.join(work, "front.log"), "wb") as log:
            self.process = subprocess.Popen(words, cwd=work, stderr=log, preexec_fn=before)
        self.wait_for(self.status, "the front answers")
        self.bsc = None
        self.switch = Switch(self.peers, ("127.0.0.1", switch))
        self.stations = {number: Station(self.peers, number, ("127.0.0.1", oml)) for number in (1, 2)}

    def write(self, name, text):
        with open(os.path.join(self.work, name), "w") as file:
            file.write(text)

    def start_bsc(self):
        """Starts the stub: each cell is joined to it."""
        self.bsc = Stub(self.peers, self.cells, self.ports["bsc"])
        self.wait_for(lambda: all(cell.link for cell in self.bsc.cells.values()), "links of the cells")

    def start(self, *stations):
        """Starts the stub, the switch and these stations."""
        self.start_bsc()
        self.switch.start()
        for number in stations:
            self.stations[number].start()
            self.present(number)
        self.wait_for(lambda: self.switch.is_reset and self.status()[-1]["switch"]["reset"], "RESET")

    def present(self, number):
        """Waits until a station is there."""
        self.wait_for(lambda: self.stations[number].is_there() and self.status()[number - 1]["station"]["there"], f"station {number}")

    def activate(self, number, channel=0x41):
        """Has a channel of a station activated."""
        cell, station = self.bsc.cells[number], self.stations[number]
        cell.send(f"08 21 01 {channel:02x} 03 01 00 04 00 01")
        self.wait_for(lambda: station.frames, "an activation")
        station.frames.clear()
        station.send(f"08 22 01 {channel:02x} 08 00 00")
        self.wait_for(lambda: any(body[:2] == b"\x08\x22" for _, body in cell.frames), "its acknowledgement")
        cell.frames.clear()

    def wait_for(self, wanted, what):
        """Waits until something is so, while the front runs."""
        def look():
            if self.process.poll() is not None:
                raise Wrong(f"{what}: the front has ended, status {self.process.returncode}")
            return wanted()
        return self.peers.until(look, what)

    def status(self):
        """What the front answers at its local socket: its lines, or none where it isn't there yet."""
        with socket.socket(socket.AF_UNIX) as own:
            own.settimeout(PATIENCE)
            try:
                own.connect(os.path.join(self.work, "status"))
            except OSError:
                return []
            with own.makefile() as answer:
                return [json.loads(line) for line in answer]

    def log(self):
        """What the front has said."""
        with open(os.path.join(self.work, "front.log"), errors="replace") as log:
            return log.read().splitlines()

    def said(self, text):
        """Waits for a line with this text, and gives it."""
        return self.wait_for(lambda: [line for line in self.log() if text in line], f"the log has '{text}'")[0]

    def end(self):
        """Ends the front."""
        self.process.kill()
        self.process.wait()


def tried(rows, act, **words):
    """Tries a front in a folder of its own; what isn't as it should be is a fault of the rows."""
    with tempfile.TemporaryDirectory() as work:
        alone = None
        try:
            alone = Alone(work, **words)
            act(alone)
        except (Wrong, OSError) as fault:
            rows.faults.append(f"{act.__name__}: {fault}; the log ends with {alone.log()[-10:] if alone else None}")
        finally:
            if alone:
                alone.end()
