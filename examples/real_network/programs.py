# SPDX-License-Identifier: MIT OR Apache-2.0
"""The programs of examples/network, started each when what it needs is there. Not proved."""
import os
import sys

from real_network import osmocom, transfer_point
from real_network.processes import Process, Processes, terminal, write

# IMSI and number of the two subscribers
CALLER = "001010000000001", "1001"
CALLED = "001010000000002", "1002"
# the links of the relay: the front is at the switch's port and, before it, at those of the cells
OWN_LINKS = "src host 127.0.0.1 and dst host 127.0.0.1 and (tcp port 3003 or tcp port 3004 or tcp port 5000)"


class Network:
    """All programs of a trial. The relay is what is behind the front."""

    def __init__(self, processes: Processes, top: str, relay: list[str], preload: dict[str, str], is_through_point: bool,
                 is_captured: bool = False) -> None:
        self.processes = processes
        self.is_captured = is_captured  # what crosses the relay's links, in a file
        self.top = top
        self.modules = {"PYTHONPATH": os.pathsep.join(os.path.join(top, folder) for folder in ("front", "examples"))}
        self.relay_words = relay
        self.preload = preload
        self.is_through_point = is_through_point  # osmo-stp is between the front and the switch
        self.front: Process | None = None
        self.stations: dict[int, Process] = {}
        self.lives: dict[str, int] = {}  # of each program that may be started again
        folder = processes.folder
        for name, text in (("register.cfg", osmocom.REGISTER), ("gateway.cfg", osmocom.GATEWAY),
                           ("switch.cfg", transfer_point.switch(folder) if is_through_point else osmocom.SWITCH.format(folder=folder)),
                           ("transfer-point.cfg", transfer_point.POINT),
                           ("station-1.cfg", osmocom.STATION.format(number=1, folder=folder)),
                           ("station-2.cfg", osmocom.STATION.format(number=2, folder=folder)),
                           ("bsc.toml", osmocom.BSC.format(first="127.0.0.1")),
                           ("front-bsc.toml", osmocom.BSC.format(first="127.0.0.3")),
                           ("front.toml", osmocom.FRONT + (transfer_point.FRONT if is_through_point else ""))):
            write(folder, name, text)

    def start_front(self) -> None:
        """Starts the front, in its first life or a later one."""
        self.begin("front")
        self.front = self.processes.start(self.name("front"), [sys.executable, os.path.join(self.top, "front"), "run",
                                                             "--config", "front-bsc.toml", "--front", "front.toml"])
        self.front.wait_for("waiting for stations", 20)

    def start(self) -> None:
        """Starts everything but the mobiles."""
        start = self.processes.start
        if self.is_captured:
            start("capture", ["dumpcap", "-q", "-i", "lo", "-f", OWN_LINKS, "-w", "links.pcap"]).wait_for("File: ", 20)
        start("register", ["osmo-hlr", "-c", "register.cfg", "-l", "subscribers.db"])
        start("gateway", ["osmo-mgw", "-c", "gateway.cfg"])
        for imsi, number in (CALLER, CALLED):
            terminal(osmocom.REGISTER_TERMINAL, f"subscriber imsi {imsi} create",
                     f"subscriber imsi {imsi} update msisdn {number}")
        if self.is_through_point:
            start("transfer-point", ["osmo-stp", "-c", "transfer-point.cfg"])
        self.start_front()
        self.start_switch()
        self.start_relay()
        self.delay = start("delay", [sys.executable, "-m", "real_network.delay", "127.0.0.3:3003", "127.0.0.1:3003"], self.modules)
        self.delay.wait_for("listens", 20)
        self.front.wait_for("joined to bsc", 30, times=2)
        for number in (1, 2):
            self.start_station(number)
        for number in (1, 2):
            self.wait_for_station(number)

    def start_switch(self) -> None:
        """Starts the switch, in its first life or a later one, and waits until the front has reset it."""
        lives = self.begin("switch")
        self.switch = self.processes.start(self.name("switch"), ["osmo-msc", "-c", "switch.cfg"], self.preload)
        self.front.wait_for("acknowledged RESET", 30, times=lives)

    def start_relay(self) -> None:
        """Starts the relay, in its first life or a later one."""
        self.begin("relay")
        self.relay = self.processes.start(self.name("relay"), [*self.relay_words, "--config", "bsc.toml"], self.modules)
        self.relay.wait_for("switch: connected", 20)

    def start_station(self, number: int) -> None:
        """Starts a base station, in its first life or a later one."""
        name = f"station-{number}"
        self.begin(name)
        self.stations[number] = self.processes.start(self.name(name), ["osmo-bts-virtual", "-c", f"{name}.cfg"])

    def wait_for_station(self, number: int, times: int | None = None) -> None:
        """Waits until a station is configured and joined, in this life; or for so many of its lives with this life of the front."""
        for text in (f"configured as cell {number}", f"there, in cell {number}"):
            self.front.wait_for(text, 30, times=times or self.lives[f"station-{number}"])

    def begin(self, name: str) -> int:
        """Counts a life of a program; gives which one it is."""
        self.lives[name] = self.lives.get(name, 0) + 1
        return self.lives[name]

    def name(self, name: str) -> str:
        """The name of a program in this life, and of its log."""
        return name if self.lives[name] == 1 else f"{name}-life-{self.lives[name]}"

    def mobile(self, name: str, imsi: str, arfcn: int) -> Process:
        """Starts a mobile."""
        mobile = self.processes.start(name, [sys.executable, "-u", os.path.join(self.top, "tools", "mobile"), "--imsi", imsi,
                                             "--arfcn", str(arfcn), "--name", name])
        mobile.wait_for("camped", 30)
        return mobile
