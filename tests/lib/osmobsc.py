# SPDX-License-Identifier: MIT OR Apache-2.0
"""What osmo-bsc says to a base station of each case, by OML and RSL, recorded between it and osmo-bts-virtual.

As a program, in a network namespace of its own: `osmobsc.py CASE COUNT` prints that many messages, each its stream and its octets.
"""
import os
import select
import socket
import subprocess
import sys
import tempfile
import threading
import time

PROGRAMS = ("osmo-bsc", "osmo-bts-virtual", "unshare", "ip")
PATIENCE = 60.0  # seconds for what has to come, on a loaded machine
QUIET = 1.0  # seconds behind the last message, for one that is too many
OML_PORT, RSL_PORT = 3002, 3003
OWN, STATION = "127.0.0.1", "127.0.0.2"  # where osmo-bsc is, and where the station finds it: between them is the recorder

LOG = """log stderr
 logging filter all 1
 logging color 0
 logging level set-all notice
line vty
 bind {host}
ctrl
 bind {host}
"""
CONTROLLER = LOG + """e1_input
 e1_line 0 driver ipa
 ipa bind 127.0.0.1
cs7 instance 0
 point-code 0.23.3
 asp asp-0 5001 0 ipa
  remote-ip 127.0.0.1
  local-ip 127.0.0.1
  role asp
  sctp-role client
 as as-0 ipa
  asp asp-0
  routing-key 0 0.23.3
network
 network country code 001
 mobile network code 01
{network}
 bts 0
  type osmo-bts
  band {band}
  cell_identity 1
  location_area_code 1
  base_station_id_code 9
  ipa unit-id 1 0
  oml ipa stream-id 255 line 0
{cell}
  neighbor-list mode manual
{neighbours}
  gprs mode none
  trx 0
   rf_locked 0
   arfcn {arfcn}
   nominal power 23
   max_power_red 0
   rsl e1 tei 0
{timeslots}
msc 0
"""
VIRTUAL = LOG + """phy 0
 virtual-um net-device lo
 virtual-um ttl 0
 instance 0
bts 0
 band {band}
 ipa unit-id 1 0
 oml remote-ip 127.0.0.2
 pcu-socket {folder}/packet-control
 trx 0
  phy 0 instance 0
"""
TIMESLOTS = ("CCCH+SDCCH4", "SDCCH8", "TCH/F", "TCH/H", "TCH/F", "TCH/F", "TCH/F", "TCH/F")
CHANNELS = (0x20, 0x41, 0x0A, 0x13, 0x0C, 0x0D, 0x0E, 0x0F)  # the same by the numbers of bsc's settings

# By name: band, ARFCN, ARFCNs of neighbours, lines of osmo-bsc for the network and for the cell, and the front's keys for that.
CASES = {
    "gsm900": ("GSM900", 20, (30, 40), (), (), {}),
    "dcs1800": ("DCS1800", 871, (860, 880), (), (), {}),
    "pcs1900": ("PCS1900", 600, (650, 661), (), (), {"band": "PCS1900"}),
    "gsm900-2ter": ("GSM900", 20, (1, 124, 512, 600), ("neci 1", "periodic location update 60"), ("ms max power 33", "rxlev access min 5",
                    "cell reselection hysteresis 8", "rach emergency call allowed 1",
                    "channel-description bs-ag-blks-res 2"),
                    {"neci": True, "ms_power_dbm": 33, "rxlev_access_min": 5, "cell_reselect_hysteresis": 8,
                     "emergency_calls": True, "t3212_minutes": 60, "agch_blocks": 2}),
    "dcs1800-2ter": ("DCS1800", 871, (20, 30, 885), ("periodic location update 1530",), ("ms max power 30", "cell barred 1"),
                     {"ms_power_dbm": 30, "barred": True, "t3212_minutes": 1530}),
    "pcs1900-barred": ("PCS1900", 512, (513, 601), (), ("ms max power 33", "cell barred 1"),
                       {"band": "PCS1900", "ms_power_dbm": 33, "barred": True}),
}

# What of osmo-bsc's the front doesn't say: GET ATTRIBUTES, what is GPRS's, what only Osmocom's stations know, and a type of system
# information that isn't sent, and so has no octets
GET_ATTRIBUTES, OPSTART = 0x81, 0x74
GPRS_CLASSES = (0xF0, 0xF1, 0xF2)
RSL, OML, OWN_OF_OSMOCOM = 0x00, 0xFF, 0x60
RSL_CONNECT = 0xE0
MANUFACTURER, NAME_OCTETS = 0x10, 14


def is_compared(stream, body):
    """Whether the front has to say this, too."""
    if stream == RSL:
        return not (body[1] == OWN_OF_OSMOCOM or body[:2] == b"\x0c\x11" and len(body) == 6 or body[:2] == b"\x10\x1a" and len(body) == 4)
    at = 4 + (NAME_OCTETS if body[0] == MANUFACTURER else 0)
    return stream == OML and body[at] not in (GET_ATTRIBUTES, RSL_CONNECT) and body[at + 1] not in GPRS_CLASSES


class Recorder:
    """Stands between the station and osmo-bsc, and keeps what osmo-bsc says."""

    def __init__(self):
        self.found = []
        self.last = time.monotonic()

    def listen(self, port):
        """Takes the station's links to a port, each in a thread."""
        server = socket.create_server((STATION, port))
        threading.Thread(target=self.take, args=(server, port), daemon=True).start()

    def take(self, server, port):
        while True:
            one = server.accept()[0]
            threading.Thread(target=self.pass_on, args=(one, port), daemon=True).start()

    def pass_on(self, station, port):
        """Passes on what both sides of a link say."""
        controller, octets = connect(port), b""
        while True:
            for side in select.select((station, controller), (), ())[0]:
                try:
                    piece = side.recv(65536)
                except OSError:
                    piece = b""
                if not piece:
                    station.close()
                    controller.close()
                    return
                if side is controller:
                    octets = self.keep(octets + piece)
                (station if side is controller else controller).sendall(piece)

    def keep(self, octets):
        """Keeps whole frames that are compared; gives the rest."""
        while len(octets) >= 3 and len(octets) >= (end := 3 + int.from_bytes(octets[:2], "big")):
            if is_compared(octets[2], octets[3:end]):
                self.found.append((octets[2], octets[3:end]))
                self.last = time.monotonic()
            octets = octets[end:]
        return octets


def connect(port):
    """Connects to osmo-bsc, as soon as it listens."""
    end = time.monotonic() + PATIENCE
    while True:
        try:
            return socket.create_connection((OWN, port))
        except ConnectionRefusedError:
            if time.monotonic() > end:
                raise
            time.sleep(0.05)


def record(name, count):
    """Records so many messages, and those that come shortly behind them."""
    band, arfcn, neighbours, network, cell, _ = CASES[name]
    for words in ("link set lo up", "link set lo multicast on", "route add 239.0.0.0/8 dev lo"):
        subprocess.run(["ip", *words.split()], check=True)
    recorder = Recorder()
    for port in (OML_PORT, RSL_PORT):
        recorder.listen(port)
    with tempfile.TemporaryDirectory() as folder:
        texts = {"osmo-bsc": CONTROLLER.format(
            host=OWN, band=band, arfcn=arfcn, network="\n".join(f" {line}" for line in network),
            cell="\n".join(f"  {line}" for line in cell), neighbours="\n".join(f"  neighbor-list add arfcn {one}" for one in neighbours),
            timeslots="\n".join(f"   timeslot {index}\n    phys_chan_config {kind}" for index, kind in enumerate(TIMESLOTS))),
            "osmo-bts-virtual": VIRTUAL.format(host=STATION, band=band, folder=folder)}
        running = []
        for program, text in texts.items():
            path = os.path.join(folder, f"{program}.cfg")
            with open(path, "w") as file:
                file.write(text)
            with open(os.path.join(folder, f"{program}.log"), "w") as log:
                running.append(subprocess.Popen([program, "-c", path], stderr=log, stdout=log, cwd=folder))
        end = time.monotonic() + PATIENCE
        while time.monotonic() < end and (len(recorder.found) < count or time.monotonic() < recorder.last + QUIET):
            time.sleep(0.05)
        for process in running:
            process.kill()
            process.wait()
    return recorder.found


if __name__ == "__main__":
    for stream, body in record(sys.argv[1], int(sys.argv[2])):
        print(f"{stream:02x} {body.hex()}")
