# SPDX-License-Identifier: MIT OR Apache-2.0
"""A call over osmo-bsc, with a handover at which a message of the mobile comes late on the old channel: the frames on its links, as
lines for `bsc judge`. Stations and switch are played here, as bench/front.c plays them; osmo-bts-omldummy does OML. All is at one
loopback address of this process's own, since osmo-bsc's ports can't be set.
"""
import os
import select
import socket
import subprocess
import time

PROGRAMS = ("osmo-bsc", "osmo-bts-omldummy")
PATIENCE = 40.0  # seconds for what has to come, on a loaded machine
RSL_PORT, TERMINAL = 3003, 4242
RSL, SCCP, CCM = 0x00, 0xFD, 0xFE
SWITCH = 0  # the link; 1 and 2 are those of the stations
SETTINGS = """log stderr
 logging level set-all error
line vty
 bind {host}
ctrl
 bind {host}
e1_input
 e1_line 0 driver ipa
 ipa bind {host}
cs7 instance 0
 point-code 0.23.3
 asp asp-msc {switch} 0 ipa
  remote-ip {host}
  local-ip {host}
  role asp
  sctp-role client
 as as-msc ipa
  asp asp-msc
  routing-key 0 0.23.3
  point-code override dpc 0.23.1
 sccp-address msc
  routing-indicator PC
  point-code 0.23.1
  subsystem-number 254
network
 network country code 001
 mobile network code 01
 encryption a5 0
 neci 1
 allow-unusable-timeslots
 handover 1
{cells}msc 0
 msc-addr msc
 asp-protocol ipa
 codec-list fr1 hr1
bsc
 mid-call-timeout 0
"""
CELL = """ bts {index}
  type osmo-bts
  band GSM900
  cell_identity {number}
  location_area_code 1
  base_station_id_code {bsic}
  ipa unit-id {number} 0
  oml ipa stream-id 255 line 0
  codec-support fr
  gprs mode none
  trx 0
   rf_locked 0
   arfcn {arfcn}
   nominal power 23
   max_power_red 20
   rsl e1 tei 0
   timeslot 0
    phys_chan_config CCCH
{timeslots}"""
TIMESLOTS = "".join(f"   timeslot {number}\n    phys_chan_config SDCCH8\n" for number in range(1, 8))
CHANNEL_REQUIRED = "0c 13 01 88 13 7f 00 00 11 00"
INITIAL = "05 24 71 03 33 19 81 05 f4 00 00 00 01"
CONFIRMED, CONNECTION_REQUEST, REFERENCE = 0x02, 0x01, "800001"
RESET_ACKNOWLEDGE = "09 00 03 05 07 02 42 fe 02 42 fe 03 00 01 31"


class Fault(Exception):
    """What didn't come about."""


def octets(text):
    return bytes.fromhex(text)


class Player:
    """The stations and the switch round an osmo-bsc that runs in this folder."""

    def __init__(self, folder):
        self.folder, self.running, self.lines, self.held = folder, [], [], {}
        self.host = f"127.{64 + os.getpid() % 60}.{os.getpid() // 60 % 250 + 1}.1"
        self.server = socket.create_server((self.host, 0))
        self.links, self.came = {}, []  # frames that nobody waited for yet: link, octets
        self.is_reset = False

    # ---- links

    def start(self):
        cells = "".join(CELL.format(index=number - 1, number=number, arfcn=18 + 2 * number, bsic=8 + number, timeslots=TIMESLOTS)
                        for number in (1, 2))
        path = os.path.join(self.folder, "osmo-bsc.cfg")
        with open(path, "w") as file:
            file.write(SETTINGS.format(host=self.host, switch=self.server.getsockname()[1], cells=cells))
        self.run("osmo-bsc", "-c", path)
        self.server.settimeout(PATIENCE)
        self.accept()
        for number in (1, 2):
            self.run("osmo-bts-omldummy", self.host, str(number), "1")
        end = time.monotonic() + PATIENCE
        for number in (1, 2):
            self.connect(number, end)
        while not (self.is_reset and len(self.ready()) == 2):
            self.turn(end, "osmo-bsc has its links")
        self.came.clear()

    def run(self, *words):
        with open(os.path.join(self.folder, f"{words[0]}.log"), "ab") as log:
            self.running.append(subprocess.Popen(words, cwd=self.folder, stdout=log, stderr=log))

    def ready(self):
        """The stations that osmo-bsc has told something by RSL."""
        return {link for link, _ in self.came if link != SWITCH}

    def accept(self):
        """The link of osmo-bsc to the switch."""
        self.links[SWITCH], self.held[SWITCH] = self.server.accept()[0], b""
        self.put(SWITCH, CCM, "04 01 01 01 08 01 00")

    def connect(self, number, end):
        """The RSL of a station, which osmo-bsc ends where OML isn't done yet."""
        while time.monotonic() < end:
            try:
                self.links[number] = socket.create_connection((self.host, RSL_PORT))
                self.held[number] = b""
                return
            except OSError:
                time.sleep(0.2)
        raise Fault("nobody listens for RSL")

    def put(self, link, stream, text):
        body = octets(text)
        self.links[link].sendall(len(body).to_bytes(2, "big") + bytes([stream]) + body)
        if stream != CCM:
            self.note(link, True, body)

    def note(self, link, is_to_bsc, body):
        ends = (f"station {link}" if link else "switch", "bsc")[::1 if is_to_bsc else -1]
        self.lines.append("\t".join([str(len(self.lines) + 1), *ends, "RSL" if link else "SCCP", "sent", body.hex()]))

    def turn(self, end, what):
        """Takes what has come."""
        if time.monotonic() > end:
            raise Fault(f"it took too long until {what}")
        for one in select.select(list(self.links.values()), [], [], 0.2)[0]:
            link = next(number for number, other in self.links.items() if other is one)
            piece = self.read(one)
            if not piece:  # osmo-bsc ends links at its start
                time.sleep(0.3)
                self.connect(link, end) if link else self.accept()
                continue
            rest = self.held[link] + piece
            while len(rest) > 2 and len(rest) >= (size := 3 + int.from_bytes(rest[:2], "big")):
                self.take(link, rest[2], rest[3:size])
                rest = rest[size:]
            self.held[link] = rest

    @staticmethod
    def read(link):
        try:
            return link.recv(65536)
        except OSError:
            return b""

    def take(self, link, stream, body):
        """CCM and RESET are answered; all else is kept."""
        if stream == CCM:
            answer = {0x00: "01", 0x04: f"05 00 07 08 {f'{link}/0/0'.encode().hex()} 00" if link else "", 0x05: "" if link else "06",
                      0x06: "06" if link else ""}.get(body[0], "")
            if answer:
                self.put(link, CCM, answer)
            return
        self.note(link, False, body)
        if link == SWITCH and body[0] == 0x09 and body[-4] == 0x30:
            self.is_reset = True
            self.put(SWITCH, SCCP, RESET_ACKNOWLEDGE)
        else:
            self.came.append((link, body))

    def wait_for(self, link, front):
        """The next frame of a link that begins so; what came before it on the same link is passed over."""
        end = time.monotonic() + PATIENCE
        while True:
            for place, (source, body) in enumerate(self.came):
                if source == link and body.startswith(octets(front)):
                    del self.came[:place + 1]
                    return body
            self.turn(end, f"{front} came from osmo-bsc over link {link}")

    # ---- the call

    def rsl(self, station, text):
        self.put(station, RSL, text)

    def access(self, station):
        """The channel of a call that is open."""
        self.rsl(station, CHANNEL_REQUIRED)
        channel = self.activated(station)
        self.wait_for(station, "0c 16")
        self.rsl(station, f"02 06 01 {channel:02x} 02 00 0b 00 0d {INITIAL}")
        request = self.wait_for(SWITCH, "01")
        self.reference = request[1:4].hex()
        self.put(SWITCH, SCCP, f"02 {self.reference} {REFERENCE} 02 00")
        return channel

    def activated(self, station):
        channel = self.wait_for(station, "08 21")[3]
        self.rsl(station, f"08 22 01 {channel:02x} 08 00 00")
        return channel

    def tells(self, station, channel, text):
        size = len(octets(text))
        self.rsl(station, f"03 02 01 {channel:02x} 02 00 0b 00 {size:02x} {text}")

    def hands_over(self, channel):
        """To station 2; gives the channel there."""
        self.terminal(f"bts 0 trx 0 timeslot {channel & 7} sub-slot {channel >> 3 & 7} handover 1")
        return self.activated(2)

    def terminal(self, command):
        with socket.create_connection((self.host, TERMINAL), 10) as link:
            for words in ("enable", command):
                link.sendall(f"{words}\r\n".encode())
                time.sleep(0.3)
            link.settimeout(1)
            try:
                return link.recv(4096).decode(errors="replace")
            except TimeoutError:
                return ""

    def end(self):
        for process in self.running:
            process.kill()
            process.wait()
        for link in [*self.links.values(), self.server]:
            link.close()


def play(folder):
    """The lines of the call. The mobile sends numbers 1 and 2 on the old channel; 2 comes behind 3, which it sends on the new one."""
    player = Player(folder)
    try:
        player.start()
        old = player.access(1)
        player.tells(1, old, "03 45 aa 01")
        player.wait_for(SWITCH, "06")
        new = player.hands_over(old)
        player.wait_for(1, f"03 01 01 {old:02x}")
        player.rsl(2, f"08 27 01 {new:02x} 11 00")
        player.rsl(2, f"02 06 01 {new:02x} 02 00")
        player.tells(2, new, "06 2c 00")
        player.wait_for(1, f"08 2e 01 {old:02x}")
        player.tells(2, new, "03 c5 aa 03")
        player.tells(1, old, "03 85 aa 02")
        player.rsl(1, f"08 33 01 {old:02x}")
        player.tells(2, new, "03 05 aa 04")
        while not octets("0305aa04") in player.wait_for(SWITCH, "06"):
            pass
        return player.lines
    finally:
        player.end()


if __name__ == "__main__":
    import tempfile
    with tempfile.TemporaryDirectory() as room:
        print(*play(room), sep="\n")
