# SPDX-License-Identifier: MIT OR Apache-2.0
"""A play of a mobile, stations, a BSC and a switch, written down as the lines for `bsc judge`: the octets of TS 48.058, TS 48.006, TS
48.008, TS 44.018 and Q.713, in as few elements as each message wants. Each line's number is its place.
"""
CM_SERVICE_REQUEST = "052471"  # MM, N(SD) 0
MAIN, SHORT = 0, 3


def layer_3(text):
    return f"0b{len(text) // 2:04x}{text}"


class Play:
    def __init__(self):
        self.lines = []

    def put(self, begin, end, octets, word="sent"):
        self.lines.append(f"{len(self.lines) + 1}\t{begin}\t{end}\tX\t{word}\t{octets.replace(' ', '')}")
        return self

    def up(self, station, octets):
        return self.put(f"station {station}", "bsc", octets)

    def down(self, station, octets):
        return self.put("bsc", f"station {station}", octets)

    # ---- Abis

    def activates(self, station, channel, reference=None):
        """CHANNEL ACTIVATION and its acknowledgement; with a handover reference for a handover."""
        kind, behind = (0, "") if reference is None else (2, f"09 {reference:02x}")
        self.down(station, f"08 21 01 {channel:02x} 03 {kind:02x} 06 04 00 03 01 00 {behind}")
        return self.up(station, f"08 22 01 {channel:02x} 08 0000")

    def establishes(self, station, channel, text=CM_SERVICE_REQUEST):
        return self.up(station, f"02 06 01 {channel:02x} 02 00" + (layer_3(text) if text else ""))

    def tells(self, station, channel, text, sapi=MAIN):
        return self.up(station, f"03 02 01 {channel:02x} 02 {sapi:02x}" + layer_3(text))

    def hands(self, station, channel, text, sapi=MAIN):
        return self.down(station, f"03 01 01 {channel:02x} 02 {sapi:02x}" + layer_3(text))

    def assigns(self, station, channel, target):
        """ASSIGNMENT COMMAND."""
        return self.hands(station, channel, f"062e{target:02x}000000")

    def sends_over(self, station, channel, cell, target, reference):
        """HANDOVER COMMAND; a cell is its description in four digits."""
        return self.hands(station, channel, f"062b{cell}{target:02x}0000{reference:02x}00")

    def completes(self, station, channel, kind="2c"):
        """ESTABLISH INDICATION, and COMPLETE, of a handover where no other kind is given."""
        return self.establishes(station, channel, "").tells(station, channel, f"06{kind}00")

    def returns(self, station, channel, kind="28"):
        """ESTABLISH INDICATION, and FAILURE."""
        return self.establishes(station, channel, "").tells(station, channel, f"06{kind}03")

    def releases(self, station, channel):
        return self.down(station, f"08 2e 01 {channel:02x}")

    def released(self, station, channel):
        return self.up(station, f"08 33 01 {channel:02x}")

    # ---- A interface; the BSC's reference is the connection's number, and the switch's too, from 800000 on

    def connects(self, number=1, text=CM_SERVICE_REQUEST):
        """CR with COMPLETE LAYER 3 INFORMATION."""
        data = f"57 05 01 00 17 {len(text) // 2:02x}{text}".replace(" ", "")
        data = f"00{len(data) // 2:02x}{data}"
        return self.put("bsc", "switch", f"01 {number:06x} 02 02 04 02 42 fe 0f {len(data) // 2:02x}{data} 00")

    def confirms(self, number=1):
        return self.put("switch", "bsc", f"02 {number:06x} {0x800000 + number:06x} 02 00")

    def dt1(self, is_up, number, data):
        ends = ("bsc", "switch") if is_up else ("switch", "bsc")
        return self.put(*ends, f"06 {number + 0x800000 * is_up:06x} 00 01 {len(data) // 2:02x}{data}")

    def relays(self, text, sapi=MAIN, number=1):
        return self.dt1(True, number, f"01{sapi:02x}{len(text) // 2:02x}{text}")

    def says(self, text, sapi=MAIN, number=1):
        return self.dt1(False, number, f"01{sapi:02x}{len(text) // 2:02x}{text}")

    def clears(self, number=1):
        """CLEAR COMMAND and CLEAR COMPLETE."""
        return self.dt1(False, number, "000420040109").dt1(True, number, "000121")

    def rejects_short(self, number=1):
        """SAPI N REJECT."""
        return self.dt1(True, number, "00 06 25 18 03 04 01 25".replace(" ", ""))

    def ends(self, number=1):
        """RLSD and RLC."""
        self.put("switch", "bsc", f"04 {number:06x} {0x800000 + number:06x} 00 00")
        return self.put("bsc", "switch", f"05 {0x800000 + number:06x} {number:06x}")

    # ---- several at once

    def opened(self, station=1, channel=0x41, number=1, text=CM_SERVICE_REQUEST):
        """An access: lines 1 to 5, where it is the first."""
        self.activates(station, channel).establishes(station, channel, text)
        return self.connects(number, text).confirms(number)

    def changing(self, target=2, channel=0x42, reference=7, cell="0a16"):
        """From channel 41 of station 1 a handover begins: lines 6 to 8 behind an access."""
        return self.activates(target, channel, reference).sends_over(1, 0x41, cell, channel, reference)

    def changed(self, target=2, channel=0x42, reference=7, cell="0a16"):
        """The same, and COMPLETE, and RF CHANNEL RELEASE of the old channel: lines 6 to 11."""
        return self.changing(target, channel, reference, cell).completes(target, channel).releases(1, 0x41)
