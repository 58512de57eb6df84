# SPDX-License-Identifier: MIT OR Apache-2.0
"""What examples/network plays with --outages: station, switch, bsc and the front are killed amid a call, and started again.

Not proved."""
from real_network.acts import Acts
from real_network.programs import CALLED, CALLER

AGAIN = 30.0  # seconds until something is there again


class Outages(Acts):
    """The acts, and how they went."""

    def play_outages(self) -> str:
        """Plays all acts; gives their outcome."""
        print("==== outages of a station, of the switch, of bsc and of the front", flush=True)
        self.begin()
        self.location_update()
        relay = self.network.relay
        self.station_is_killed()
        self.switch_is_killed()
        self.result("bsc is the same process, and none of its links has ended",
                    relay.run.poll() is None and not relay.saying("link closed", "read failed", "shut"))
        self.bsc_is_killed()
        self.front_is_killed()
        return "calls behind an outage of a station, of the switch, of bsc and of the front"

    def station_is_killed(self) -> None:
        """The caller's station is killed amid the call: the called one is released; later the cell serves again."""
        print("== station 1 is killed amid a call, and started again", flush=True)
        self.call()
        idle = len(self.called.saying("idle:"))
        self.network.stations[1].kill()
        try:
            self.called.wait_for("idle:", AGAIN, times=idle + 1)
        finally:
            self.show(self.called)
        self.network.front.wait_for("station 1/0: away", AGAIN)
        lines = self.network.front.saying("station 1/0: away")
        self.result("bsc heard of the caller's channel", len(lines) == 1 and not lines[0].endswith(" 0"))
        self.network.start_station(1)
        self.network.wait_for_station(1)
        self.restart_mobiles("caller")
        self.update_locations()

    def switch_is_killed(self) -> None:
        """The switch is killed amid the call: both mobiles are released, and served again later."""
        print("== osmo-msc is killed amid a call, and started again", flush=True)
        self.call_again()
        idle = [len(mobile.saying("idle:")) for mobile in (self.caller, self.called)]
        self.network.switch.kill()
        try:
            for mobile, count in zip((self.caller, self.called), idle, strict=True):
                mobile.wait_for("idle:", AGAIN, times=count + 1)
        finally:
            self.show(self.caller, self.called)
        self.result("both mobiles were released", True)
        self.network.start_switch()
        self.named = 0
        self.update_locations()

    def bsc_is_killed(self) -> None:
        """bsc is killed amid the call: the stations release its channels, the switch is reset, and both are kept."""
        print("== bsc is killed amid a call, and started again", flush=True)
        self.call_again()
        front = self.network.front
        joined, resets = len(front.saying("joined to bsc")), len(self.network.front.saying("bsc 127.0.0.1"))
        self.network.relay.kill()
        front.wait_for("parted from bsc", AGAIN, times=2)
        self.network.start_relay()
        front.wait_for("joined to bsc", AGAIN, times=joined + 2)
        self.network.front.wait_for("bsc 127.0.0.1", AGAIN, times=resets + 2)
        self.restart_mobiles("caller", "called")
        self.update_locations()
        self.call_again()
        self.result("station and switch are the same processes",
                    all(one.run.poll() is None for one in (*self.network.stations.values(), self.network.switch)))

    def front_is_killed(self) -> None:
        """The front is killed amid the call: bsc ends by itself, and with the next life of both all else is there again."""
        print("== the front is killed amid a call, and started again", flush=True)
        self.network.front.kill()
        self.result("bsc ended by itself", self.network.relay.ended_with(AGAIN) == 0)
        for station in self.network.stations.values():
            station.kill()
        self.network.start_front()
        self.network.front.wait_for("acknowledged RESET", AGAIN)
        self.network.start_relay()
        self.network.front.wait_for("joined to bsc", AGAIN, times=2)
        for number in self.network.stations:
            self.network.start_station(number)
        for number in self.network.stations:
            self.network.wait_for_station(number, times=1)
        self.restart_mobiles("caller", "called")
        self.update_locations()
        self.call_again()
        self.result("the switch is the same process", self.network.switch.run.poll() is None)

    def restart_mobiles(self, *names: str) -> None:
        """Starts mobiles anew that hear nothing any more of the call that they were in."""
        for name, imsi, arfcn in (("caller", CALLER[0], 20), ("called", CALLED[0], 30)):
            if name in names:
                old = getattr(self, name)
                old.kill()
                setattr(self, name, self.network.mobile(f"{old.name}-again", imsi, arfcn))

    def update_locations(self) -> None:
        """Both mobiles tell where they are, and the switch knows them."""
        idle = [len(mobile.saying("idle:")) for mobile in (self.caller, self.called)]
        for mobile in (self.caller, self.called):
            mobile.tell("location-update", "wait idle 30")
        for mobile, count in zip((self.caller, self.called), idle, strict=True):
            mobile.wait_for("idle:", AGAIN, times=count + 1)
        self.show(self.caller, self.called)
        accepted = [mobile.saying("<- LOCATION UPDATING ACCEPT") for mobile in (self.caller, self.called)]
        self.result("both mobiles are served again", all(accepted))

    def call_again(self) -> None:
        """A new call, which becomes active."""
        before = [len(mobile.saying("call active")) for mobile in (self.caller, self.called)]
        self.caller.tell(f"call {CALLED[1]}", "wait call active 30")
        for mobile, count in zip((self.caller, self.called), before, strict=True):
            mobile.wait_for("call active", AGAIN, times=count + 1)
        self.show(self.caller, self.called)
