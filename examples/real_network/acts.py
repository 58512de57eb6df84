# SPDX-License-Identifier: MIT OR Apache-2.0
"""What examples/network plays, and what it looks at. Not proved."""
import re
import time

from real_network import osmocom
from real_network.processes import LOOK_AGAIN, Process, terminal
from real_network.programs import CALLED, CALLER, Network

# call control (TS 24.008 clause 9.3), as the caller's messages: each is numbered and answered
START_DTMF = "03 35 2C 31"
STOP_DTMF = "03 31"
PAIRS = 6  # of these, sent around a handover
NOTICED = 10.0  # seconds until osmo-msc has taken what was sent
AGAIN = ", again)"  # in the line of a message that the mobile sends on the new channel once more
HIDDEN = "SYSTEM INFORMATION", "MEASUREMENT REPORT", "neighbour:"


class Acts:
    """The acts, and how they went."""

    def __init__(self, network: Network) -> None:
        self.network = network
        self.well = True
        self.printed: dict[str, int] = {}
        self.named = 0  # duplicates that osmo-msc has named

    def show(self, *processes: Process) -> None:
        """Prints what programs have said since they were last shown."""
        for process in processes:
            lines = process.said()
            for line in lines[self.printed.get(process.name, 0):]:
                if not any(text in line for text in HIDDEN):
                    print(f"  {line[:140]}")
            self.printed[process.name] = len(lines)

    def show_front(self) -> None:
        """Prints what the front has said."""
        if self.network.front:
            self.show(self.network.front)

    def result(self, text: str, well: bool) -> None:
        """Notes and prints how something went."""
        self.well = self.well and well
        print(f"{'as it should be' if well else 'NOT AS IT SHOULD BE'}: {text}", flush=True)

    def begin(self) -> None:
        """Starts all, and the two mobiles, each in its cell."""
        self.network.start()
        self.show_front()
        self.caller = self.network.mobile("mobile-1", CALLER[0], 20)
        self.called = self.network.mobile("mobile-2", CALLED[0], 30)

    def location_update(self) -> None:
        """Both mobiles tell where they are."""
        print("== location update", flush=True)
        for mobile in (self.caller, self.called):
            mobile.tell("location-update", "wait idle 30")
        for mobile in (self.caller, self.called):
            mobile.wait_for("idle:", 30)
        self.show(self.caller, self.called)
        known = terminal(osmocom.SWITCH_TERMINAL, "show subscriber cache")
        for imsi, _ in (CALLER, CALLED):
            self.result(f"osmo-msc knows {imsi}", f"IMSI: {imsi}" in known)

    def short_message(self) -> None:
        """The switch sends the first mobile a short message."""
        print("== short message to mobile-1", flush=True)
        terminal(osmocom.SWITCH_TERMINAL, f"subscriber msisdn {CALLER[1]} sms sender msisdn {CALLED[1]} send hello")
        self.caller.tell("wait CP-DATA 30", "wait idle 10")
        try:
            self.caller.wait_for("idle:", 30, times=2)
        finally:
            self.show(self.caller)
        counters = terminal(osmocom.SWITCH_TERMINAL, "show rate-counters")
        self.result("osmo-msc counts one short message as acknowledged by the mobile",
                    re.search(r"deliver:ack: +1 ", counters) is not None)

    def call(self) -> None:
        """The first mobile calls the second one, which answers by itself."""
        print("== call of mobile-1 to mobile-2", flush=True)
        self.caller.tell(f"call {CALLED[1]}", "wait call active 30", "pause 1")
        try:
            self.called.wait_for("call active", 30)
            self.caller.wait_for("call active", 30)
        finally:
            self.show(self.caller, self.called)
        self.name_duplicates()

    def handover(self) -> None:
        """The caller's reports make bsc hand it over; its last message goes again on the new channel."""
        print("== handover of mobile-1 to cell 2, its last message sent twice", flush=True)
        self.caller.tell(f"send 0 {START_DTMF}", "pause 1", "forget", "levels 20 30/18=50", "wait HANDOVER COMPLETE 30",
                         "pause 1", f"send 0 {STOP_DTMF}", "wait STOP DTMF ACKNOWLEDGE 10")
        try:
            self.caller.wait_for("<- STOP DTMF ACKNOWLEDGE", 40)
        finally:
            self.show(self.caller)
        again = re.search(r"N\(SD\) (\d)", self.caller.saying("-> START DTMF")[-1])
        named = self.name_duplicates()
        self.result("osmo-msc named the repeated message as a duplicate, and no other one, and took each once",
                    len(named) == 1 and named[0].endswith(f"got {again[1]}") and self.unanswered() == 0)

    def failed_handover(self) -> None:
        """The caller doesn't find the new channel, and goes back to the old one."""
        print("== handover that fails: mobile-1 goes back with HANDOVER FAILURE", flush=True)
        self.caller.tell("miss-change", "levels 20 20/9=50", "wait HANDOVER FAILURE 30", "levels 50 20/9=20", "pause 1",
                         f"send 0 {START_DTMF}", "wait START DTMF REJECT 10", f"send 0 {STOP_DTMF}",
                         "wait STOP DTMF ACKNOWLEDGE 10")
        try:
            self.caller.wait_for("<- STOP DTMF ACKNOWLEDGE", 40, times=2)
        finally:
            self.show(self.caller)
        self.result("the call goes on where it was, and osmo-msc took each message",
                    not self.name_duplicates() and self.unanswered() == 0)

    def short_message_amid_call(self) -> None:
        """The called mobile sends the caller a short message: SAPI 3 beside both calls, on the SACCH of each TCH."""
        print("== short message of mobile-2 to mobile-1, amid their call", flush=True)
        self.called.tell(f"short-message {CALLER[1]} hello")
        try:
            self.caller.wait_for("short message:", 40, times=2)
            self.called.wait_for("short message taken", 20)
            self.caller.wait_for("<- CP-ACK", 20)
        finally:
            self.show(self.caller, self.called)
        counters = terminal(osmocom.SWITCH_TERMINAL, "show rate-counters")
        self.result("osmo-msc counts a second one as acknowledged", re.search(r"deliver:ack: +2 ", counters) is not None)

    def clearing(self) -> None:
        """The caller hangs up, and the called one detaches."""
        print("== mobile-1 hangs up, mobile-2 detaches", flush=True)
        idle = len(self.caller.saying("idle:")), len(self.called.saying("idle:"))
        self.caller.tell("hang-up", "wait idle 20")
        try:
            self.caller.wait_for("idle:", 30, times=idle[0] + 1)
            self.called.wait_for("idle:", 30, times=idle[1] + 1)
            self.called.tell("detach", "wait idle 20")
            self.called.wait_for("idle:", 30, times=idle[1] + 2)
        finally:
            self.show(self.caller, self.called)
        end = time.monotonic() + NOTICED
        while (f"IMSI: {CALLED[0]}" in (known := terminal(osmocom.SWITCH_TERMINAL, "show subscriber cache"))
               and time.monotonic() < end):
            time.sleep(LOOK_AGAIN)
        self.result("osmo-msc knows mobile-1, and mobile-2 no more",
                    f"IMSI: {CALLER[0]}" in known and f"IMSI: {CALLED[0]}" not in known)

    def handover_back(self) -> None:
        """The caller's reports make bsc hand it over to the first cell again."""
        print("== handover of mobile-1 back to cell 1", flush=True)
        self.caller.tell("levels 20 20/9=50", "wait HANDOVER COMPLETE 30", "levels 50 30/18=20", "pause 3")
        self.caller.wait_for("-> HANDOVER COMPLETE", 40, times=2)
        time.sleep(3)
        self.show(self.caller)

    def crossing(self) -> str:
        """The link of station 1 is delayed, and the caller is handed over from there amid a row of messages."""
        print("== handover to cell 2, while all that comes from station 1 is a second late", flush=True)
        self.network.delay.tell("1000")
        self.network.delay.wait_for("delay: 1.0", 5)
        done, sent, twice = (len(self.caller.saying(text)) for text in ("-> HANDOVER COMPLETE", "-> STOP DTMF", AGAIN))
        pairs = [f"send 0 {START_DTMF}", "pause 0.35", f"send 0 {STOP_DTMF}", "pause 0.35"]
        self.caller.tell("levels 20 30/18=50", *pairs * PAIRS)
        self.caller.wait_for("-> HANDOVER COMPLETE", 40, times=done + 1)
        self.caller.wait_for("-> STOP DTMF", 40, times=sent + PAIRS)
        time.sleep(3)
        end = time.monotonic() + NOTICED
        while self.unanswered() and time.monotonic() < end:
            time.sleep(LOOK_AGAIN)
        self.show(self.caller)
        twice = len(self.caller.saying(AGAIN)) - twice
        self.lost = max(0, len(self.name_duplicates()) - twice), self.unanswered()
        line = f"of {2 * PAIRS} messages osmo-msc dropped {self.lost[0]}, and answered {2 * PAIRS - self.lost[1]}"
        return line + (f"; what was sent twice ({twice}) it dropped once" if twice else "")

    def name_duplicates(self) -> list[str]:
        """What osmo-msc has newly called a duplicate: it does so with each number that it doesn't expect, and drops it."""
        lines = self.network.switch.saying("Duplicate DTAP")
        new = [line[line.index("Duplicate DTAP"):] for line in lines[self.named:]]
        self.named = len(lines)
        for line in new:
            print(f"  osmo-msc: {line}")
        return new

    def unanswered(self) -> int:
        """How many of the caller's messages of call control osmo-msc hasn't answered; one that was sent again counts once."""
        sent = [line for line in self.caller.saying("-> START DTMF", "-> STOP DTMF") if AGAIN not in line]
        return len(sent) - len(self.caller.saying("<- START DTMF", "<- STOP DTMF"))

    def play(self) -> str:
        """Plays all acts with bsc; gives the outcome of the last one."""
        print("==== bsc between the stations and the switch", flush=True)
        self.begin()
        self.location_update()
        self.short_message()
        self.call()
        self.short_message_amid_call()
        self.handover()
        self.failed_handover()
        self.handover_back()
        line = self.crossing()
        self.result(line, self.lost == (0, 0))
        self.network.delay.tell("0")
        self.clearing()
        return line

    def play_plainly(self) -> str:
        """Plays the last act alone, with a relay that passes on what comes; gives its outcome."""
        print("==== in bsc's place, a relay that passes on what comes", flush=True)
        self.begin()
        self.location_update()
        self.call()
        line = self.crossing()
        self.result(f"{line}: this relay knows no order", self.lost != (0, 0))
        return line
