# SPDX-License-Identifier: MIT OR Apache-2.0
"""What a base station reports of itself: which of its objects don't serve, and which failures haven't ceased. Not proved."""
from typing import Any

from bsc_front.octets import oml, oml_reports
from bsc_front.service.log import INFO, WARN

MOST_ALARMS = 16  # that are kept of a station; the oldest goes
CHANNELS = tuple(oml.channel(timeslot) for timeslot in range(8))
WATCHED = (oml.SITE, oml.STATION, oml.CARRIER, oml.TRANSCEIVER, *CHANNELS)

Line = tuple[str, int]  # and its level


class Alarms:
    """The reports of one life of a station."""

    def __init__(self) -> None:
        self.served: set[oml.Object] = set()  # those that have been enabled
        self.out: dict[oml.Object, str] = {}  # those that aren't enabled, or are locked, and how they are
        self.failures: dict[tuple[oml.Object, bytes], str] = {}  # by object and cause

    def take(self, kind: int, which: oml.Object, text: bytes) -> Line | None:
        """Takes a report. Gives a line where it says something new."""
        found = oml_reports.attributes(text)
        if kind == oml.CHANGED_STATE_REPORT and which in WATCHED:
            return self.take_state(which, found)
        return self.take_failure(which, found) if kind == oml_reports.FAILURE_EVENT_REPORT else None

    def take_state(self, which: oml.Object, found: dict[int, bytes]) -> Line | None:
        """An object's state has changed. What hasn't served yet, as before it is configured, is no line."""
        operational, administrative = found.get(oml_reports.OPERATIONAL_STATE, b""), found.get(oml.ADMINISTRATIVE_STATE, b"")
        if which == oml.SITE:
            administrative = b""  # nobody unlocks it: osmo-bts says locked for as long as it serves
        if not operational and not administrative:
            return None
        words = (oml_reports.word(oml_reports.OPERATIONAL, operational), oml_reports.word(oml_reports.ADMINISTRATIVE, administrative),
                 oml_reports.word(oml_reports.AVAILABILITY, found.get(oml.AVAILABILITY_STATUS, b"")))
        state, before = ", ".join(filter(None, words)), self.out.get(which, "")
        if operational == oml_reports.DISABLED or administrative in oml_reports.OUT_OF_SERVICE:
            self.out[which] = state
            return (f"{oml_reports.name_of(which)}: {state}", WARN) if which in self.served and state != before else None
        self.out.pop(which, None)
        is_back = which in self.served and before
        self.served.add(which)
        return (f"{oml_reports.name_of(which)}: {state}", INFO) if is_back else None

    def take_failure(self, which: oml.Object, found: dict[int, bytes]) -> Line:
        """A failure, or the end of one."""
        cause = found.get(oml_reports.PROBABLE_CAUSE, b"")
        severity = found.get(oml_reports.SEVERITY, b"")
        event = oml_reports.word(oml_reports.EVENT_TYPES, found.get(oml_reports.EVENT_TYPE, b""))
        line = (f"{oml_reports.name_of(which)}: {event or 'failure'}, "
                f"{oml_reports.word(oml_reports.SEVERITIES, severity) or 'of no severity'}, cause {cause.hex() or 'unknown'}"
                f"{oml_reports.own_text(found.get(oml_reports.ADDITIONAL_TEXT, b''))}")
        self.failures.pop((which, cause), None)
        if severity == oml_reports.CEASED:
            return line, INFO
        self.failures[which, cause] = line
        if len(self.failures) > MOST_ALARMS:
            del self.failures[next(iter(self.failures))]
        return line, WARN

    def status(self) -> dict[str, Any]:
        """For 'bsc-front status'. A timeslot that has never been enabled is one that the cell doesn't use."""
        out = {oml_reports.name_of(which): state for which, state in self.out.items() if which in self.served or which not in CHANNELS}
        return {"out": out, "failures": list(self.failures.values())}
