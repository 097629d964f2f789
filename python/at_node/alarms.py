"""The clocks of a node's timers."""

from __future__ import annotations

from typing import Dict, Iterable, List, Mapping, Optional

# The seconds after which a timer fires, by its first word. The book has 30 s for releases and
# probes, and about these for the others.
INTERVALS: Mapping[str, float] = {
    "retry": 2.0, "release": 30.0, "lookup": 1.5, "resend": 1.0, "probe": 30.0,
}


class Alarms:
    """Alarms for the timers that a node lists, by the caller's clock, in seconds.

    After each call, timer and datagram the caller hands the list in. What is new is armed, what
    fired and is still listed is armed again, and what has gone is disarmed.
    """

    def __init__(self, intervals: Mapping[str, float] = INTERVALS) -> None:
        self._intervals = {**INTERVALS, **intervals}
        self._due: Dict[str, float] = {}

    def read(self, timers: Iterable[str], now: float) -> None:
        """Takes the list of timers as it is now."""
        self._due = {it: self._due.get(it, now + self._interval(it)) for it in timers}

    def _interval(self, timer: str) -> float:
        return self._intervals[timer.partition(" ")[0]]

    def first(self) -> Optional[float]:
        """When the next alarm fires, or None if none is armed."""
        return min(self._due.values(), default=None)

    def fire(self, now: float) -> Optional[str]:
        """Disarms the alarm that is due for longest, and gives its timer; or None."""
        timer = min(self._due, key=lambda it: self._due[it], default=None)
        if timer is None or self._due[timer] > now:
            return None
        del self._due[timer]
        return timer

    def armed(self) -> List[str]:
        """The timers that have an alarm."""
        return list(self._due)
