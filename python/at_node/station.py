"""A node on a cable, with its clocks: it lives as long as `step` is called."""

from __future__ import annotations

import selectors
import time
from dataclasses import dataclass
from typing import Any, Callable, List, Mapping, Optional

from .alarms import INTERVALS, Alarms
from .cable import Cable
from .kept import Kept
from .node import Node
from .report import Report
from .words import line_of_words

# So many datagrams are taken before clocks and other files are looked at.
MAX_AT_ONCE = 64
# The socket of a node's service.
SERVICE = 129
# What a station does with a report of a datagram or a timer.
Hear = Callable[[Report], None]


def setup_of(
    network: int,
    number: int,
    zone: Optional[str] = None,
    router: Optional[int] = None,
    rooms: int = 64,
) -> str:
    """The setup of one node. `zone` is a word, and is there where a router is. A node whose own
    number is the router's is the router. Each end of a stream has `rooms` items of room in both
    directions."""
    lines = [f"net {network}"]
    if router not in (None, number):
        lines.append(f"node {router} router zone {zone}")
    role = " router" if router == number else ""
    place = f" zone {zone}" if router is not None else ""
    lines.append(f"node {number}{role}{place} rooms {rooms} {rooms}")
    return "\n".join(lines) + "\n"


def pass_numbers(node: Node, number: int, count: int) -> None:
    """Lets node `number` pass over so many numbers of transactions, some 20,000 in a second.

    Each node begins at 0. But whoever answered a request exactly once keeps the answer for half a
    minute, and takes a request under the same number from the same node for a repeat. So a program
    that may have been there before begins at random, before its node is on a cable.
    """
    for _ in range(count):
        asked = node.call(f"ask {number} {SERVICE} 00000000 - 1 alo 0").number()
        for _ in node.datagrams():
            pass
        node.timer(f"retry {asked}")


@dataclass
class _Clock:
    """What is done each so many seconds, and when next."""

    due: float
    seconds: float
    do: Callable[[], None]


class Station:
    """A node, its cable and its alarms. Nothing happens but in a call of a method."""

    def __init__(
        self,
        node: Node,
        cable: Cable,
        hear: Hear = lambda report: None,
        intervals: Mapping[str, float] = INTERVALS,
    ) -> None:
        """Node and cable stay the caller's. `hear` is called with what the node reports of each
        datagram and timer, and may call the node by `call`."""
        self.node, self.cable, self.hear = node, cable, hear
        # What came, while `hear` is called with its report; None of a timer's.
        self.datagram: Optional[bytes] = None
        self._alarms, self._kept = Alarms(intervals), Kept()
        self._clocks: List[_Clock] = []
        self._selector = selectors.PollSelector()
        self._selector.register(cable, selectors.EVENT_READ)
        self._listed: Optional[List[str]] = None

    def watch(self, file: Any, ready: Callable[[], None]) -> None:
        """Calls `ready` in each step in which there is something to read of a file."""
        self._selector.register(file, selectors.EVENT_READ, ready)

    def unwatch(self, file: Any) -> None:
        """Ends that."""
        self._selector.unregister(file)

    def every(self, seconds: float, do: Callable[[], None]) -> None:
        """Calls `do` in this moment, and in a step each so many seconds later."""
        self._clocks.append(_Clock(time.monotonic() + seconds, seconds, do))
        do()

    def call(self, words: str) -> Report:
        """Plays a call, and sends what comes of it. Raises as `Node.call` does."""
        report = self.node.call(words)
        self._kept.called(line_of_words(words).decode().split(), report, time.monotonic())
        self._settle()
        return report

    def settle(self) -> None:
        """Sends what the node has to send, and reads its timers. Whoever called the node itself
        owes this."""
        self._settle()

    def is_busy(self) -> bool:
        """Whether the node has a stream, a transaction or a lookup, or is to answer a request."""
        return self._kept.is_busy(self.node.timers(), time.monotonic())

    def replace(self, node: Node) -> None:
        """Lets another node live here, with the names of the one before, which is closed. Raises
        OutOfMemory, and then nothing has changed."""
        for words in self._kept.calls():
            node.call(words)
        self.node.close()
        self.node, self._listed = node, None
        self._kept.renew()
        self._alarms.read([], time.monotonic())
        self._settle()

    def timers(self) -> List[str]:
        """The timers that have an alarm."""
        return self._alarms.armed()

    def step(self, until: Optional[float] = None) -> None:
        """Waits for a datagram, a timer or a watched file, up to a time of `time.monotonic`, and
        does what there is to do. Without a time it waits as long as nothing happens."""
        for key, _ in self._selector.select(self._patience(until)):
            if key.data is not None:
                key.data()
        self._receive()
        self._fire()
        self._tick()

    def _patience(self, until: Optional[float]) -> Optional[float]:
        if self.cable.has_more():
            return 0
        due = [it.due for it in self._clocks]
        ends = [it for it in (until, self._alarms.first(), *due) if it is not None]
        return max(0.0, min(ends) - time.monotonic()) if ends else None

    def _receive(self) -> None:
        for _ in range(MAX_AT_ONCE):
            before = self.cable.counts.received
            more = self.cable.has_more()
            datagram = self.cable.receive()
            if datagram is not None:
                self._take(datagram)
            elif not more and self.cable.counts.received == before:
                return

    def _take(self, datagram: bytes) -> None:
        report = self.node.receive(datagram)
        if report.refusal is not None:
            self.cable.counts.drop(f"refused: {report.refusal.sentence}")
        if report.kind == "ignored":
            self.cable.counts.ignore(datagram)
        self.datagram = datagram
        self._take_report(report)
        self.datagram = None

    def _take_report(self, report: Report) -> None:
        self._kept.heard(report, time.monotonic())
        self._settle()
        self.hear(report)

    def _fire(self) -> None:
        now = time.monotonic()
        for _ in range(MAX_AT_ONCE):
            timer = self._alarms.fire(now)
            if timer is None:
                return
            self._listed = None
            self._take_report(self.node.timer(timer))

    def _tick(self) -> None:
        now = time.monotonic()
        for clock in self._clocks:
            if clock.due <= now:
                clock.due = now + clock.seconds
                clock.do()

    def _settle(self) -> None:
        """Sends what the node has to send, and reads its timers."""
        for to, datagram in self.node.datagrams():
            self.cable.send(to, datagram)
        listed = self.node.timers()
        if listed != self._listed:
            self._alarms.read(listed, time.monotonic())
            self._listed = listed

    def close(self) -> None:
        """Stops waiting. Node and cable stay open."""
        self._selector.close()
