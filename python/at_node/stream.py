"""One end of a stream of a station. What has no room yet waits here, and goes as room comes."""

from __future__ import annotations

from collections import deque
from typing import Callable, Deque, List, Optional

from .faults import Refused
from .report import Report
from .station import Station

# The refusals of a write that may be tried again: the end is not open yet, or it is full.
NOT_OPEN, FULL = 51, 53
# One call writes at most so many bytes, which two segments carry, and reads at most so many items.
CHUNK, ITEMS = 1_144, 65_535


class Stream:
    """The end `end` of a stream. `take` is called with the items that come: bytes, and None
    where a message ends."""

    def __init__(
        self, station: Station, end: int, take: Callable[[List[Optional[bytes]]], None]
    ) -> None:
        self.end = end
        self.is_closed = False
        self._station, self._take = station, take
        self._pending: Deque[Optional[memoryview]] = deque()

    def write(self, data: bytes, ends_message: bool = False) -> None:
        """Writes bytes, and then the end of a message."""
        if data:
            self._pending.append(memoryview(data))
        if ends_message:
            self._pending.append(None)
        self._pump()

    def hear(self, report: Report) -> None:
        """Takes what the node reports. Reports of other ends are passed over."""
        if report.end != self.end:
            return
        if report.kind == "heard":
            self._read()
            self._pump()
        elif report.kind == "opened":
            self._pump()
        elif report.kind in ("closed", "denied", "freed"):
            self._read()
            self.is_closed = True

    def is_written(self) -> bool:
        """Whether the other end has acknowledged all that was written."""
        return not self._pending and f"resend {self.end}" not in self._station.timers()

    def close(self) -> None:
        """Closes the end, and frees it. What was not acknowledged may be lost."""
        for _ in range(2):
            try:
                self._station.call(f"close {self.end}")
            except Refused:
                return

    def _pump(self) -> None:
        while self._pending:
            first = self._pending[0]
            item = "end" if first is None else first[:CHUNK].hex()
            size = 1 if first is None else min(len(first), CHUNK)
            wrote = self._wrote(item)
            if first is not None and wrote < len(first):
                self._pending[0] = first[wrote:]
            elif wrote == size:
                self._pending.popleft()
            if wrote < size:
                return

    def _wrote(self, item: str) -> int:
        try:
            return self._station.call(f"write {self.end} {item}").number()
        except Refused as refusal:
            if refusal.number not in (NOT_OPEN, FULL):
                raise
            return 0

    def _read(self) -> None:
        try:
            items = self._station.call(f"read {self.end} {ITEMS}").items()
        except Refused:
            return
        if items:
            self._take(items)
