"""A node that lives on a cable, and takes its calls from lines.

A line is a call, such as `find = LaserWriter`, or says when the next one is played: `wait
SECONDS`, or `until REPORT`, which waits for a report that begins with these words.
"""

from __future__ import annotations

import os
import sys
import time
from collections import deque
from typing import Callable, Deque, Iterable, List, Optional, TextIO

from .faults import NoEvent, Refused
from .report import Report
from .station import Station

# What a person at a terminal does not want to see: repeats, and what others ask of the node.
QUIET = {
    "ignored", "again", "kept", "idle", "released", "done", "names", "relayed", "served", "refused",
}
# `until` gives up after so many seconds.
PATIENCE = 60.0


class Live:
    """A station that plays lines, and prints what its node reports. Each line is flushed."""

    def __init__(
        self,
        station: Station,
        output: TextIO,
        errors: TextIO,
        prints_all: bool = False,
        patience: float = PATIENCE,
    ) -> None:
        self._station, self._output, self._errors = station, output, errors
        self._prints_all, self._patience = prints_all, patience
        self._lines: Deque[str] = deque()
        self._is_ended = False
        # What the next line waits for: a time, and maybe a report before it.
        self._until: Optional[float] = None
        self._wanted: List[str] = []
        self.failed = False
        station.hear = self._hear

    def feed(self, lines: Iterable[str]) -> None:
        """Adds lines to those that are to be played."""
        self._lines.extend(lines)

    def feed_from(self, file: int) -> None:
        """Plays the lines of an open file as they come, up to its end."""
        self._station.watch(file, LineReader(file, self.feed, lambda: self._end(file)).read)

    def _end(self, file: int) -> None:
        self._station.unwatch(file)
        self.end()

    def end(self) -> None:
        """No line comes any more. What is there is played."""
        self._is_ended = True

    def run(self) -> bool:
        """Lives until all lines are played. Whether no line was refused or waited in vain."""
        while True:
            self._play_lines()
            if self._is_ended and not self._lines and self._until is None:
                return not self.failed
            self._station.step(self._until)

    def _play_lines(self) -> None:
        while self._is_due() and self._lines:
            line = self._lines.popleft().strip()
            if line and not line.startswith("#"):
                self._play(line)

    def _is_due(self) -> bool:
        """Whether the next line may be played: nothing is waited for, or not any more."""
        if self._until is not None and time.monotonic() >= self._until:
            if self._wanted:
                self._tell(f"`{' '.join(self._wanted)}` did not come within {self._patience:g} s")
            self._until, self._wanted = None, []
        return self._until is None

    def _play(self, line: str) -> None:
        words = line.split()
        if words[0] == "until":
            self._until, self._wanted = time.monotonic() + self._patience, words[1:]
        elif words[0] == "wait":
            self._wait(line, words)
        else:
            self._call(line)

    def _wait(self, line: str, words: List[str]) -> None:
        try:
            (seconds,) = words[1:]
            self._until = time.monotonic() + float(seconds)
        except ValueError:
            self._tell(f"`{line}` takes a number of seconds, as in `wait 1.5`")

    def _call(self, line: str) -> None:
        try:
            self._print(self._station.call(line))
        except Refused as refusal:
            self._tell(f"`{line}` was refused: {refusal}")
        except (NoEvent, UnicodeEncodeError):
            self._tell(f"`{line}` is no call; docs/SCHEDULES.md lists them, without the number")

    def _hear(self, report: Report) -> None:
        if self._prints_all or report.kind not in QUIET:
            self._print(report)
        if self._wanted and report.begins(self._wanted):
            self._until, self._wanted = None, []
            # What the next line waits for may be the next report.
            self._play_lines()

    def _print(self, report: Report) -> None:
        print(report.line, file=self._output, flush=True)

    def _tell(self, sentence: str) -> None:
        self.failed = True
        print(f"at_node: {sentence}", file=self._errors, flush=True)


class LineReader:
    """Reads lines from a file that is ready, without waiting for the rest of one."""

    def __init__(
        self, file: int, take: Callable[[Iterable[str]], None], end: Callable[[], None]
    ) -> None:
        self._file, self._take, self._end = file, take, end
        self._rest = b""

    def read(self) -> None:
        """Takes what there is. At the end of the file the last line may lack its line feed."""
        data = os.read(self._file, 1 << 16)
        *lines, self._rest = (self._rest + data).split(b"\n")
        if not data and self._rest:
            lines.append(self._rest)
        if lines:
            self._take(it.decode(errors="replace") for it in lines)
        if not data:
            self._end()


def read_script(path: str) -> List[str]:
    """The lines of a script; `-` is the standard input. Raises OSError or UnicodeDecodeError."""
    if path == "-":
        return sys.stdin.read().splitlines()
    with open(path, encoding="utf-8") as file:
        return file.read().splitlines()
