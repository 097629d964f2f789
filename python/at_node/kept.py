"""What a node has that outlives it: its names, and whether it listens. And what it is still busy
with, so that it can't be replaced."""

from __future__ import annotations

from typing import Dict, Iterable, List, Tuple

from .report import Report
from .words import name_of_word

# A request that nobody answered in so many seconds, and a lookup that nobody ended, keep nothing.
PATIENCE = 120.0
# The timers of an open transaction, and of a stream.
BUSY_TIMERS = "retry", "probe"
# A name to be registered: its object, type and socket, as words.
Name = Tuple[str, str, str]


def _key(name: str, kind: str) -> Tuple[bytes, bytes]:
    """The same for names that differ in the case of letters alone."""
    return name_of_word(name).lower(), name_of_word(kind).lower()


class Kept:
    """What the calls and reports of a node say of it. Times are those of the caller's clock."""

    def __init__(self) -> None:
        self._names: Dict[Tuple[bytes, bytes], Name] = {}
        self._claims: Dict[str, Name] = {}
        self._is_listening = False
        # When each request came that waits for its answer, and each lookup began.
        self._asked: Dict[Tuple[str, ...], float] = {}
        self._lookups: Dict[str, float] = {}

    def called(self, words: List[str], report: Report, now: float) -> None:
        """Takes a call that the node did not refuse, and its report."""
        if words[0] == "register":
            self._register((words[1], words[2], words[3]))
        elif words[0] == "unregister":
            self._names.pop(_key(words[1], words[2]), None)
        elif words[0] == "listen":
            self._is_listening = words[1] == "on"
        elif words[0] == "answer":
            self._asked.pop(tuple(words[1:4]), None)
        elif words[0] in ("find", "claim"):
            self._look(words, report, now)
        elif words[0] == "finish":
            self._finish(str(int(words[1])), report)

    def _register(self, name: Name) -> None:
        self._names[_key(name[0], name[1])] = name

    def _look(self, words: List[str], report: Report, now: float) -> None:
        lookup = report.words[1]
        self._lookups[lookup] = now
        if words[0] == "claim":
            self._claims[lookup] = (words[1], words[2], words[3])

    def _finish(self, lookup: str, report: Report) -> None:
        self._lookups.pop(lookup, None)
        claim = self._claims.pop(lookup, None)
        if claim is not None and report.kind == "claimed":
            self._register(claim)

    def heard(self, report: Report, now: float) -> None:
        """Takes a report of a datagram or a timer."""
        if report.kind == "asked":
            self._asked[tuple(report.words[1:4])] = now

    def is_busy(self, timers: Iterable[str], now: float) -> bool:
        """Whether a stream, a transaction, a lookup, or a request that waits for its answer is
        there, of a node that has these timers."""
        waits = [*self._asked.values(), *self._lookups.values()]
        return any(it.startswith(BUSY_TIMERS) for it in timers) or any(
            now - it < PATIENCE for it in waits
        )

    def calls(self) -> List[str]:
        """The calls that give another node these names, and let it listen."""
        listen = ["listen on"] if self._is_listening else []
        return [f"register {' '.join(it)}" for it in self._names.values()] + listen

    def renew(self) -> None:
        """The node was replaced: nothing of what it was busy with is there."""
        self._asked.clear()
        self._lookups.clear()
        self._claims.clear()
