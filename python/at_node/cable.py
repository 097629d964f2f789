"""What a station asks of a cable, and what a cable counts."""

from __future__ import annotations

from collections import Counter
from typing import Counter as CounterOf, Optional, Protocol


# The byte of a datagram with the long header that has its type.
TYPE = 12


class Counts:
    """What came and went over a cable since it was joined."""

    def __init__(self) -> None:
        self.received = 0
        self.sent = 0
        self.dropped: CounterOf[str] = Counter()
        # Those that the node heard and that changed nothing, by their type.
        self.ignored: CounterOf[int] = Counter()

    def drop(self, reason: str) -> None:
        """Counts what is dropped, by the reason."""
        self.dropped[reason] += 1

    def ignore(self, datagram: bytes) -> None:
        """Counts a datagram with the long header that had no effect."""
        self.ignored[datagram[TYPE]] += 1

    def line(self) -> str:
        """All counts in one line."""
        counted = f"received {self.received}, sent {self.sent}, dropped {self.dropped_in_all()}"
        reasons = ", ".join(f"{count} {reason}" for reason, count in sorted(self.dropped.items()))
        types = ", ".join(f"{count} of type {it}" for it, count in sorted(self.ignored.items()))
        dropped = f"{counted}: {reasons}" if reasons else counted
        return f"{dropped}; ignored {sum(self.ignored.values())}: {types}" if types else dropped

    def dropped_in_all(self) -> int:
        """How many were dropped, for any reason."""
        return sum(self.dropped.values())


class Cable(Protocol):
    """A cable as one node sees it. No call waits."""

    counts: Counts

    def fileno(self) -> int:
        """The file on which something to receive is waited for."""

    def has_more(self) -> bool:
        """Whether something is to be received that the file does not tell of."""

    def send(self, to: int, datagram: bytes) -> None:
        """Sends a datagram to a node, or to everyone (255). One that can't be sent is lost."""

    def receive(self) -> Optional[bytes]:
        """A datagram for this node, or None if nothing waits, or what came is none."""

    def close(self) -> None:
        """Leaves the cable."""
