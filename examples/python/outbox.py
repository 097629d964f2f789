"""What one side of a connection has to say, in the order in which it goes."""

from __future__ import annotations

from collections import deque
from dataclasses import dataclass
from typing import Deque, NamedTuple, Optional


@dataclass
class Chunk:
    """What goes in an answer of its own, or in several if it is long."""

    data: bytes
    is_alone: bool
    at: int = 0
    ends: bool = False

    def rest(self) -> int:
        """How many bytes have not gone."""
        return len(self.data) - self.at


class Said(NamedTuple):
    """What one answer says, and whether a file ends with it."""

    data: bytes
    ends: bool


class Outbox:
    """Data and ends of files that wait until the other side asks."""

    def __init__(self) -> None:
        self._chunks: Deque[Chunk] = deque()

    def say(self, data: bytes, is_alone: bool = False) -> None:
        """Adds data. What `is_alone` shares its answer with nothing but the end of the file."""
        if not data:
            return
        last = self._chunks[-1] if self._chunks else None
        if is_alone or last is None or last.is_alone or last.ends:
            self._chunks.append(Chunk(data, is_alone))
        else:
            last.data += data

    def end(self) -> None:
        """Adds the end of a file."""
        if not self._chunks or self._chunks[-1].ends:
            self._chunks.append(Chunk(b"", False))
        self._chunks[-1].ends = True

    def waits(self) -> int:
        """How many bytes wait."""
        return sum(it.rest() for it in self._chunks)

    def is_empty(self) -> bool:
        """Whether all has gone, ends of files too."""
        return not self._chunks

    def take(self, most: int) -> Optional[Said]:
        """What goes next, of so many bytes at most; or None if nothing waits."""
        if not self._chunks:
            return None
        first = self._chunks[0]
        data = first.data[first.at:first.at + most]
        first.at += len(data)
        if first.rest():
            return Said(data, False)
        self._chunks.popleft()
        return Said(data, first.ends)
