"""What a node reports of a call, a timer or a datagram."""

from __future__ import annotations

import re
from dataclasses import dataclass
from typing import List, Match, NamedTuple, Optional

from .words import bytes_of_word, text_of_word

END = "end"
# The reports whose second word is the number of an end of a stream.
OF_ENDS = frozenset(
    ["opening", "made", "opened", "denied", "heard", "dropped", "closed", "freed"]
)
_FIND = re.compile(r"([^:]+):([^@]+)@([^,]+),(\d+),(\d+),(\d+)")


class Refusal(NamedTuple):
    """Why a datagram was refused: the number of the report, and a sentence in English."""

    number: int
    sentence: str


class Find(NamedTuple):
    """A name that was found, and who has it. Node and socket are 0 to 255."""

    object: str
    type: str
    zone: str
    node: int
    socket: int
    enumerator: int


class Packet(NamedTuple):
    """A packet of a response: its four user bytes, and up to 578 bytes of data."""

    user: bytes
    data: bytes


def _find_of(found: Match[str]) -> Find:
    name, kind, zone = (text_of_word(it) for it in found.groups()[:3])
    node, socket, enumerator = (int(it) for it in found.groups()[3:])
    return Find(name, kind, zone, node, socket, enumerator)


@dataclass(frozen=True)
class Report:
    """One line of the language of schedules, without a number: `begun 0`.

    `refusal` is there for a datagram that was refused alone.
    """

    line: str
    refusal: Optional[Refusal] = None

    @property
    def words(self) -> List[str]:
        """The words of the line."""
        return self.line.split(" ")

    @property
    def kind(self) -> str:
        """The first word, such as `begun`."""
        return self.words[0]

    def begins(self, words: List[str]) -> bool:
        """Whether the report begins with these words."""
        return self.words[: len(words)] == words

    def number(self, place: int = 1) -> int:
        """The word at this place, as a number. Raises ValueError if it is none."""
        return int(self.words[place])

    @property
    def end(self) -> Optional[int]:
        """The number of the end of a stream that this is of. None if it is of none, or, as `wrote`,
        `read`, `idle` and `again`, of the end that was called or whose timer fired."""
        return self.number() if self.kind in OF_ENDS else None

    def texts(self) -> List[str]:
        """The texts of `zones` and `localzones`."""
        return [text_of_word(it) for it in self.words[1:]]

    def finds(self) -> List[Find]:
        """The entries of `found`, or the one of `taken`."""
        matches = (_FIND.fullmatch(it) for it in self.words[1:])
        return [_find_of(it) for it in matches if it is not None]

    def packets(self) -> List[Packet]:
        """The packets of `response`."""
        pairs = (it.split(":") for it in self.words[2:])
        return [Packet(bytes_of_word(user), bytes_of_word(data)) for user, data in pairs]

    def items(self) -> List[Optional[bytes]]:
        """The items of `read`: bytes of the stream, and None where a message ends."""
        return [None if it == END else bytes_of_word(it) for it in self.words[1:]]
