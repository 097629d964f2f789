"""What the Printer Access Protocol needs of a station: it asks, answers, and lets go.

The node keeps an exactly-once request for 30 s after its answer, and has room for 64 of them. The
book's responder forgets one as soon as its release comes, and so does this one: SEND_DATA has
numbers of its own, by which a repeat is told.
"""

from __future__ import annotations

import sys
from typing import Callable, NamedTuple, Optional, Sequence

import pap
from at_node import Packet, Refused, Report, word_of_bytes
from at_node.station import Station

# The type of a datagram of a transaction, and the kinds of its packets by their first byte.
TRANSACTION, KINDS, REQUEST, RELEASE = 3, 0xC0, 0x40, 0xC0
HEADERS = 21


class Came(NamedTuple):
    """A packet of a transaction that came."""

    who: str
    key: str
    kind: int
    user: bytes


def came_of(datagram: Optional[bytes]) -> Optional[Came]:
    """The packet of a datagram with the long header, or None if it has none."""
    if datagram is None or len(datagram) < HEADERS or datagram[12] != TRANSACTION:
        return None
    network = int.from_bytes(datagram[6:8], "big")
    is_near = datagram[4:6] == datagram[6:8]
    who = str(datagram[9]) if is_near else f"{network}.{datagram[9]}"
    number = int.from_bytes(datagram[15:17], "big")
    return Came(who, f"{who} {datagram[11]} {number}", datagram[13] & KINDS, datagram[17:21])


class Service:
    """The requests of a station, and those that it is asked."""

    def __init__(
        self,
        station: Station,
        hear: Callable[[Report], None],
        asked: Callable[[pap.Asked], None],
    ) -> None:
        """`hear` is called with the ends of transactions, and `asked` with what others ask, also
        with tickles that the node passes over, since they want no packets."""
        self._station, self._hear, self._asked = station, hear, asked
        station.hear = self._take

    def _take(self, report: Report) -> None:
        if report.kind in ("response", "failed"):
            self._hear(report)
        elif report.kind == "asked":
            self._asked(pap.asked_of(report.words))
        elif report.kind in ("ignored", "released"):
            came = came_of(self._station.datagram)
            if came is not None:
                self._pass(report, came)

    def _pass(self, report: Report, came: Came) -> None:
        if report.kind == "released" and came.kind == RELEASE:
            self._release(came.key)
            self._station.settle()
        elif came.kind == REQUEST and came.user[1] == pap.TICKLE:
            self._asked(pap.Asked(came.who, "", came.user[0], pap.TICKLE, 0, b""))

    def answer(self, asked: pap.Asked, packets: Sequence[Packet]) -> None:
        """Answers a request, once."""
        words = (f"{word_of_bytes(it.user)}:{word_of_bytes(it.data)}" for it in packets)
        try:
            self._station.call(f"answer {asked.key} {' '.join(words)}")
        except Refused as refusal:
            print(f"an answer was refused: {refusal}", file=sys.stderr, flush=True)

    def forget(self, asked: pap.Asked) -> None:
        """Lets go of a request that gets no answer: the node is told of one, which is not sent.
        If the request comes again, it is a new one."""
        if not asked.key:
            return
        try:
            self._station.node.call(f"answer {asked.key} 00000000:-")
        except Refused:
            return
        self._unsent()
        self._release(asked.key)
        self._station.settle()

    def _release(self, key: str) -> None:
        try:
            self._station.node.timer(f"release {pap.SERVICE} {key}")
        except Refused:
            # At-least-once requests go with their answers.
            pass

    def _unsent(self) -> None:
        for _ in self._station.node.datagrams():
            pass

    def ask(
        self, to: str, user: bytes, data: bytes = b"", wanted: int = 1, mode: str = "xo",
        retries: int = pap.RETRIES,
    ) -> int:
        """Asks a node and socket, and gives the transaction's number. Raises Refused."""
        words = f"ask {to} {word_of_bytes(user)} {word_of_bytes(data)} {wanted} {mode} {retries}"
        return self._station.call(words).number()

    def cancel(self, number: int) -> None:
        """Ends a transaction: its retries run out, and are not sent."""
        report: Optional[Report] = None
        try:
            while report is None or report.kind == "again":
                report = self._station.node.timer(f"retry {number}")
                self._unsent()
        except Refused:
            # It had ended.
            pass
        self._station.settle()

