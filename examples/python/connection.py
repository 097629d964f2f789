"""An open connection of the Printer Access Protocol, from either side.

Each side asks the other for data by SEND_DATA, and answers those of the other. Both sides count
them, so that nothing is lost or doubled where a transaction failed after its answer.
"""

from __future__ import annotations

import time
from typing import Callable, List, NamedTuple, Optional

import pap
from at_node import Packet, Refused, Report
from outbox import Outbox
from service import Service


class Peer(NamedTuple):
    """The other side: its node and socket, the connection's number, and how many packets it
    takes at once."""

    who: str
    socket: int
    connection: int
    quantum: int


class Connection:
    """This side of a connection. `take` is called with the data that came, and whether a file
    ends with them."""

    def __init__(self, service: Service, peer: Peer, take: Callable[[bytes, bool], None]) -> None:
        self.peer = peer
        self.outbox = Outbox()
        self._service, self._take = service, take
        self.heard = self._tickled = time.monotonic()
        self._is_stopped = False
        # The transaction that asks for data, while one is open, and its sequence number.
        self._asking: Optional[int] = None
        self._number = 1
        # The other side's SEND_DATA: the one that waits, the number after the last one that was
        # answered, and that answer.
        self._waiting: Optional[pap.Asked] = None
        self._awaited = 1
        self._last: List[Packet] = []

    def ask_data(self) -> None:
        """Asks for what has not come yet, or leaves it to a later step if the node can't ask."""
        user = pap.user_bytes(self.peer.connection, pap.SEND_DATA, self._number)
        to = f"{self.peer.who} {self.peer.socket}"
        try:
            self._asking = self._service.ask(to, user, b"", pap.QUANTUM, "xo", pap.PATIENT)
        except Refused:
            self._asking = None

    def hear(self, report: Report) -> None:
        """Takes the end of a transaction, if it is this side's SEND_DATA."""
        if self._asking is None or report.words[1:2] != [str(self._asking)]:
            return
        self._asking = None
        if report.kind == "response":
            self._came(report.packets())
        if not self._is_stopped:
            self.ask_data()

    def _came(self, packets: List[Packet]) -> None:
        """Takes data. A response that is none is asked for anew, under the same number."""
        wanted = pap.user_bytes(self.peer.connection, pap.DATA)[:2]
        if any(it.user[:2] != wanted for it in packets):
            return
        self.heard = time.monotonic()
        self._number = pap.after(self._number)
        self._take(b"".join(it.data for it in packets), any(it.user[2] for it in packets))

    def is_its(self, asked: pap.Asked) -> bool:
        """Whether a request is of this connection."""
        return (asked.who, asked.connection) == (self.peer.who, self.peer.connection)

    def asked(self, asked: pap.Asked) -> None:
        """Takes a tickle or a SEND_DATA of this connection."""
        self.heard = time.monotonic()
        if asked.function != pap.SEND_DATA:
            self._service.forget(asked)
        elif asked.sequence in (0, self._awaited):
            self._forget_waiting()
            self._waiting = asked
            self.give()
        elif self._last and pap.after(asked.sequence) == self._awaited:
            self._service.answer(asked, self._last)
        else:
            self._service.forget(asked)

    def give(self) -> None:
        """Answers what the other side asked for, if there is something to say. The number 0 is
        not counted."""
        said = None
        if self._waiting is not None:
            said = self.outbox.take(self.peer.quantum * pap.PACKET)
        if self._waiting is None or said is None:
            return
        asked, self._waiting = self._waiting, None
        packets = pap.data_packets(self.peer.connection, said.data, said.ends)
        if asked.sequence != 0:
            self._last, self._awaited = packets, pap.after(asked.sequence)
        self._service.answer(asked, packets)

    def is_silent(self) -> bool:
        """Whether the other side has to be given up."""
        return time.monotonic() - self.heard > pap.SILENCE

    def step(self) -> None:
        """Tickles the other side, if it is time to."""
        now = time.monotonic()
        if self._asking is None and not self._is_stopped:
            self.ask_data()
        if now - self._tickled > pap.TICKLES:
            self._tickled = now
            self._send(pap.TICKLE, "alo", 0)

    def _send(self, function: int, mode: str, retries: int) -> None:
        """Asks for an answer that nobody waits for."""
        user = pap.user_bytes(self.peer.connection, function)
        try:
            to = f"{self.peer.who} {self.peer.socket}"
            self._service.ask(to, user, b"", 1, mode, retries)
        except Refused:
            # The node has 32 requests that are not answered. The other side learns by silence.
            pass

    def _forget_waiting(self) -> None:
        if self._waiting is not None:
            self._service.forget(self._waiting)
            self._waiting = None

    def stop(self) -> None:
        """Ends this side. What the other side asked for stays unanswered."""
        self._is_stopped = True
        if self._asking is not None:
            self._service.cancel(self._asking)
            self._asking = None
        self._forget_waiting()

    def close(self) -> None:
        """Ends this side, and says so to the other."""
        self.stop()
        self._send(pap.CLOSE, "xo", pap.RETRIES)
