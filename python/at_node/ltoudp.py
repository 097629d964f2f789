"""LocalTalk over UDP: a cable that emulators and bridges share. A node asks for its number before
it uses it.
"""

from __future__ import annotations

from collections import deque
from typing import Callable, Deque, List, Optional, Tuple

from . import ddp, llap
from .ddp import Datagram
from .faults import CableFault
from .library import EVERYONE, MAX_DATAGRAM
from .llap import ACK, ENQ, LONG, SHORT, Frame
from .numbering import take_number
from .wire import Wire

# Takes a frame and its datagram in the node's place, and says whether it did.
Beside = Callable[[Frame, Datagram], bool]


class LtoudpCable:
    """The cable as its node `number` of network `network` sees it.

    Without a router the network is 0 on the wire. With one, what goes to another network goes to
    the node `router`. What goes to the node itself, or to everyone, comes back to it. What one of
    `beside` takes of others, the node does not hear.
    """

    def __init__(
        self, wire: Wire, number: int, network: int, router: Optional[int] = None
    ) -> None:
        self.counts = wire.counts
        self.beside: List[Beside] = []
        self._wire, self._number = wire, number
        self._own: Deque[bytes] = deque()
        self.move(network, router)

    def move(self, network: int, router: Optional[int]) -> None:
        """From now on the cable is this network, with this router or without one."""
        self._network, self._router = network, router

    def fileno(self) -> int:
        """The socket."""
        return self._wire.fileno()

    def has_more(self) -> bool:
        """Whether something of the node's own waits."""
        return bool(self._own)

    def send(self, to: int, datagram: bytes) -> None:
        """Sends a datagram to a node, or to everyone (255)."""
        if to in (self._number, EVERYONE):
            self._own.append(datagram)
        if to != self._number:
            self.post(to, datagram)

    def post(self, to: int, datagram: bytes) -> None:
        """Sends a datagram to others alone: to another node, or to each other one (255)."""
        self._send(self._frame_of(to, datagram))

    def post_near(self, to: int, datagram: bytes) -> None:
        """The same to a node of this cable, whatever the network that the datagram goes to."""
        self._send(Frame(to, self._number, SHORT, llap.short_of(datagram)))

    def _send(self, frame: Frame) -> None:
        try:
            self._wire.send(frame)
        except OSError:
            self.counts.drop("could not be sent")

    def _frame_of(self, to: int, datagram: bytes) -> Frame:
        is_near = llap.network_of(datagram) == self._network
        if self._router is None:
            datagram = llap.with_network(datagram, self._network, 0)
        elif not is_near:
            to = self._router
        if is_near:
            return Frame(to, self._number, SHORT, llap.short_of(datagram))
        return Frame(to, self._number, LONG, datagram)

    def receive(self) -> Optional[bytes]:
        """A datagram for this node, or None if nothing waits, or what came is none."""
        if self._own:
            return self._own.popleft()
        payload = self._wire.receive()
        frame = None if payload is None else self._wire.frame_of(payload)
        return None if frame is None else self._take(frame)

    def _take(self, frame: Frame) -> Optional[bytes]:
        if frame.to not in (self._number, EVERYONE):
            return self._drop("for another node")
        if frame.kind == ENQ and frame.to == self._number:
            self._send(Frame(self._number, self._number, ACK, b""))
            return None
        if frame.source == self._number:
            return self._drop("under our own number")
        if frame.kind == SHORT:
            datagram = self._of_short(frame)
        elif frame.kind == LONG:
            datagram = self._of_long(frame.data)
        else:
            return self._drop("of another type")
        return None if datagram is None or self._is_taken(frame, datagram) else datagram

    def _is_taken(self, frame: Frame, datagram: bytes) -> bool:
        """Whether something beside the node took the datagram."""
        came = ddp.decode(datagram)
        return came is not None and any(take(frame, came) for take in self.beside)

    def _of_short(self, frame: Frame) -> Optional[bytes]:
        datagram = llap.long_of(frame, self._network)
        if datagram is None:
            return self._drop("of a wrong length")
        return llap.with_network(datagram, 0, self._network)

    def _of_long(self, data: bytes) -> Optional[bytes]:
        datagram = data[:MAX_DATAGRAM]
        if len(datagram) < llap.LONG_HEADER:
            return self._drop("of a wrong length")
        if llap.has_wrong_sum(datagram):
            return self._drop("of a wrong sum")
        return llap.with_network(datagram, 0, self._network)

    def _drop(self, reason: str) -> Optional[bytes]:
        self.counts.drop(reason)
        return None

    def close(self) -> None:
        """Leaves the group."""
        self._wire.close()


def join(
    network: int,
    wanted: Optional[int] = None,
    router: Optional[int] = None,
    interface: Optional[str] = None,
    server: bool = False,
) -> Tuple[int, LtoudpCable]:
    """Joins the cable, and finds a number. Raises NumberTaken or CableFault."""
    wire = Wire(interface)
    try:
        number = take_number(wire, wanted, server)
    except CableFault:
        wire.close()
        raise
    return number, LtoudpCable(wire, number, network, router)
