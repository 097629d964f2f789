"""What a live node on LocalTalk over UDP answers beside its core: echoes, and as router the
questions by which a Mac learns its network, its router and its zone."""

from __future__ import annotations

from typing import Optional

from . import aep, ddp, myzone, rtmp
from .ddp import Address, Datagram
from .library import EVERYONE
from .llap import Frame
from .ltoudp import LtoudpCable
from .rtmp import Router


class Routing:
    """What the router of a cable answers and sends, in place of RTMP and of GetMyZone."""

    def __init__(self, router: Router, zone: bytes) -> None:
        self._router, self._zone = router, zone

    def answer(self, came: Datagram) -> Optional[Datagram]:
        """The answer to a datagram that is one of these questions, or None."""
        told = rtmp.answer(came, self._router)
        if told is not None:
            return self._datagram(came.source, rtmp.SOCKET, rtmp.DATA, told)
        zone = myzone.answer(came, self._zone) if came.to.node == self._router.node else None
        if zone is not None:
            return self._datagram(came.source, myzone.SOCKET, myzone.KIND, zone)
        return None

    def routes(self) -> Datagram:
        """What is sent to everyone each ten seconds."""
        to = Address(self._router.network, EVERYONE, rtmp.SOCKET)
        return self._datagram(to, rtmp.SOCKET, rtmp.DATA, rtmp.routes(self._router))

    def _datagram(self, to: Address, socket: int, kind: int, data: bytes) -> Datagram:
        return Datagram(to, Address(*self._router, socket), kind, data)


class Beside:
    """The answers of one node of a cable. With `routing` the node is the cable's router."""

    def __init__(self, cable: LtoudpCable, number: int, routing: Optional[Routing] = None) -> None:
        self._cable, self._number, self._routing = cable, number, routing
        cable.beside.append(self.take)

    def take(self, frame: Frame, came: Datagram) -> bool:
        """Answers a datagram, if it is one of these questions. Whether it was."""
        answer = self._answer(came)
        if answer is not None:
            self._cable.post(answer.to.node, ddp.encode(answer))
        return answer is not None

    def _answer(self, came: Datagram) -> Optional[Datagram]:
        echo = aep.answer(came) if came.to.node == self._number else None
        if echo is not None:
            return Datagram(came.source, came.to, aep.KIND, echo)
        return None if self._routing is None else self._routing.answer(came)

    def send_routes(self) -> None:
        """Sends the router's data to everyone, if this is the router."""
        if self._routing is not None:
            self._cable.post(EVERYONE, ddp.encode(self._routing.routes()))
