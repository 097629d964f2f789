"""Where a node is: its network, the router and the zone, as a Mac learns them. It asks everyone for
the router, by RTMP, and the router for its zone, by GetMyZone."""

from __future__ import annotations

import random
import select
import time
from typing import NamedTuple, Optional, Protocol

from . import ddp, myzone, rtmp
from .ddp import Address, Datagram
from .faults import CableFault
from .library import EVERYONE
from .llap import Frame
from .ltoudp import LtoudpCable
from .rtmp import Router
from .words import CHARSET

# When the router is asked for, and when a search for it ends: without patience, and with it. The
# router sends data each ten seconds by itself.
ASKED_AT = 0.0, 0.5, 1.0
SHORT_SEARCH, LONG_SEARCH = 1.5, 10.5
# The zone is asked for so many times, so many seconds apart, from a socket that no node uses.
TRIES, PATIENCE, SOCKET = 4, 1.0, 254


class Place(NamedTuple):
    """A network, and the router's node and the zone where there is one. The zone is bytes."""

    network: int
    router: Optional[int] = None
    zone: Optional[bytes] = None

    def of_node(self, number: int) -> str:
        """Where a node is, in words."""
        where = f"node {number} of network {self.network}"
        if self.router is None or self.zone is None:
            return where
        return f"{where}, router {self.router}, zone {self.zone.decode(CHARSET)}"


class Question(Protocol):
    """Something that is asked on the cable, some times."""

    def look(self, now: float) -> bool:
        """Asks again where it is time to. Whether the question is over."""

    def take(self, frame: Frame, came: Datagram) -> bool:
        """Takes a datagram that is an answer. Whether it was."""


class RouterSearch:
    """Asks everyone for the router, and listens for what the router sends."""

    def __init__(self, cable: LtoudpCable, number: int, seconds: float, now: float) -> None:
        self.router: Optional[Router] = None
        self._cable, self._number, self._end = cable, number, now + seconds
        self._due = [now + it for it in ASKED_AT]

    def look(self, now: float) -> bool:
        """As `Question` has it."""
        if self.router is not None or now >= self._end:
            return True
        if self._due and now >= self._due[0]:
            self._due.pop(0)
            to, own = Address(0, EVERYONE, rtmp.SOCKET), Address(0, self._number, rtmp.SOCKET)
            request = Datagram(to, own, rtmp.REQUEST, bytes([rtmp.ASK]))
            self._cable.post_near(EVERYONE, ddp.encode(request))
        return False

    def take(self, frame: Frame, came: Datagram) -> bool:
        """As `Question` has it."""
        router = rtmp.router_of(frame, came)
        self.router = self.router or router
        return router is not None


class ZoneQuestion:
    """Asks a router for the zone of this node, under a number that is drawn at random."""

    def __init__(self, cable: LtoudpCable, number: int, router: Router, now: float) -> None:
        self.zone: Optional[bytes] = None
        self.router = router
        self._cable, self._own, self._due, self._left = cable, number, now, TRIES
        self._transaction = random.randrange(1 << 16)

    def look(self, now: float) -> bool:
        """As `Question` has it."""
        if self.zone is not None or (now >= self._due and not self._left):
            return True
        if now >= self._due:
            self._due, self._left = now + PATIENCE, self._left - 1
            self._ask()
        return False

    def _ask(self) -> None:
        # The router is a node of this cable, so the datagram is short and has no networks.
        to, own = Address(0, self.router.node, myzone.SOCKET), Address(0, self._own, SOCKET)
        request = Datagram(to, own, myzone.KIND, myzone.request(self._transaction))
        self._cable.post_near(self.router.node, ddp.encode(request))

    def take(self, frame: Frame, came: Datagram) -> bool:
        """As `Question` has it."""
        if frame.source != self.router.node or came.to.socket != SOCKET:
            return False
        zone = myzone.zone_of(came, self._transaction)
        self.zone = self.zone or zone
        return zone is not None


def _await(cable: LtoudpCable, question: Question) -> None:
    """Asks, and waits for the answer. What else comes for the node meanwhile is lost."""
    cable.beside.append(question.take)
    poll = select.poll()
    poll.register(cable, select.POLLIN)
    while not question.look(time.monotonic()):
        poll.poll(STEP)
        cable.receive()
    cable.beside.remove(question.take)


# The milliseconds between two looks at the clock.
STEP = 50


def find(
    cable: LtoudpCable, number: int, seconds: float = SHORT_SEARCH, zone: Optional[bytes] = None
) -> Optional[Place]:
    """The place of a node that has this number on the cable, or None if no router is heard. The
    zone is asked for if it is not named. Raises CableFault if a router gives none."""
    search = RouterSearch(cable, number, seconds, time.monotonic())
    _await(cable, search)
    if search.router is None:
        return None
    if zone is None:
        question = ZoneQuestion(cable, number, search.router, time.monotonic())
        _await(cable, question)
        zone = question.zone
    if zone is None:
        raise CableFault(no_zone(search.router))
    return Place(search.router.network, search.router.node, zone)


def no_zone(router: Router) -> str:
    """Why a node is not on a network whose router was heard."""
    return (
        f"router {router.node} of network {router.network} answered, but not which zone this is:"
        " name it by --zone, or leave the router alone by --no-place"
    )
