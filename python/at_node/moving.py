"""A node that goes with its cable: where another network's router is heard, the node is opened anew
there, with its names, as soon as it has nothing to do."""

from __future__ import annotations

import time
from typing import Callable, Optional, Protocol

from .ddp import Datagram
from .faults import OutOfMemory
from .llap import Frame
from .ltoudp import LtoudpCable
from .node import Node
from .place import Place, ZoneQuestion, no_zone
from .rtmp import Router, router_of
from .station import Station
from .watch import Watch

# The seconds between two looks, and those between two moves, or tries of one.
LOOK, PAUSE = 0.5, 50.0
Tell = Callable[[str], None]


class Home(Protocol):
    """What a node keeps as it moves: its number, its cable, the zone that its user named, if any,
    and how it is opened."""

    @property
    def number(self) -> int:
        """The node's number."""

    @property
    def zone(self) -> Optional[bytes]:
        """The zone that is not asked for, since its user named it."""

    def open(self, place: Place) -> Node:
        """The node at a place. Raises Fault."""


class Mover:
    """Moves the node of a station on a cable. `tell` takes sentences for a person."""

    def __init__(
        self, station: Station, cable: LtoudpCable, home: Home, place: Place, tell: Tell
    ) -> None:
        now = time.monotonic()
        self._station, self._cable, self._home, self._tell = station, cable, home, tell
        self._watch = Watch(_router_of(place), now)
        self._question: Optional[ZoneQuestion] = None
        # The router that gave no zone last, which is said once.
        self._failed: Optional[Router] = None
        # When the node may move next.
        self._due = now
        cable.beside.append(self.take)
        station.every(LOOK, self.look)

    def take(self, frame: Frame, came: Datagram) -> bool:
        """Takes what a router sent. Whether this was that."""
        if self._question is not None and self._question.take(frame, came):
            return True
        router = router_of(frame, came)
        if router is not None:
            self._say(self._watch.hear(router, time.monotonic()))
        return router is not None

    def _say(self, sentence: Optional[str]) -> None:
        if sentence is not None:
            self._tell(sentence)

    def look(self) -> None:
        """Goes on with a move, where there is one."""
        now = time.monotonic()
        self._say(self._watch.look(now))
        if self._question is None and self._watch.wanted is not None and now >= self._due:
            self._question = self._ask(self._watch.wanted, now)
        if self._question is not None and self._question.look(now):
            self._answered(self._question, now)

    def _ask(self, router: Router, now: float) -> Optional[ZoneQuestion]:
        """The question for the zone, once nothing holds the node."""
        if self._station.is_busy():
            return None
        question = ZoneQuestion(self._cable, self._home.number, router, now)
        question.zone = self._home.zone
        return question

    def _answered(self, question: ZoneQuestion, now: float) -> None:
        self._question = None
        if self._station.is_busy():
            # Something began meanwhile. The zone is asked for again when it has ended.
            return
        self._due = now + PAUSE
        if question.zone is not None:
            self._move(Place(*question.router, question.zone), now)
            return
        self._watch.stay()
        if question.router != self._failed:
            self._failed = question.router
            self._tell(no_zone(question.router))

    def _move(self, place: Place, now: float) -> None:
        try:
            self._station.replace(self._home.open(place))
        except OutOfMemory:
            self._watch.stay()
            self._tell("there is no memory to move")
            return
        self._cable.move(place.network, place.router)
        self._watch.move(_router_of(place), now)
        self._tell(place.of_node(self._home.number))


def _router_of(place: Place) -> Optional[Router]:
    return None if place.router is None else Router(place.network, place.router)
