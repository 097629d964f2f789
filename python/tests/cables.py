"""Cables for tests: free ports, and whether LocalTalk over UDP can be tried here."""

from __future__ import annotations

import socket
import time
from collections import deque
from typing import Callable, Deque, List, Optional, Tuple

from at_node import CableFault, Node
from at_node.cable import Cable, Counts
from at_node.wire import Wire
from at_node.report import Report
from at_node.station import Station, setup_of

LOOPBACK = "127.0.0.1"


def free_first(*numbers: int) -> int:
    """A port FIRST, so that each port FIRST + number is free."""
    for first in range(22_000, 60_000, 101):
        if all(map(_is_free, (first + it for it in numbers))):
            return first
    raise AssertionError("no ports are free")


def _is_free(port: int) -> bool:
    with socket.socket(socket.AF_INET, socket.SOCK_DGRAM) as one:
        try:
            one.bind((LOOPBACK, port))
        except OSError:
            return False
    return True


def has_multicast() -> bool:
    """Whether LocalTalk over UDP works at the loopback interface."""
    try:
        wire = Wire(LOOPBACK)
    except CableFault:
        return False
    wire.close()
    return True


class MemoryCable:
    """A cable without sockets: the test puts in what comes, and sees what was sent."""

    def __init__(self) -> None:
        self.counts = Counts()
        self.sent: List[Tuple[int, bytes]] = []
        self.coming: Deque[bytes] = deque()
        self._socket = socket.socket(socket.AF_INET, socket.SOCK_DGRAM)

    def fileno(self) -> int:
        return self._socket.fileno()

    def has_more(self) -> bool:
        return bool(self.coming)

    def send(self, to: int, datagram: bytes) -> None:
        self.counts.sent += 1
        self.sent.append((to, datagram))

    def receive(self) -> Optional[bytes]:
        return self.coming.popleft() if self.coming else None

    def close(self) -> None:
        self._socket.close()


class Place:
    """A station with its node and its cable, and the reports that it heard."""

    def __init__(self, cable: Cable, setup: str, number: int, resend: float = 0.05) -> None:
        self.heard: List[Report] = []
        self.node, self.cable = Node(setup, number), cable
        intervals = {"resend": resend, "lookup": 0.1, "retry": 0.1}
        self.station = Station(self.node, cable, self.heard.append, intervals)

    def __enter__(self) -> Place:
        return self

    def __exit__(self, *_: object) -> None:
        self.station.close()
        self.node.close()
        self.cable.close()

    def kinds(self) -> List[str]:
        """The first words of what was heard."""
        return [it.kind for it in self.heard]


def place(cable: Cable, number: int, router: Optional[int] = None) -> Place:
    """A place of this number on a cable of network 10."""
    return Place(cable, setup_of(10, number, "Lab", router), number)


def run(places: List[Place], ends: Callable[[], bool], seconds: float = 10) -> None:
    """Lets places live until something holds. An end of time is a failure."""
    end = time.monotonic() + seconds
    while not ends():
        if time.monotonic() > end:
            raise AssertionError([it.kinds() for it in places])
        for each in places:
            each.station.step(time.monotonic() + 0.005)


def has_waited(begun: float, seconds: float) -> bool:
    """Whether so many seconds have passed, or a few more, as on a machine that does other work."""
    return seconds - 0.05 <= time.monotonic() - begun <= seconds + 3
