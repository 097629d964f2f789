"""A wire without a socket: the test puts in the frames that come, and sees those that were sent.
And what a router sends."""

from __future__ import annotations

import os
import socket
from collections import deque
from typing import Deque, List, Optional

from at_node import llap
from at_node.cable import Counts
from at_node.llap import SHORT, Frame
from at_node.rtmp import Router
from at_node.wire import SENDER, Wire


class FakeWire(Wire):
    """As `Wire`, alone in the world."""

    def __init__(self) -> None:
        self.counts, self.sender = Counts(), os.urandom(SENDER)
        self.frames: List[Frame] = []
        self._coming: Deque[bytes] = deque()
        self._socket = socket.socket(socket.AF_INET, socket.SOCK_DGRAM)

    def come(self, frame: Frame) -> None:
        """Lets a frame of others come."""
        self._coming.append(b"test" + llap.encode(frame))

    def send(self, frame: Frame) -> None:
        self.frames.append(frame)

    def receive(self) -> Optional[bytes]:
        if not self._coming:
            return None
        self.counts.received += 1
        return self._coming.popleft()

    def __del__(self) -> None:
        self.close()


def told(router: Router, to: int = 255) -> Frame:
    """What a router sends to everyone, or its response to one node."""
    network = router.network.to_bytes(2, "big")
    return Frame(to, router.node, SHORT, b"\0\x09\1\1\1" + network + bytes([8, router.node]))


def zone_answer(request: Frame, zone: bytes) -> Frame:
    """The answer of the router that was asked for a zone. The zone is as it is spelled."""
    body = b"\xfe\6\3\x90\0" + request.data[7:9] + b"\0\0\0\1" + zone
    length = (len(body) + 2).to_bytes(2, "big")
    return Frame(request.source, request.to, SHORT, length + body)
