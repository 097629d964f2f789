"""A cable that loses what it sends and what comes, at random: for tests alone."""

from __future__ import annotations

import random
from typing import Optional

from at_node.cable import Cable


class LossyCable:
    """Another cable, of whose datagrams one in so many hundred is lost in each direction."""

    def __init__(self, cable: Cable, percent: float, seed: int) -> None:
        self.counts = cable.counts
        self._cable, self._percent = cable, percent
        self._random = random.Random(seed)
        self.lost = 0

    def _is_lost(self) -> bool:
        is_lost = self._random.random() * 100 < self._percent
        self.lost += is_lost
        return is_lost

    def fileno(self) -> int:
        return self._cable.fileno()

    def has_more(self) -> bool:
        return self._cable.has_more()

    def send(self, to: int, datagram: bytes) -> None:
        if not self._is_lost():
            self._cable.send(to, datagram)

    def receive(self) -> Optional[bytes]:
        datagram = self._cable.receive()
        return None if datagram is None or self._is_lost() else datagram

    def close(self) -> None:
        self._cable.close()
