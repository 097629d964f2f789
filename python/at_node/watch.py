"""What a node hears of the routers of its cable while it lives: which one is its own, whether that
one is silent, and whether the node belongs elsewhere."""

from __future__ import annotations

from typing import Optional

from .rtmp import SILENCE, Router


class Watch:
    """The router of a node, or None, and the one to which the node is to move, if there is one.

    Times are those of the caller's clock. What a person has to know is a sentence.
    """

    def __init__(self, own: Optional[Router], now: float) -> None:
        self.wanted: Optional[Router] = None
        self._said: Optional[Router] = None
        self.move(own, now)

    def move(self, own: Optional[Router], now: float) -> None:
        """The node has this router from now on."""
        self._own, self._heard, self._is_silent = own, now, False
        self.wanted = None

    def hear(self, router: Router, now: float) -> Optional[str]:
        """Takes what a router sent."""
        if router == self._own:
            self._heard, self._is_silent = now, False
            return None
        if not self._is_elsewhere(router, now) or self.wanted is not None:
            return None
        self.wanted = router
        if router == self._said:
            return None
        self._said = router
        return f"network {router.network} has router {router.node}: the node moves there"

    def _is_elsewhere(self, router: Router, now: float) -> bool:
        """Whether the node belongs to this router: the first one, one of another network, or
        another of the same network whose router fell silent."""
        if self._own is None or router.network != self._own.network:
            return True
        return now - self._heard >= SILENCE

    def stay(self) -> None:
        """The node can't move to the router that it is to move to."""
        self.wanted = None

    def look(self, now: float) -> Optional[str]:
        """Says once that the node's router fell silent."""
        if self._own is None or self._is_silent or now - self._heard < SILENCE:
            return None
        self._is_silent = True
        network, node = self._own
        return f"router {node} of network {network} has been silent for {SILENCE:g} s"
