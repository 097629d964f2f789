"""RTMP: how a node hears which network it is on, and which node is the router.

A router sends data to everyone each ten seconds. A node need not wait: it asks everyone, and the
router responds. Both begin alike: the network, the bits of a node's number, and the router's node.
"""

from __future__ import annotations

from typing import NamedTuple, Optional

from .ddp import Datagram
from .llap import SHORT, Frame

SOCKET = 1
# The types of datagrams: data and responses, and requests.
DATA, REQUEST = 1, 5
# The functions of a request: for a response, and for routes, of which the second leaves none out.
ASK, ASK_ROUTES, ASK_ALL_ROUTES = 1, 2, 3
NODE_BITS, HEAD = 8, 4
# What parts the head of data from its routes on a cable of one network number.
NO_RANGE = b"\0\0\x82"
HERE = b"\0"
# The seconds between two sendings of data, and those after which a silent router is given up.
EACH, SILENCE = 10.0, 50.0


class Router(NamedTuple):
    """The network of a cable, 1 to 65,535, and the node that is its router, 1 to 254."""

    network: int
    node: int


def router_of(frame: Frame, came: Datagram) -> Optional[Router]:
    """The router that data or a response tell of, or None if this is neither, or not its own."""
    is_told = (came.to.socket, came.kind) == (SOCKET, DATA) and len(came.data) >= HEAD
    if frame.kind != SHORT or not is_told:
        return None
    told = Router(int.from_bytes(came.data[:2], "big"), came.data[3])
    is_sound = came.data[2] == NODE_BITS and told.network > 0 and 1 <= told.node <= 254
    return told if is_sound and told.node == frame.source else None


def response(router: Router) -> bytes:
    """The data of the router's response."""
    return router.network.to_bytes(2, "big") + bytes([NODE_BITS, router.node])


def routes(router: Router) -> bytes:
    """What the router sends to everyone: it knows the way to its own network alone."""
    return response(router) + NO_RANGE + router.network.to_bytes(2, "big") + HERE


def answer(came: Datagram, router: Router) -> Optional[bytes]:
    """The data of the router's answer, or None if this is no request for one."""
    if (came.to.socket, came.kind) != (SOCKET, REQUEST) or not came.data:
        return None
    if came.data[0] == ASK:
        return response(router)
    return routes(router) if came.data[0] in (ASK_ROUTES, ASK_ALL_ROUTES) else None
