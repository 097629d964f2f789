"""The Echo Protocol: what comes to a node's socket 4 goes back to whoever sent it."""

from __future__ import annotations

from typing import Optional

from .ddp import Datagram

SOCKET = KIND = 4
REQUEST, REPLY = b"\1", b"\2"


def answer(came: Datagram) -> Optional[bytes]:
    """The data of the reply, or None if this is no request for an echo."""
    if (came.to.socket, came.kind, came.data[:1]) != (SOCKET, KIND, REQUEST):
        return None
    return REPLY + came.data[1:]
