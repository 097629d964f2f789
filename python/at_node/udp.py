"""A cable of UDP sockets on this machine, one for each node, as `atnode udp` has it."""

from __future__ import annotations

import errno
import socket
from typing import Optional, Sequence

from .cable import Counts
from .faults import CableFault
from .library import EVERYONE

HOST = "127.0.0.1"
HIGHEST_NODE = 254
HIGHEST_PORT = 65_535
# A payload is one datagram, and what follows a datagram is padding.
MAX_PAYLOAD = 600


class UdpCable:
    """The cable whose node n is at port `first` + n of 127.0.0.1, as its node `number` sees it.

    What goes to everyone goes to each of `others`, and to the node itself. Without `others` that
    is each number of the cable, which takes about a millisecond.
    """

    def __init__(self, first: int, number: int, others: Optional[Sequence[int]] = None) -> None:
        """Binds the socket of the node. Raises CableFault."""
        self.counts = Counts()
        self._first = first
        everyone = range(1, HIGHEST_NODE + 1) if others is None else [*others, number]
        self._everyone = [it for it in everyone if first + it <= HIGHEST_PORT]
        if not 0 <= first <= HIGHEST_PORT - number:
            raise CableFault(f"node {number} has no port: {first} + {number} is none")
        self._socket = socket.socket(socket.AF_INET, socket.SOCK_DGRAM)
        self._socket.setblocking(False)
        try:
            self._socket.bind((HOST, first + number))
        except OSError as error:
            self._socket.close()
            raise CableFault(error.errno, _advice(error, first + number)) from error

    def fileno(self) -> int:
        """The socket."""
        return self._socket.fileno()

    def has_more(self) -> bool:
        """Nothing comes but by the socket."""
        return False

    def send(self, to: int, datagram: bytes) -> None:
        """Sends a datagram to a node, or to everyone (255)."""
        for node in self._everyone if to == EVERYONE else [to]:
            try:
                self._socket.sendto(datagram, (HOST, self._first + node))
                self.counts.sent += 1
            except (OSError, OverflowError):
                self.counts.drop("could not be sent")

    def receive(self) -> Optional[bytes]:
        """A payload that came, or None."""
        try:
            payload = self._socket.recv(MAX_PAYLOAD)
        except OSError:
            return None
        self.counts.received += 1
        return payload

    def close(self) -> None:
        """Closes the socket."""
        self._socket.close()


def _advice(error: OSError, port: int) -> str:
    if error.errno == errno.EADDRINUSE:
        return f"port {port} of {HOST} is in use: end the other node of this number, or be another"
    return f"port {port} of {HOST} can't be bound: {error.strerror}"
