"""The wire of LocalTalk over UDP: payloads by IP multicast. Each is four bytes that tell its
sender, and a frame of LocalTalk."""

from __future__ import annotations

import errno
import os
import socket
from typing import Optional

from . import llap
from .cable import Counts
from .faults import CableFault
from .llap import Frame

GROUP, PORT = "239.192.76.84", 1954
SENDER = 4
MAX_PAYLOAD = SENDER + llap.HEADER + 1024
# Linux alone: whether a socket gets groups that only other sockets of the machine joined.
IP_MULTICAST_ALL = 49


class Wire:
    """The socket, which sends frames to everyone and receives those of others."""

    def __init__(self, interface: Optional[str] = None) -> None:
        """Joins the group, at the interface that has this address. Raises CableFault."""
        self.counts = Counts()
        self.sender = os.urandom(SENDER)
        self._socket = socket.socket(socket.AF_INET, socket.SOCK_DGRAM)
        self._socket.setblocking(False)
        try:
            self._join(interface)
        except OSError as error:
            self._socket.close()
            raise CableFault(error.errno, advice(error, interface)) from error

    def _join(self, interface: Optional[str]) -> None:
        address = socket.inet_aton(interface or "0.0.0.0")
        set_ = self._socket.setsockopt
        set_(socket.SOL_SOCKET, socket.SO_REUSEADDR, 1)
        set_(socket.SOL_SOCKET, socket.SO_REUSEPORT, 1)
        self._socket.bind(("", PORT))
        set_(socket.IPPROTO_IP, IP_MULTICAST_ALL, 0)
        set_(socket.IPPROTO_IP, socket.IP_MULTICAST_TTL, 1)
        set_(socket.IPPROTO_IP, socket.IP_MULTICAST_LOOP, 1)
        if interface is not None:
            set_(socket.IPPROTO_IP, socket.IP_MULTICAST_IF, address)
        set_(socket.IPPROTO_IP, socket.IP_ADD_MEMBERSHIP, socket.inet_aton(GROUP) + address)

    def fileno(self) -> int:
        """The socket."""
        return self._socket.fileno()

    def send(self, frame: Frame) -> None:
        """Sends a frame. Raises OSError."""
        self._socket.sendto(self.sender + llap.encode(frame), (GROUP, PORT))
        self.counts.sent += 1

    def receive(self) -> Optional[bytes]:
        """A payload that came, with its sender before it; or None."""
        try:
            payload = self._socket.recv(MAX_PAYLOAD)
        except OSError:
            return None
        self.counts.received += 1
        return payload

    def frame_of(self, payload: bytes) -> Optional[Frame]:
        """The frame of a payload, or None if it is cut short or of this wire itself."""
        if payload[:SENDER] == self.sender:
            self.counts.drop("of our own")
            return None
        frame = llap.decode(payload[SENDER:])
        if frame is None:
            self.counts.drop("cut short")
        return frame

    def close(self) -> None:
        """Leaves the group."""
        self._socket.close()


def advice(error: OSError, interface: Optional[str]) -> str:
    """Why the group can't be joined or sent to, and what to do."""
    where = f"the interface of {interface}" if interface else "any interface"
    if error.errno is None:
        return f"{interface} is no address of an interface: `ip address` lists them"
    if error.errno == errno.EADDRINUSE:
        return f"port {PORT} is in use by a program that does not share it: end that program"
    if error.errno in (errno.ENODEV, errno.ENETUNREACH):
        return (
            f"there is no multicast route: run `ip route add {GROUP} dev INTERFACE` as root,"
            " or name an interface by --interface ADDRESS"
        )
    if error.errno == errno.EADDRNOTAVAIL:
        return f"no interface has the address {interface}: `ip address` lists them"
    return f"{GROUP} port {PORT} can't be joined at {where}: {error.strerror or error}"
