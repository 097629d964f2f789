"""GetMyZone: a node asks its router for the name of its own zone, by a transaction of ATP."""

from __future__ import annotations

from typing import Optional

from .ddp import Datagram

# The router's socket for zones, and the type of datagrams of ATP.
SOCKET, KIND = 6, 3
# The functions of ATP, in the upper two bits of its first byte, and the bit of a last packet.
FUNCTION, TREQ, TRESP, LAST = 0xC0, 0x40, 0x80, 0x10
# The packets of a request: a mask that wants the first one.
FIRST = 1
GET_MY_ZONE = 7
HEAD, MAX_ZONE = 8, 32


def request(number: int) -> bytes:
    """The data of a request under this number of a transaction."""
    return bytes([TREQ, FIRST]) + number.to_bytes(2, "big") + bytes([GET_MY_ZONE, 0, 0, 0])


def answer(came: Datagram, zone: bytes) -> Optional[bytes]:
    """The data of the router's answer, or None if this is no request for a node's zone."""
    data = came.data
    if (came.to.socket, came.kind) != (SOCKET, KIND) or len(data) < HEAD:
        return None
    is_asked = data[0] & FUNCTION == TREQ and data[1] & FIRST
    if not is_asked or data[4] != GET_MY_ZONE or data[6:8] != b"\0\0":
        return None
    return bytes([TRESP | LAST, 0]) + data[2:4] + b"\0\0\0\1" + bytes([len(zone)]) + zone


def zone_of(came: Datagram, number: int) -> Optional[bytes]:
    """The zone that the answer under this number names, of 1 to 32 bytes; or None."""
    data = came.data
    if (came.source.socket, came.kind) != (SOCKET, KIND) or len(data) <= HEAD:
        return None
    is_first = data[0] & FUNCTION == TRESP and data[1] == 0
    if not is_first or data[2:4] != number.to_bytes(2, "big"):
        return None
    zone = data[HEAD + 1:HEAD + 1 + data[HEAD]]
    return zone if 1 <= len(zone) == data[HEAD] <= MAX_ZONE else None
