"""A datagram with the long header, as its parts."""

from __future__ import annotations

from typing import NamedTuple, Optional

from .llap import LONG_HEADER, MAX_DATA


class Address(NamedTuple):
    """A socket of a node. The network is 0 to 65,535, node and socket are 0 to 255."""

    network: int
    node: int
    socket: int


class Datagram(NamedTuple):
    """Where a datagram goes to, where it is from, its type, and up to 586 bytes of data."""

    to: Address
    source: Address
    kind: int
    data: bytes


def decode(raw: bytes) -> Optional[Datagram]:
    """The parts of a datagram, or None if the bytes have no such length."""
    length = int.from_bytes(raw[:2], "big") & 0x3FF
    if not LONG_HEADER <= length <= min(len(raw), LONG_HEADER + MAX_DATA):
        return None
    networks = int.from_bytes(raw[4:6], "big"), int.from_bytes(raw[6:8], "big")
    to = Address(networks[0], raw[8], raw[10])
    source = Address(networks[1], raw[9], raw[11])
    return Datagram(to, source, raw[12], raw[LONG_HEADER:length])


def encode(datagram: Datagram) -> bytes:
    """The bytes of a datagram, without hops and without a sum."""
    to, source, kind, data = datagram
    stated = (LONG_HEADER + len(data)).to_bytes(2, "big") + b"\0\0"
    networks = to.network.to_bytes(2, "big") + source.network.to_bytes(2, "big")
    rest = bytes([to.node, source.node, to.socket, source.socket, kind])
    return stated + networks + rest + data
