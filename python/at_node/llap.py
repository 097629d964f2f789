"""Frames of LocalTalk, and how datagrams lie in them.

A frame is the destination node, the source node, a type, and what it carries. Type 1 carries a
datagram with the short header, type 2 one with the long header. A node takes and gives datagrams
with the long header alone. On a cable without a router the network is written as 0, in long
headers and in the tuples of names.
"""

from __future__ import annotations

from typing import NamedTuple, Optional

SHORT, LONG, ENQ, ACK, RTS, CTS = 0x01, 0x02, 0x81, 0x82, 0x84, 0x85
HEADER, SHORT_HEADER, LONG_HEADER = 3, 5, 13
NAMES = 2
# The most bytes of data after the header of a datagram.
MAX_DATA = 586


class Frame(NamedTuple):
    """A frame. The numbers are 0 to 255."""

    to: int
    source: int
    kind: int
    data: bytes


def decode(raw: bytes) -> Optional[Frame]:
    """The frame that these bytes are, or None if they are too few."""
    return Frame(raw[0], raw[1], raw[2], raw[HEADER:]) if len(raw) >= HEADER else None


def encode(frame: Frame) -> bytes:
    """The bytes of a frame."""
    return bytes([frame.to, frame.source, frame.kind]) + frame.data


def network_of(datagram: bytes) -> int:
    """The network that a datagram with the long header goes to."""
    return int.from_bytes(datagram[4:6], "big")


def short_of(datagram: bytes) -> bytes:
    """The same datagram with the short header, without its networks, its hops and its sum."""
    length = SHORT_HEADER + len(datagram) - LONG_HEADER
    return length.to_bytes(2, "big") + datagram[10:]


def long_of(frame: Frame, network: int) -> Optional[bytes]:
    """The datagram of a frame of type 1, on this network, without a sum; or None if its length
    fits no such datagram."""
    if len(frame.data) < SHORT_HEADER:
        return None
    length = int.from_bytes(frame.data[:2], "big") & 0x3FF
    if not SHORT_HEADER <= length <= min(len(frame.data), SHORT_HEADER + MAX_DATA):
        return None
    stated = (length - SHORT_HEADER + LONG_HEADER).to_bytes(2, "big")
    networks = network.to_bytes(2, "big") * 2
    nodes = bytes([frame.to, frame.source])
    return stated + b"\0\0" + networks + nodes + frame.data[2:length]


def total_of(datagram: bytes) -> int:
    """The sum of a datagram with the long header, over all that follows the field of the sum."""
    total = 0
    for byte in datagram[4:]:
        total = (total + byte) & 0xFFFF
        total = (total << 1 | total >> 15) & 0xFFFF
    return total or 0xFFFF


def has_wrong_sum(datagram: bytes) -> bool:
    """Whether a datagram with the long header has a sum, which is not its own."""
    stated = int.from_bytes(datagram[2:4], "big")
    length = int.from_bytes(datagram[:2], "big") & 0x3FF
    return stated != 0 and stated != total_of(datagram[:length])


def with_network(datagram: bytes, old: int, new: int) -> bytes:
    """The datagram with the network `new` wherever it has `old`: in both addresses, and in the
    tuples of names. One that changes has no sum any more."""
    before, after = old.to_bytes(2, "big"), new.to_bytes(2, "big")
    changed = bytearray(datagram)
    for place in (4, 6):
        if changed[place:place + 2] == before:
            changed[place:place + 2] = after
    if changed[12] == NAMES:
        _rename(changed, before, after)
    if changed != datagram:
        changed[2:4] = b"\0\0"
    return bytes(changed)


def _rename(datagram: bytearray, before: bytes, after: bytes) -> None:
    """Writes the network of each tuple anew: its address, an enumerator and three texts."""
    at = LONG_HEADER + 2
    count = datagram[LONG_HEADER] & 15 if len(datagram) >= at else 0
    for _ in range(count):
        if at + 5 > len(datagram):
            return
        if datagram[at:at + 2] == before:
            datagram[at:at + 2] = after
        at += 5
        for _ in range(3):
            at += 1 + (datagram[at] if at < len(datagram) else 0)
