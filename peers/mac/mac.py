"""A Mac of LocalTalk, as far as it starts and prints: what it sends, and what it hears.

Its frames are made and read here, by Inside AppleTalk, and not by the package.
"""

from __future__ import annotations

import socket
import struct
import time
from typing import Callable, List, NamedTuple, Optional

GROUP, SENDER = ("239.192.76.84", 1954), b"MAC!"
SHORT, ENQ, ACK = 0x01, 0x81, 0x82
MAC, EVERYONE = 77, 255
# The types of datagrams.
RTMP, NAMES, ATP, ECHO, RTMP_REQUEST = 1, 2, 3, 4, 5
# The DDP sockets of services, and those that this Mac asks from.
ROUTES, LOOKUPS, ECHOES, ZONES = 1, 2, 4, 6
ZONE_ASKER, NAME_ASKER, ECHO_ASKER, PRINT_ASKER = 254, 253, 252, 251
# Functions of packets of names, and of the router's zone service.
BROADCAST_REQUEST, REPLY = 1, 3
MY_ZONE, ZONE_LIST = 7, 8
# Of a transaction's packet: its kind, and whether it is exactly once or the last one.
REQUEST, RESPONSE, RELEASE, KINDS, EXACTLY_ONCE, LAST = 0x40, 0x80, 0xC0, 0xC0, 0x20, 0x10
# The seconds for an answer, and for the question whether a number is taken.
PATIENCE, QUESTION = 5.0, 0.4


class Datagram(NamedTuple):
    """A datagram with the short header that came."""

    node: int
    to_socket: int
    socket: int
    kind: int
    data: bytes


class Address(NamedTuple):
    """A socket of a node."""

    node: int
    socket: int


class Transaction(NamedTuple):
    """A packet of the transaction protocol that came: a request, or one packet of a response."""

    source: Address
    control: int
    bits: int
    number: int
    user: bytes
    data: bytes


class Found(NamedTuple):
    """A name that was found, and where."""

    network: int
    node: int
    socket: int
    name: bytes
    kind: bytes
    zone: bytes


def counted(text: bytes) -> bytes:
    return bytes([len(text)]) + text


def texts_of(data: bytes, count: int) -> List[bytes]:
    """So many texts, each after its length."""
    texts: List[bytes] = []
    for _ in range(count):
        texts.append(data[1:1 + data[0]])
        data = data[1 + data[0]:]
    return texts


class Mac:
    """A Mac, node 77 of a cable. It has network 0 until a router tells another."""

    def __init__(self) -> None:
        self.network, self.router, self.zone = 0, 0, b"*"
        self._number = 0
        self._wire = socket.socket(socket.AF_INET, socket.SOCK_DGRAM)
        interface = socket.inet_aton("127.0.0.1")
        set_ = self._wire.setsockopt
        set_(socket.SOL_SOCKET, socket.SO_REUSEADDR, 1)
        set_(socket.SOL_SOCKET, socket.SO_REUSEPORT, 1)
        self._wire.bind(("", GROUP[1]))
        set_(socket.IPPROTO_IP, socket.IP_MULTICAST_IF, interface)
        group = socket.inet_aton(GROUP[0])
        set_(socket.IPPROTO_IP, socket.IP_ADD_MEMBERSHIP, group + interface)

    def close(self) -> None:
        self._wire.close()

    def _send(self, to: int, kind: int, data: bytes = b"") -> None:
        self._wire.sendto(SENDER + bytes([to, MAC, kind]) + data, GROUP)

    def _frame(self, end: float) -> Optional[bytes]:
        """The next frame of others, up to a time, or None."""
        while time.monotonic() < end:
            self._wire.settimeout(max(0.001, end - time.monotonic()))
            try:
                payload = self._wire.recv(700)
            except socket.timeout:
                return None
            if payload[:4] != SENDER:
                return payload[4:]
        return None

    def is_taken(self, number: int) -> bool:
        """Asks once for a number, as a Mac does some hundred times. Whether another node has it."""
        self._send(number, ENQ)
        end = time.monotonic() + QUESTION
        frame = self._frame(end)
        while frame is not None and not (frame[0] == number and frame[2] == ACK):
            frame = self._frame(end)
        return frame is not None

    def send(self, to: int, to_socket: int, socket_: int, kind: int, data: bytes) -> None:
        """Sends a datagram with the short header."""
        header = struct.pack(">HBBB", 5 + len(data), to_socket, socket_, kind)
        self._send(to, SHORT, header + data)

    def hear(
        self, what: str, is_wanted: Callable[[Datagram], bool], seconds: float = PATIENCE
    ) -> Datagram:
        """The first such datagram for this Mac or for everyone. Raises AssertionError."""
        end = time.monotonic() + seconds
        frame = self._frame(end)
        while frame is not None:
            if frame[0] in (MAC, EVERYONE) and frame[2] == SHORT:
                length, to_socket, socket_, kind = struct.unpack(">HBBB", frame[3:8])
                came = Datagram(frame[1], to_socket, socket_, kind, frame[8:3 + length])
                if is_wanted(came):
                    return came
            frame = self._frame(end)
        raise AssertionError(f"{what}: nothing came")

    def find_network(self) -> None:
        """Asks everyone for a router, and takes its network."""
        self.send(EVERYONE, ROUTES, ROUTES, RTMP_REQUEST, b"\x01")
        heard = self.hear("the RTMP request", lambda it: it.kind == RTMP)
        self.network, length, self.router = struct.unpack(">HBB", heard.data[:4])
        assert length == 8 and self.router == heard.node, heard

    def look_up(self, name: bytes, kind: bytes) -> None:
        """Has the router look up names of this Mac's zone."""
        where = struct.pack(">HBBB", self.network, MAC, NAME_ASKER, 0)
        names = counted(name) + counted(kind) + counted(self.zone)
        data = bytes([BROADCAST_REQUEST << 4 | 1, 1]) + where + names
        self.send(self.router, LOOKUPS, NAME_ASKER, NAMES, data)

    def found(self, what: str, seconds: float = PATIENCE) -> Found:
        """The first name of a reply."""
        def is_reply(came: Datagram) -> bool:
            return came.kind == NAMES and came.data[0] >> 4 == REPLY

        data = self.hear(what, is_reply, seconds).data
        return Found(*struct.unpack(">HBB", data[2:6]), *texts_of(data[7:], 3))

    def find_zone(self) -> None:
        """Asks the router which zone this Mac is in."""
        (self.zone,) = self._zones("GetMyZone", MY_ZONE, 0)

    def zones(self) -> List[bytes]:
        """All zones, as the router tells them."""
        return self._zones("GetZoneList", ZONE_LIST, 1)

    def _zones(self, what: str, function: int, first: int) -> List[bytes]:
        user = struct.pack(">BBH", function, 0, first)
        answer = self.ask(what, Address(self.router, ZONES), ZONE_ASKER, user)
        return texts_of(answer.data, int.from_bytes(answer.user[2:], "big"))

    def echo(self, node: int, data: bytes) -> bytes:
        """Sends an echo request to a node. The data that come back."""
        self.send(node, ECHOES, ECHO_ASKER, ECHO, b"\x01" + data)
        answer = self.hear("the echo request", lambda it: it.kind == ECHO and it.node == node)
        assert answer.data[:1] == b"\x02", answer
        return answer.data[1:]

    def request(
        self, to: Address, own: int, user: bytes, data: bytes = b"", once: bool = False,
        packets: int = 1,
    ) -> int:
        """Begins a transaction for so many packets, from the socket `own`. Its number."""
        self._number += 1
        control = REQUEST | EXACTLY_ONCE * once
        head = struct.pack(">BBH", control, (1 << packets) - 1, self._number)
        self.send(to.node, to.socket, own, ATP, head + user + data)
        return self._number

    def response(self, what: str, number: int) -> Transaction:
        """The first packet of a response."""
        return self.transaction(what, RESPONSE, lambda it: it.number == number)

    def ask(
        self, what: str, to: Address, own: int, user: bytes, data: bytes = b"", once: bool = False
    ) -> Transaction:
        """Asks for a response of one packet."""
        number = self.request(to, own, user, data, once)
        answer = self.response(what, number)
        if once:
            self.release(to, own, number)
        return answer

    def release(self, to: Address, own: int, number: int) -> None:
        """Ends an exactly-once transaction."""
        self.send(to.node, to.socket, own, ATP, struct.pack(">BBH", RELEASE, 0, number) + bytes(4))

    def transaction(
        self, what: str, kind: int, is_wanted: Callable[[Transaction], bool]
    ) -> Transaction:
        """The next such packet of a transaction."""
        def of(came: Datagram) -> Transaction:
            control, bits, number = struct.unpack(">BBH", came.data[:4])
            source = Address(came.node, came.socket)
            return Transaction(source, control, bits, number, came.data[4:8], came.data[8:])

        def is_such(came: Datagram) -> bool:
            return came.kind == ATP and came.data[0] & KINDS == kind and is_wanted(of(came))

        return of(self.hear(what, is_such))

    def answer(self, asked: Transaction, own: int, user: bytes, data: bytes) -> None:
        """Answers a request by one packet."""
        head = struct.pack(">BBH", RESPONSE | LAST, 0, asked.number)
        self.send(asked.source.node, asked.source.socket, own, ATP, head + user + data)
