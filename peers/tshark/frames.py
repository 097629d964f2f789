"""Random frames of each carrier that `atnode capture` reads, and the captures that hold them.

A seed gives the same frames in the same order. Two of three frames are as programs of AppleTalk
send them. The others have another byte, another length, a tail, or an end that was not captured.
"""

import random
import struct
from typing import List, NamedTuple, TypeVar

MICROSECONDS, NANOSECONDS = 0xA1B2C3D4, 0xA1B23C4D
# The types of links, by the numbers of tcpdump.
ETHERNET, RAW_IP, COOKED, LOCALTALK, COOKED_2 = 1, 101, 113, 114, 276
NAMES, TRANSACTIONS, ZONES, STREAMS = 2, 3, 6, 7
TYPES = (NAMES, NAMES, TRANSACTIONS, TRANSACTIONS, TRANSACTIONS, ZONES, STREAMS, 1, 4, 5, 22)
ZONE_SOCKET = 6
SHORT, LONG = 1, 2
DATAGRAM_SNAP = bytes.fromhex("AAAA03080007809B")
AARP_SNAP = bytes.fromhex("AAAA0300000080F3")
AARP, PHASE1, IPV4 = 0x80F3, 0x809B, 0x0800
LLC_FOLLOWS = 4
LTOUDP_PORT = 1954
BEGIN = 1_000_000_000
# Letters of a Macintosh, some of them beyond ASCII.
LETTERS = b"abcdefghijklmnopqrstuvwxyzABCDEFGHIJKLMNOPQRSTUVWXYZ0123456789 -_.=*@:\x8e\xa5\xc5"
Item = TypeVar("Item")


class Frame(NamedTuple):
    """What was captured of a frame, and how many bytes the frame had."""

    captured: bytes
    length: int


def checksum(body: bytes) -> int:
    """The checksum of a datagram whose bytes behind the checksum are these."""
    total = 0
    for byte in body:
        total = total + byte & 0xFFFF
        total = total << 1 & 0xFFFF | total >> 15
    return total or 0xFFFF


class Chance:
    """Draws frames."""

    def __init__(self, seed: int) -> None:
        self.random = random.Random(seed)
        # The answer to the last request for zones.
        self.answer = b""

    def one(self, *choices: Item) -> Item:
        """One of these."""
        return self.random.choice(choices)

    def is_so(self, share: float) -> bool:
        """Whether it is so, in this share of all cases."""
        return self.random.random() < share

    def byte(self) -> int:
        """Any byte, the edges more often."""
        return self.one(0, 1, 254, 255, *(self.random.randrange(256) for _ in range(12)))

    def word(self) -> int:
        """Any number of two bytes, the edges more often."""
        return self.one(0, 1, 255, 256, 65535, *(self.random.randrange(65536) for _ in range(15)))

    def data(self, most: int) -> bytes:
        """Some bytes, mostly few."""
        return self.random.randbytes(min(most, self.one(0, 0, 1, 4, 9, 33, 200, most)))

    def text(self) -> bytes:
        """A name behind its length. Sometimes it is empty, or too long for NBP."""
        length = self.one(1, 1, 3, 8, 20, 31, 32) if self.is_so(0.97) else self.one(0, 33, 60)
        return bytes([length, *self.random.choices(LETTERS, k=length)])

    def names(self) -> bytes:
        """A packet of NBP."""
        function = self.one(1, 2, 3, 4) if self.is_so(0.95) else self.random.randrange(16)
        count = self.one(0, 1, 2, 3, 7) if function == 3 or self.is_so(0.05) else 1
        packet = bytes([function << 4 | count, self.byte()])
        for _ in range(count):
            packet += struct.pack(">HBBB", self.word(), self.byte(), self.byte(), self.byte())
            packet += self.text() + self.text() + self.text()
        return packet

    def transaction(self, is_for_zones: bool) -> bytes:
        """A packet of ATP."""
        function = self.one(0x40, 0x80, 0xC0) if self.is_so(0.97) else 0
        bitmap = self.byte() if function != 0x80 or self.is_so(0.05) else self.random.randrange(8)
        packet = struct.pack(">BBH", function | self.one(0, 0x20, 0x10, 0x08, 0x27), bitmap,
                             self.word())
        if is_for_zones:
            zones = [self.text() for _ in range(self.one(0, 1, 5))] if function == 0x80 else []
            head = len(zones) if function == 0x80 else self.word()
            packet += struct.pack(">BBH", self.one(7, 8, 9), self.one(0, 1), head)
            return packet + b"".join(zones)
        return packet + self.random.randbytes(4) + self.data(578)

    def segment(self) -> bytes:
        """A packet of ADSP."""
        descriptor = self.one(0x00, 0x40, 0x20, 0x80, 0x81, 0x82, 0x85, 0xC0, self.byte())
        head = struct.pack(">HIIHB", self.word(), self.random.randrange(2**32),
                           self.random.randrange(2**32), self.word(), descriptor)
        opening = struct.pack(">HHI", 0x0100, self.word(), self.random.randrange(2**32))
        return head + (opening if descriptor & 0x8F in range(0x81, 0x85) else self.data(572))

    def packet(self, kind: int, is_for_zones: bool) -> bytes:
        """What a datagram of this type has."""
        if kind == NAMES:
            return self.names()
        if kind == TRANSACTIONS:
            return self.transaction(is_for_zones)
        if kind == STREAMS:
            return self.segment()
        if kind == ZONES:
            return bytes([self.one(1, 2, 4, 5, 6, 7, 8), 0]) + self.data(60)
        return self.data(586)

    def answer_to(self, words: List[int], sockets: List[int], request: bytes) -> bytes:
        """The datagram that answers a request for zones."""
        zones = [self.text() for _ in range(self.one(1, 2, 5))]
        packet = b"\x90\0" + request[2:4] + struct.pack(">BBH", self.one(0, 1), 0, len(zones))
        net, other_net, node, other_node = words
        turned = other_net, net, other_node, node, *sockets[::-1]
        body = struct.pack(">HHBBBBB", *turned, TRANSACTIONS) + packet + b"".join(zones)
        return struct.pack(">HH", 4 + len(body), 0) + body

    def datagram(self, is_long: bool) -> bytes:
        """A datagram with the long or the short header, mostly sound."""
        if is_long and self.answer and self.is_so(0.5):
            answer, self.answer = self.answer, b""
            return answer
        kind = self.one(*TYPES)
        sockets = [self.one(ZONE_SOCKET, NAMES, self.byte(), self.byte()) for _ in range(2)]
        data = self.packet(kind, ZONE_SOCKET in sockets and kind == TRANSACTIONS)[:586]
        if not is_long:
            length = 5 + len(data) if self.is_so(0.95) else self.length()
            return struct.pack(">HBBB", self.bits() | length, *sockets, kind) + data
        words = [self.word(), self.word(), self.byte(), self.byte()]
        if kind == TRANSACTIONS and sockets[0] == ZONE_SOCKET and data[0] & 0xC0 == 0x40:
            self.answer = self.answer_to(words, sockets, data)
        body = struct.pack(">HHBBBBB", *words, *sockets, kind) + data
        length = 4 + len(body) if self.is_so(0.95) else self.length()
        total = self.one(0, checksum(body)) if self.is_so(0.95) else self.word()
        return struct.pack(">HH", self.bits() | length & 0x3FF, total) + body

    def bits(self) -> int:
        """The bits before a length: in a long header two free ones and the hops, else all free."""
        return self.one(0, 0, 3, 15, self.random.randrange(64)) << 10

    def length(self) -> int:
        """A length that need not be that of what follows."""
        return self.one(0, 4, 5, 12, 13, 591, 592, 599, 600, 1023, self.random.randrange(1024))

    def llap(self) -> bytes:
        """A frame of LocalTalk."""
        head = bytes([self.byte(), self.byte()])
        if self.is_so(0.05):
            kind = self.one(0x81, 0x82, 0x84, 0x85, 0, 3, 0x7F, 0xFF)
            return head + bytes([kind]) + self.data(20)
        is_long = self.is_so(0.5)
        return head + bytes([LONG if is_long else SHORT]) + self.datagram(is_long)

    def snap(self) -> bytes:
        """LLC and SNAP, and a datagram behind them."""
        if self.is_so(0.95):
            return DATAGRAM_SNAP + self.datagram(True)
        return self.one(AARP_SNAP, DATAGRAM_SNAP[:-1] + b"\x9c", b"\xe0\xe0\x03") + self.data(40)

    def ip(self, data: bytes) -> bytes:
        """A datagram of IPv4, without a checksum."""
        options = bytes(4 * self.one(0, 0, 0, 1, 10))
        fragment = self.one(0, 0x4000) if self.is_so(0.95) else self.one(0x2000, 1, 0x8000, 0x1FFF)
        protocol = 17 if self.is_so(0.97) else self.one(1, 6, 132)
        length = 20 + len(options) + len(data)
        length = length if self.is_so(0.97) else self.random.randrange(length + 20)
        head = struct.pack(">BBHHHBBH", 0x45 + len(options) // 4, 0, length, self.word(), fragment,
                           1, protocol, 0)
        return head + bytes([10, 0, 0, self.byte(), 239, 192, 76, 84]) + options + data

    def ltoudp(self) -> bytes:
        """A frame of LocalTalk over UDP, from the header of IPv4 on."""
        data = self.random.randbytes(4) + self.llap()
        port = LTOUDP_PORT if self.is_so(0.97) else self.one(1953, 1955, 9)
        length = 8 + len(data) if self.is_so(0.97) else self.random.randrange(len(data) + 16)
        source = self.one(LTOUDP_PORT, 1024 + self.random.randrange(60000))
        return self.ip(struct.pack(">HHHH", source, port, length, 0) + data)

    def station(self) -> bytes:
        """An address of Ethernet of one node."""
        return bytes([2, 0, 0, 0, self.byte(), self.byte()])

    def ethernet(self, kind: int, data: bytes) -> bytes:
        """A frame of Ethernet; its type is a length, or behind some tags."""
        to = self.one(self.station(), bytes.fromhex("090007FFFFFF"), b"\xff" * 6)
        tags = b"".join(bytes([0x81, 0, 0, self.byte()]) for _ in range(self.one(0, 0, 0, 1, 2)))
        frame = to + self.station() + tags + struct.pack(">H", kind) + data
        return frame.ljust(60, b"\0") if self.is_so(0.7) else frame

    def ethertalk(self) -> bytes:
        """A frame of EtherTalk, phase 2."""
        data = self.snap()
        length = len(data) if self.is_so(0.95) else self.one(0, 7, 8, 1500, len(data) - 1)
        return self.ethernet(length, data)

    def phase1(self) -> bytes:
        """A frame of EtherTalk, phase 1."""
        return self.ethernet(PHASE1 if self.is_so(0.97) else self.one(AARP, 0x809C), self.llap())

    def ltoudp_on_ethernet(self) -> bytes:
        """A frame of LocalTalk over UDP, on Ethernet."""
        return self.ethernet(IPV4 if self.is_so(0.97) else self.one(0x86DD, 0x0806), self.ltoudp())

    def any_carried(self) -> tuple:
        """A type, as cooked captures have it, and what follows."""
        kind = self.one(LLC_FOLLOWS, LLC_FOLLOWS, PHASE1, IPV4)
        bodies = {LLC_FOLLOWS: self.snap, PHASE1: self.llap, IPV4: self.ltoudp}
        return (kind, bodies[kind]()) if self.is_so(0.97) else (AARP, self.data(30))

    def cooked(self) -> bytes:
        """A frame of Linux's cooked captures, of the first version."""
        kind, data = self.any_carried()
        length = 6 if self.is_so(0.9) else self.one(0, 4, 8)
        source = self.station() + b"\0\0"
        return struct.pack(">HHH8sH", self.one(0, 4), 1, length, source, kind) + data

    def cooked_2(self) -> bytes:
        """A frame of the second version."""
        kind, data = self.any_carried()
        length = 6 if self.is_so(0.9) else self.one(0, 4, 8)
        source = self.station() + b"\0\0"
        return struct.pack(">HHIHBB8s", kind, 0, 2, 1, self.one(0, 4), length, source) + data

    def damaged(self, frame: bytes) -> Frame:
        """A frame, of which one in six has another byte, a tail, or an end that is not captured."""
        if self.is_so(0.05) and frame:
            at = self.random.randrange(len(frame))
            frame = frame[:at] + bytes([self.byte()]) + frame[at + 1 :]
        if self.is_so(0.05):
            frame += self.data(60)
        if self.is_so(0.07):
            return Frame(frame[: self.random.randrange(len(frame) + 1)], len(frame))
        return Frame(frame, len(frame))


class Kind(NamedTuple):
    """A kind of capture: its type of link, how its numbers and times are written, its carrier."""

    link: int
    order: str
    magic: int
    carrier: str


KINDS = {
    "ethertalk": Kind(ETHERNET, "<", MICROSECONDS, "ethertalk"),
    "phase1": Kind(ETHERNET, ">", NANOSECONDS, "phase1"),
    "localtalk": Kind(LOCALTALK, ">", MICROSECONDS, "llap"),
    "ltoudp": Kind(ETHERNET, "<", NANOSECONDS, "ltoudp_on_ethernet"),
    "ip": Kind(RAW_IP, "<", MICROSECONDS, "ltoudp"),
    "cooked": Kind(COOKED, "<", NANOSECONDS, "cooked"),
    "cooked2": Kind(COOKED_2, ">", MICROSECONDS, "cooked_2"),
}


def drawn(kind: Kind, count: int, seed: int) -> List[Frame]:
    """Some frames of a kind."""
    chance = Chance(seed)
    return [chance.damaged(getattr(chance, kind.carrier)()) for _ in range(count)]


def capture(kind: Kind, frames: List[Frame], seed: int) -> bytes:
    """A classic capture of frames, at random times, each behind the one before it."""
    chance, unit = random.Random(seed), 10**9 if kind.magic == NANOSECONDS else 10**6
    parts = [struct.pack(kind.order + "IHHiIII", kind.magic, 2, 4, 0, 0, 262_144, kind.link)]
    at = BEGIN * unit
    for frame in frames:
        at += chance.randrange(3 * unit)
        head = *divmod(at, unit), len(frame.captured), frame.length
        parts += [struct.pack(kind.order + "IIII", *head), frame.captured]
    return b"".join(parts)
