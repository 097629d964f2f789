"""Random files of pcapng, as no single program writes them.

There are sections of either order, interfaces of each kind with all resolutions, packets in each
of the three blocks for them, options behind all, and blocks of other types.
"""

import random
import struct
from typing import List, NamedTuple, Tuple

from frames import BEGIN, KINDS, Chance, Frame

INTERFACE, OBSOLETE, SIMPLE, NAMES, STATISTICS, ENHANCED = range(1, 7)
# Of types that nobody has.
UNKNOWN = 0x0BAD0BAD, 0x80000001
PACKETS = ENHANCED, ENHANCED, ENHANCED, SIMPLE, OBSOLETE
END_OF_OPTIONS, COMMENT, RESOLUTION = 0, 1, 9
BINARY = 0x80


class Interface(NamedTuple):
    """An interface: the carrier of its frames, how long they may be, and its ticks in a second."""

    carrier: str
    longest: int
    unit: int


class Sections:
    """Writes a file, frame by frame."""

    def __init__(self, seed: int) -> None:
        self.random = random.Random(seed)
        self.chance = Chance(seed)
        self.order = "<"
        self.interfaces: List[Interface] = []
        self.parts: List[bytes] = []

    def numbers(self, form: str, *values: int) -> bytes:
        """Numbers in the order of the section."""
        return struct.pack(self.order + form, *values)

    def block(self, kind: int, body: bytes) -> None:
        """Writes a block."""
        body += bytes(-len(body) % 4)
        total = self.numbers("I", 12 + len(body))
        self.parts.append(self.numbers("I", kind) + total + body + total)

    def options(self, *options: Tuple[int, bytes]) -> bytes:
        """Some options, among comments. Their end is sometimes left out."""
        written = b""
        for code, value in ((COMMENT, b"c" * self.random.randrange(9)), *options):
            if code != COMMENT or self.random.random() < 0.3:
                padding = bytes(-len(value) % 4)
                written += self.numbers("HH", code, len(value)) + value + padding
        end = self.random.random() < 0.7 and written
        return written + (self.numbers("HH", END_OF_OPTIONS, 0) if end else b"")

    def section(self) -> None:
        """Begins a section of some order, whose length may be stated as unknown."""
        self.order, self.interfaces = self.random.choice("<>"), []
        self.block(0x0A0D0D0A, self.numbers("IHHq", 0x1A2B3C4D, 1, 0, -1) + self.options())
        self.interface()

    def interface(self) -> None:
        """Writes an interface."""
        kind = self.random.choice(list(KINDS.values()))
        power = self.random.choice((None, None, *range(10), *(BINARY + it for it in range(31))))
        unit = 10**6 if power is None else 10**power if power < BINARY else 2 ** (power - BINARY)
        longest = self.random.choice((0, 262_144, 65_535, 64))
        options = () if power is None else ((RESOLUTION, bytes([power])),)
        body = self.numbers("HHI", kind.link, 0, longest) + self.options(*options)
        self.block(INTERFACE, body)
        self.interfaces.append(Interface(kind.carrier, longest, unit))

    def packet(self, at: int) -> None:
        """Writes a packet in that second."""
        block = self.random.choice(PACKETS)
        number = 0 if block == SIMPLE else self.random.randrange(len(self.interfaces))
        interface = self.interfaces[number]
        frame = self.chance.damaged(getattr(self.chance, interface.carrier)())
        ticks = at * interface.unit + self.random.randrange(interface.unit)
        if block == SIMPLE:
            self.simple(interface, frame)
        else:
            ids = (number,) if block == ENHANCED else (number, self.random.randrange(2**16))
            head = self.numbers("I" if block == ENHANCED else "HH", *ids)
            lengths = len(frame.captured), frame.length
            head += self.numbers("IIII", ticks >> 32, ticks % 2**32, *lengths)
            padding = bytes(-len(frame.captured) % 4)
            self.block(block, head + frame.captured + padding + self.options())

    def simple(self, interface: Interface, frame: Frame) -> None:
        """Writes a packet without a time. It is cut by its interface alone."""
        whole = frame.captured
        captured = whole[: interface.longest] if interface.longest else whole
        self.block(SIMPLE, self.numbers("I", len(whole)) + captured)

    def other(self) -> None:
        """Writes a block that has no packet."""
        kind = self.random.choice((NAMES, STATISTICS, *UNKNOWN))
        bodies = {NAMES: bytes(4), STATISTICS: self.numbers("III", 0, 0, 0)}
        self.block(kind, bodies.get(kind, self.random.randbytes(4 * self.random.randrange(9))))


def sections(count: int, seed: int) -> bytes:
    """A file of so many packets."""
    writer = Sections(seed)
    writer.section()
    for at in range(count):
        chance = writer.random.random()
        if chance < 0.01:
            writer.section()
        elif chance < 0.06 and len(writer.interfaces) < 9:
            writer.interface()
        elif chance < 0.12:
            writer.other()
        writer.packet(BEGIN + at)
    return b"".join(writer.parts)
