"""The headers of a datagram and of a segment, two bytes a row, with the values of a real one."""

from collections.abc import Iterator
from typing import NamedTuple

from svg import BLUE, INK, PALE, PAPER, SOFT, Picture, cut, width_of


class Field(NamedTuple):
    """A field: its name, how many bits it has, what it says, and a short name for a narrow box."""

    name: str
    bits: int
    says: str
    short: str = ""


DATAGRAM = [
    Field("free", 2, "written as 0"),
    Field("hops", 4, "how many routers it has passed, 0 to 15"),
    Field("length", 10, "in bytes, with this header: 13 to 599"),
    Field("checksum", 16, "of all bytes after it; 0 if none was computed"),
    Field("destination network", 16, "0 means the own network"),
    Field("source network", 16, "that of the sender"),
    Field("destination node", 8, "1 to 254, or 255 for every node"),
    Field("source node", 8, "1 to 254"),
    Field("destination socket", 8, "1 to 254; 6 is zones"),
    Field("source socket", 8, "1 to 254"),
    Field("type", 8, "the protocol of the data; 3 is ATP"),
    Field("data", 0, "0 to 586 bytes"),
]
SEGMENT = [
    Field("source ConnID", 16, "the connection identifier of the sending end"),
    Field("PktFirstByteSeq", 32, "sequence number of the first byte of data"),
    Field("PktNextRecvSeq", 32, "sequence number that the sender expects next"),
    Field("PktRecvWdw", 16, "how many bytes from there on it has room for"),
    Field("control bit", 1, "1 in a control packet, which has no data", "ctl"),
    Field("ack request", 1, "1 asks for an acknowledgement", "ack"),
    Field("end of message", 1, "1 if a message ends after the data", "EOM"),
    Field("attention", 1, "1 in an attention message", "att"),
    Field("control code", 4, "which control packet, 0 to 8"),
    Field("data", 0, "0 to 572 bytes"),
]

# A row has two bytes. The texts beside it begin where it ends.
ROW_BITS, BIT, ROW, LEFT, TOP = 16, 27, 34, 70, 84
NAMES = LEFT + ROW_BITS * BIT + 24
TEXTS = NAMES + 150
LINE = 22


class Place(NamedTuple):
    """A field at its bit, with its value in a real packet."""

    field: Field
    bit: int
    value: str


def places(fields: list[Field], packet: bytes) -> Iterator[Place]:
    """The fields of a packet, each after the one before. The data are what is left."""
    bit, whole = 0, int.from_bytes(packet, "big")
    for field in fields:
        bits = field.bits or 8 * len(packet) - bit
        number = whole >> (8 * len(packet) - bit - bits) & ((1 << bits) - 1)
        yield Place(field, bit, f"{number:0{-(-bits // 4)}X}" if bits > 1 else str(number))
        bit += bits


def draw_header(title: str, fields: list[Field], packet: bytes, shown: str) -> str:
    """The picture of a header. `shown` says which packet the values are of."""
    placed = list(places(fields, packet))
    told = (f"Bit {it.bit}, {it.field.name}: {it.field.says}; here {it.value}." for it in placed)
    picture = Picture(title, " ".join([f"The values are of {shown}, in hexadecimal.", *told]))
    picture.text(LEFT, 26, title, 14, font_weight="bold")
    picture.text(LEFT, 46, f"In blue: {shown}, in hexadecimal.", 11, BLUE)
    for bit in range(ROW_BITS):
        x = LEFT + BIT * bit + BIT / 2
        picture.text(x, TOP - 8, str(7 - bit % 8), 10, SOFT, text_anchor="middle")
    for it in placed:
        draw_field(picture, it)
    for at, it in enumerate(placed):
        y = TOP + 16 + LINE * at
        picture.text(NAMES, y, it.field.name, 11, INK, font_weight="bold")
        picture.text(TEXTS, y, it.field.says, 11, INK)
    rows = placed[-1].bit // ROW_BITS + 1
    width = TEXTS + max(width_of(it.says, 11) for it in fields) + 20
    return picture.svg(width, TOP + max(ROW * rows, LINE * len(placed)) + 20)


def draw_field(picture: Picture, place: Place) -> None:
    """Draws a field over its bits. One of more than a row is as high as its rows."""
    row, column = divmod(place.bit, ROW_BITS)
    bits = place.field.bits or ROW_BITS - column
    rows, width = -(-bits // ROW_BITS), min(bits, ROW_BITS) * BIT
    x, y = LEFT + column * BIT, TOP + row * ROW
    fill = PALE if place.field.bits else PAPER
    picture.box(x, y, width, rows * ROW, fill, stroke=INK)
    if column == 0:
        picture.text(LEFT - 10, y + 21, f"byte {place.bit // 8}", 10, SOFT, text_anchor="end")
    middle, high = x + width / 2, y + rows * ROW / 2
    name = place.field.short or place.field.name
    picture.text(middle, high - 2, name, 11, INK, text_anchor="middle")
    value = cut(place.value, int(width / width_of("0", 10)) - 1)
    picture.text(middle, high + 12, value, 10, BLUE, text_anchor="middle")
