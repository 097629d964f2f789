"""ADSP: streams between two ends."""

from patterns import END, HEX, SHORT, number, word_of

REPORTS = {
    "opening": END,
    "wrote": SHORT,
    "read": f"(?: {HEX}(?= end|$)| end)*",
    "closed": END,
    "freed": END,
    "made": END,
    "opened": END,
    "denied": END,
    "heard": f"{END} {number(0, 573)}",
    "dropped": END,
}
SENTENCES = {
    40: "the ADSP packet is under 13 bytes, or opens a connection in under 21 bytes",
    41: "the control code of an ADSP packet is over 8",
    42: "the version of the ADSP connection to open is not 0100",
    43: "the ADSP packet is an attention message, which is not supported",
    44: "the ADSP packet has over 572 bytes of data",
    50: "the node already has 16 stream ends",
    51: "this end of the stream is not open",
    52: "the node has no stream end with this identifier",
    53: "the stream's send queue is full",
    54: "the connection was denied",
}
PLACE = 5
COMES = {
    "call open": ("opening", (50, 62)),
    "call listen": ("done", ()),
    "call connect": ("opening", (50,)),
    "call write": ("wrote", (51, 52, 53)),
    "call read": ("read", (51, 52)),
    "call reset": ("done", (51, 52)),
    "call close": ("closed freed", (52,)),
    "timer resend": ("again idle", (51, 52)),
    "timer probe": ("again closed freed", (51, 52)),
}
HEARD = "made opened turned denied heard dropped closed"
REFUSED = (40, 41, 42, 43, 44)
FORGED = {130: (7, (0x40, 0x60, 0x80, 0x90, 0xC0))}


def find(chance, _):
    return chance.one(0, 0, 0, 1, 300)


def listen(chance, _):
    return chance.one("on", "on", "off")


def connect(chance, _):
    return f"{chance.node()} {chance.one(130, 130, 130, 129)}"


def end(chance, node):
    return chance.known(node, 65535, "opening", "made")


def write(chance, node):
    items = [chance.one("end", word_of(chance.data())) for _ in range(chance.one(0, 1, 2, 5))]
    return " ".join([str(end(chance, node)), *items])


def read(chance, node):
    return f"{end(chance, node)} {chance.one(0, 1, 10, 65535)}"


CALLS = {
    "open": (3, find),
    "listen": (4, listen),
    "connect": (4, connect),
    "write": (6, write),
    "read": (4, read),
    "reset": (1, end),
    "close": (1, end),
}
TIMERS = {"resend": (3, end), "probe": (2, end)}
NEEDS = {"open": "found", **dict.fromkeys(("write", "read", "reset", "close", "resend", "probe"), "opened")}
DRAWS = ("call connect", "call open")
