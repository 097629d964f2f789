"""ATP: asking a service, and answering for it."""

from patterns import BYTE, DATA, SHORT, word_of

REPORTS = {
    "begun": SHORT,
    "answered": "[0-8]",
    "response": f"{SHORT}(?: [0-9A-F]{{8}}:{DATA}){{1,8}}",
    "failed": SHORT,
    "asked": f"{BYTE} {BYTE} {SHORT} [0-9A-F]{{8}} {DATA}",
}
SENTENCES = {
    10: "the ATP packet is under 8 bytes, so its header is cut short",
    11: "the function bits are 00, which is no ATP packet",
    12: "the sequence number of an ATP response is over 7",
    13: "a packet has over 578 bytes of data, or the answer has over 8 packets",
    14: "the node already has 32 open transactions, or the socket already has 64 records",
    15: "no open transaction has this number, or no record is kept of this request",
    16: "the answer has no packets",
    17: "a request that still waits for its answer cannot expire",
    18: "the request has already been answered",
}
PLACE = 2
COMES = {
    "call ask": ("begun", (13, 14)),
    "call answer": ("answered", (13, 15, 16, 18)),
    "timer retry": ("again failed zonesfailed", (15,)),
    "timer release": ("done", (15, 17)),
}
HEARD = "kept response again asked released"
REFUSED = (10, 11, 12)
FORGED = dict.fromkeys((128, 129), (3, (0x40, 0x60, 0x80, 0x90, 0xC0)))


def ask(chance, _):
    address = f"{chance.node()} {chance.one(129, 129, 129, 6, 128, 200)}"
    data = word_of(chance.data())
    return f"{address} {user(chance)} {data} {chance.one(1, 2, 8)} {chance.one('alo', 'xo')} {chance.one(0, 1, 255)}"


def user(chance):
    return chance.one("00000000", "08000001", "09000001", "DEADBEEF")


def answer(chance, node):
    packets = [f"{user(chance)}:{word_of(chance.data())}" for _ in range(chance.one(1, 1, 2, 8, 0, 9))]
    return " ".join([key(chance, node), *packets])


def key(chance, node):
    """Who asked, and under which number. What was forged may come of a node or a socket that no line names."""
    asked = [rest.split()[:3] for rest in chance.drawn["asked", node]]
    asked = [words for words in asked if not {"0", "255"} & set(words[:2])]
    if asked and chance.is_so(0.9):
        return " ".join(chance.recent(asked))
    return f"{chance.node()} 128 {chance.one(0, 1, 65535)}"


def retry(chance, node):
    return chance.known(node, 65535, "begun")


def release(chance, node):
    return f"{chance.one(6, 129, 129)} {key(chance, node)}"


CALLS = {"ask": (6, ask), "answer": (8, answer)}
TIMERS = {"retry": (3, retry), "release": (3, release)}
NEEDS = {"answer": "asked", "retry": "begun", "release": "asked"}
DRAWS = ("call ask",)
