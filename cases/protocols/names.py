"""NBP: finding names, claiming them and having them."""

from patterns import BYTE, FIND, number

REPORTS = {
    "looking": BYTE,
    "found": f"(?: {FIND}){{0,256}}",
    "taken": FIND,
    "names": number(1, 64),
    "finds": number(1, 15),
}
SENTENCES = {
    20: "the NBP packet is under 2 bytes, or ends in the address of a tuple",
    21: "the NBP function is not 1, 2, 3 or 4",
    22: "a BrRq, LkUp or FwdReq has not exactly one tuple, or a reply has more than 15",
    23: "an object, a type or a zone is cut short or over 32 bytes",
    24: "the node has a name with this object and type already",
    25: "the node has no name with this object and type",
    26: "the object or the type of a name is empty or just `=`",
    27: "the node has 64 names already",
    28: "the node has 8 open lookups already",
    29: "the node has no open lookup with this identifier",
}
PLACE = 4
COMES = {
    "call find": ("looking", (28,)),
    "call claim": ("looking", (26, 28)),
    "call finish": ("found claimed taken", (27, 29)),
    "call register": ("done", (24, 26, 27)),
    "call unregister": ("done", (25,)),
    "timer lookup": ("again", (29,)),
}
HEARD = "relayed names finds"
REFUSED = (20, 21, 22, 23)
FORGED = {2: (2, (0x21, 0x31))}

SOCKETS = (2, 6, 128, 129, 130)


def find(chance, _):
    return " ".join(chance.text() for _ in range(chance.one(2, 3)))


def name(chance, _):
    return f"{chance.text()} {chance.text()}"


def owned(chance, node):
    return f"{name(chance, node)} {chance.one(*SOCKETS)}"


def lookup(chance, node):
    return chance.known(node, 255, "looking")


CALLS = {
    "find": (4, find),
    "claim": (2, owned),
    "finish": (4, lookup),
    "register": (4, owned),
    "unregister": (1, name),
}
TIMERS = {"lookup": (1, lookup)}
NEEDS = {"finish": "looking", "unregister": "done", "lookup": "looking"}
