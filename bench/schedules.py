"""The kinds of schedules that `measure.py` plays, each by a number of events: their lines."""

SMALL, LARGE = 20_000, 196_000

# How often each packet of an answer comes, so that the large schedule stays under the 64 megabytes that one may have.
COMINGS = 4


def zone_requests(events):
    yield from ("net 10", "node 1 router zone Lab", "node 5 zone Lab", "zones Lab Office")
    for reading in range(events // 3):
        yield "call 5 zones"
        yield f"deliver {2 * reading} 1"
        yield f"deliver {2 * reading + 1} 5"


# A table of the most names, each as long as it may be, and the pages that it takes.
ZONES, PAGES = 1024, 61


def zone_lists(events):
    yield from ("net 10", "node 1 router zone Lab", "node 5 zone Lab")
    yield "zones " + " ".join(f"{number:032}" for number in range(ZONES))
    for reading in range(events // (1 + 2 * PAGES)):
        yield "call 5 zones"
        for page in range(PAGES * reading, PAGES * (reading + 1)):
            yield f"deliver {2 * page} 1"
            yield f"deliver {2 * page + 1} 5"


def transactions(events):
    packet = "00000000:" + "A5" * 578
    yield from ("net 10", "node 5", "node 7")
    for number in range(events // (3 + 8 * COMINGS)):
        first = 9 * number
        yield "call 5 ask 7 129 00000000 - 8 alo 0"
        yield f"deliver {first} 7"
        yield f"call 7 answer 5 128 {number % 65536} " + " ".join([packet] * 8)
        for _ in range(COMINGS):
            for place in range(1, 9):
                yield f"deliver {first + place} 5"


def numbers(events):
    yield from ("net 10", "node 5", "node 7")
    for number in range(events // 2):
        yield "call 5 ask 7 129 00000000 - 1 alo 0"
        yield f"timer 5 retry {number % 65536}"


# Nodes, each of which asks the 15 others in turn.
NODES = 16


def sixteen_nodes(events):
    yield from ("net 10", *(f"node {node}" for node in range(1, NODES + 1)))
    for turn in range(events // 4):
        asker, number = turn % NODES, turn // NODES
        answerer = (asker + 1 + number % (NODES - 1)) % NODES
        yield f"call {asker + 1} ask {answerer + 1} 129 00000000 - 1 alo 0"
        yield f"deliver {2 * turn} {answerer + 1}"
        yield f"call {answerer + 1} answer {asker + 1} 128 {number % 65536} 00000000:{'A5' * 16}"
        yield f"deliver {2 * turn + 1} {asker + 1}"


# The most transactions that a node may have open, and half of the most records.
OPEN = 32


def full_tables(events):
    """Each node asks the next one until its transactions and the records of the next one are as many as may stand."""
    pairs = tuple((node, node % NODES + 1) for node in range(1, NODES + 1))
    ask = "129 00000000 - 1 xo 255"
    yield from ("net 10", *(f"node {node}" for node, _ in pairs))
    sent = 0
    for tid in range(OPEN):
        for asker, answerer in pairs:
            yield f"call {asker} ask {answerer} {ask}"
            yield f"deliver {sent} {answerer}"
            yield f"call {answerer} answer {asker} 128 {tid} 00000000:{'A5' * 16}"
            yield f"deliver {sent + 1} {asker}"
            yield f"deliver {sent + 2} {answerer}"
            sent += 3
    for tid in range(OPEN):
        for asker, answerer in pairs:
            yield f"call {asker} ask {answerer} {ask}"
            yield f"deliver {sent} {answerer}"
            sent += 1
    for again in range((events - 7 * OPEN * NODES) // 2):
        asker, answerer = pairs[again % NODES]
        yield f"timer {asker} retry {OPEN + again // NODES % OPEN}"
        yield f"deliver {sent + again} {answerer}"


# The nodes that have a name each. The first of all nodes is the router, and the last one looks the names up.
OWNERS = range(2, NODES)


def lookups(events):
    yield from ("net 10", "node 1 router zone Lab", *(f"node {node} zone Lab" for node in range(2, NODES + 1)))
    for node in OWNERS:
        yield f"call {node} register Printer{node} LaserWriter 130"
    for number in range((events - len(OWNERS)) // (3 + 2 * len(OWNERS))):
        first = (2 + len(OWNERS)) * number
        yield f"call {NODES} find = LaserWriter Lab"
        yield f"deliver {first} 1"
        for node in OWNERS:
            yield f"deliver {first + 1} {node}"
        for place in range(len(OWNERS)):
            yield f"deliver {first + 2 + place} {NODES}"
        yield f"call {NODES} finish {number % 256}"


# The nodes that have a session each, all at once, with the next of them. The first of all nodes is the router.
USERS = range(2, NODES + 1)

# How many events a session has, and how many datagrams.
STEPS, SENT = 21, 11


def session(turn, place):
    """The events of one session. Of each step all sessions of its turn play theirs before the next step."""
    node, peer = USERS[place], USERS[(place + 1) % len(USERS)]
    first = SENT * len(USERS) * turn + place
    sent = range(first, first + SENT * len(USERS), len(USERS))
    own, made = 2 * turn + 1, 2 * turn + 2
    return (
        f"call {node} zones",
        f"deliver {sent[0]} 1",
        f"deliver {sent[1]} {node}",
        f"call {node} pick Office",
        f"call {node} find Chat{peer} Stream",
        f"deliver {sent[2]} 1",
        f"deliver {sent[3]} {peer}",
        f"deliver {sent[4]} {node}",
        f"call {node} finish {turn % 256}",
        f"call {node} open 0",
        f"deliver {sent[5]} {peer}",
        f"deliver {sent[6]} {node}",
        f"deliver {sent[7]} {peer}",
        f"call {node} write {own} 6869 end",
        f"deliver {sent[8]} {peer}",
        f"deliver {sent[9]} {node}",
        f"call {peer} read {made} 10",
        f"call {node} close {own}",
        f"deliver {sent[10]} {peer}",
        f"call {peer} close {made}",
        f"call {node} close {own}",
    )


def sessions(events):
    yield from ("net 10", "node 1 router zone Lab", *(f"node {node} zone Office" for node in USERS), "zones Lab Office")
    for node in USERS:
        yield f"call {node} listen on"
        yield f"call {node} register Chat{node} Stream 130"
    for turn in range((events - 2 * len(USERS)) // (STEPS * len(USERS))):
        for step in zip(*(session(turn, place) for place in range(len(USERS)))):
            yield from step


def opened(room):
    """Opens a stream from node 5 to node 7, whose ends have these rooms: 5 events, and datagrams 0 to 2."""
    yield from ("net 10", f"node 5 rooms {room}", f"node 7 rooms {room}")
    yield from ("call 7 listen on", "call 5 connect 7 130", "deliver 0 7", "deliver 1 5", "deliver 2 7")


def stream_writes(events):
    yield from opened("1000 1000")
    for number in range((events - 5) // 4):
        yield "call 5 write 1 " + f"{number % 256:02X}" * 500
        yield f"deliver {3 + 2 * number} 7"
        yield f"deliver {4 + 2 * number} 5"
        yield "call 7 read 1 500"


def tiny_rooms(events):
    yield from opened("1 4")
    for number in range((events - 5) // 17):
        first = 3 + 12 * number
        yield "call 5 write 1 616263 end"
        for item in range(4):
            # The item, the answer that there is no room for another, and the one that there is room again.
            yield f"deliver {first + 3 * item} 7"
            yield f"deliver {first + 3 * item + 1} 5"
            yield "call 7 read 1 1"
            yield f"deliver {first + 3 * item + 2} 5"


# An end of a message is a segment of its own. So many of them are sent, and sent again so often.
ENDS, RESENDS = 65_535, 13


def ends_of_messages():
    yield from ("net 10", "node 5 rooms 65535 65535", "node 7 rooms 65535 65535")
    yield from ("call 7 listen on", "call 5 connect 7 130", "deliver 0 7", "deliver 1 5")
    yield "call 5 write 1" + " end" * ENDS
    for _ in range(RESENDS):
        yield "timer 5 resend 1"


def local_zone_lists(events):
    """A node reads the zones of its router's cable, and then all zones."""
    yield from ("net 10", "node 1 router zone Lab", "node 5 zone Lab", "zones Lab Office", "local Lab")
    for reading in range(2 * (events // 6)):
        yield f"call 5 {'zones' if reading % 2 else 'localzones'}"
        yield f"deliver {2 * reading} 1"
        yield f"deliver {2 * reading + 1} 5"


KINDS = (
    ("zone requests", zone_requests),
    ("zone lists of 1,024 names", zone_lists),
    ("transactions of eight full packets", transactions),
    ("all numbers in turn", numbers),
    ("sixteen nodes that ask each other", sixteen_nodes),
    ("thirty-two open and 64 records at each", full_tables),
    ("lookups", lookups),
    ("sessions", sessions),
    ("stream of 500-byte writes", stream_writes),
    ("stream in tiny rooms", tiny_rooms),
    ("local zone lists", local_zone_lists),
)
