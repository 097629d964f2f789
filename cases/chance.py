"""Random lawful setups, and random events for a world of which is known what came of it so far.

Most arguments are sensible: numbers that were drawn, names that stand, datagrams that were sent. Some are silly. What
is forged is made of bytes that were sent: cut, changed, spliced, turned round, with its checksum right, wrong or 0.
"""

import collections

import cable
import protocols
from patterns import word_of
from protocols.zones import ZONES

NAMES = ("Printer", "Chat", "chat", "=")
TEXTS = ("Lab", "*", "%", "%00%FF", "%C5", "A" * 32)
WORDS = (0, 1, 2, 0x40, 0x7FFF, 0x8000, 0xFFFE, 0xFFFF)

# Each call and timer: how often it comes, in parts, and what draws the words after it.
KINDS = {("call", kind): row for kind, row in protocols.rows("CALLS").items()}
KINDS.update({("timer", kind): row for kind, row in protocols.rows("TIMERS").items()})
WEIGHTS = [weight for weight, _ in KINDS.values()]

# The reports of which a node has to have made one before it, to be sensible.
NEEDS = protocols.rows("NEEDS")
AT_ROUTER = protocols.words("AT_ROUTER")

# Of each socket the type of its datagrams, and bytes that its packets begin with.
FORGED = protocols.rows("FORGED")


class Setup:
    """A lawful setup, mostly with a router."""

    def __init__(self, random):
        self.net = random.choice((10, 10, 1, 65535))
        self.nodes = sorted(random.sample((1, 2, 5, 7, 9, 100, 253, 254), random.randint(1, 5)))
        self.router = random.choice(self.nodes) if random.random() < 0.8 else None
        self.lines = [f"net {self.net}", *(self.node_line(random, node) for node in self.nodes)]
        for word, share in (("zones", 0.9), ("local", 0.7)):
            if self.router and random.random() < share:
                count = random.choice((0, 1, 2, 5, 40, 150))
                self.lines.append(" ".join([word, *random.choices(ZONES, k=count)]))

    def node_line(self, random, node):
        line = f"node {node}"
        if self.router:
            line += " router" * (node == self.router) + f" zone {random.choice(ZONES)}"
        if random.random() < 0.8:
            largest = random.choice((1, 4, 64, 64, 1000, 65535))
            line += f" rooms {random.randint(1, largest)} {random.randint(1, largest)}"
        return line


class Chance:
    """Draws events that follow what came of a play."""

    def __init__(self, random, setup, came):
        self.random, self.setup = random, setup
        self.sent = [bytes.fromhex(line.split()[1]) for sent in came.sent for line in sent]
        self.drawn, self.fresh = collections.defaultdict(list), set(range(len(self.sent)))
        for event, report in zip(came.events, came.reports):
            words = event.split(" ", 3)
            if words[0] == "deliver":
                self.fresh.discard(int(words.pop(1)))
            word, _, rest = report.partition(" ")
            self.drawn[word, int(words[1])].append(rest)

    def is_so(self, share):
        return self.random.random() < share

    def one(self, *choices):
        return self.random.choice(choices)

    def node(self):
        return self.one(*self.setup.nodes) if self.is_so(0.99) else self.random.randint(1, 254)

    def recent(self, found):
        """One of the last of a list, or any."""
        return self.random.choice(found[-6:] if self.is_so(0.7) else found)

    def known(self, node, last, *words):
        """The first number of a report of a node that begins with one of these words, or any number."""
        found = [rest.split()[0] for word in words for rest in self.drawn[word, node]]
        return int(self.recent(found)) if found and self.is_so(0.9) else self.random.randint(0, last)

    def data(self):
        """Some bytes: mostly few."""
        length = self.one(0, 1, 2, 5, 20, 100) if self.is_so(0.95) else self.one(571, 572, 573, 578, 579)
        return self.random.randbytes(length)

    def text(self):
        return self.one(*NAMES) if self.is_so(0.85) else self.one(*TEXTS)

    def event(self):
        """An event: a datagram that was sent, one that was not, a call or a timer."""
        if self.is_so(0.55):
            return self.delivery() if self.sent and self.is_so(0.5) else self.forgery()
        first, kind = self.random.choices(list(KINDS), WEIGHTS)[0]
        needs = NEEDS.get(kind, "").split()
        ready = [node for node in self.setup.nodes if any(self.drawn[need, node] for need in needs)]
        if kind in NEEDS and not ready and self.is_so(0.8):
            return self.event()
        node = self.one(*ready) if ready and self.is_so(0.9) else self.node()
        if kind in AT_ROUTER and self.setup.router:
            node = self.setup.router
        _, words = KINDS[first, kind]
        return f"{first} {node} {kind} {words(self, node)}".rstrip()

    def delivery(self):
        fresh = sorted(self.fresh) if self.fresh and self.is_so(0.7) else range(len(self.sent))
        which = self.recent(fresh) if self.is_so(0.99) else self.random.randrange(2 * len(self.sent))
        self.fresh.discard(which)
        node = self.sent[which][8] if which < len(self.sent) else 0
        return f"deliver {which} {node if node in range(1, 255) and self.is_so(0.98) else self.node()}"

    # Forged bytes.

    def forgery(self):
        body = self.recent(self.sent) if self.sent and self.is_so(0.8) else self.made()
        for _ in range(self.one(0, 1, 1, 1, 2, 3)):
            body = self.one(self.cut, self.bent, self.placed, self.spliced, self.turned, self.tailed)(body)
        body = self.one(self.mended, self.mended, cable.summed, cable.unsummed, bytes)(body)
        node = body[8] if len(body) > 8 and body[8] in self.setup.nodes and self.is_so(0.95) else self.node()
        return f"forge {node} {word_of(body)}"

    def made(self):
        """A datagram that nobody sent: a header, and the packet of a socket with most of its bytes by chance."""
        socket = self.one(*FORGED)
        kind, controls = FORGED[socket]
        net = self.setup.net.to_bytes(2, "big")
        packet = bytes([self.one(*controls), self.one(0, 1, 255)]) + self.random.randbytes(self.one(0, 6, 11, 19))
        header = net + net + bytes([self.node(), self.node(), socket, self.one(*FORGED), kind])
        return self.mended(bytes(4) + header + packet)

    def mended(self, body):
        """The datagram with its length and its checksum right."""
        if len(body) < 13:
            return body
        return cable.summed(min(len(body), 599).to_bytes(2, "big") + body[2:])

    def cut(self, body):
        """The first bytes, mostly with the whole header."""
        return body[: max(self.random.randint(0, len(body)), self.one(0, 13, 13, 13))]

    def over(self, body, place, other):
        """The bytes with others in the place of those from there on."""
        return body[:place] + other[: max(len(body) - place, 0)] + body[place + len(other) :]

    def bent(self, body):
        """One byte is another."""
        byte = self.one(0, 1, 0x7F, 0x80, 0xFF, self.random.randrange(256))
        return self.over(body, self.random.randrange(len(body) + 1), bytes([byte]))

    def placed(self, body):
        """Two bytes of the packet are those of a number at an edge."""
        return self.over(body, self.random.randrange(13, max(len(body), 14)), self.one(*WORDS).to_bytes(2, "big"))

    def spliced(self, body):
        """Some bytes are those of another datagram at the same place."""
        other = self.recent(self.sent) if self.sent else self.made()
        first = self.random.randrange(len(other))
        return self.over(body, first, other[first : self.random.randint(first, len(other))])

    def turned(self, body):
        """Who sends is who receives."""
        return body[:4] + body[6:8] + body[4:6] + body[9:10] + body[8:9] + body[11:12] + body[10:11] + body[12:]

    def tailed(self, body):
        return body + self.random.randbytes(self.one(1, 2, 13, 100))
