"""The tables of each node, as far as the reports of a play tell what stands in them: open transactions and lookups,
names, and ends of streams.

No table may hold more than its limit, nor two entries under one number. What adds an entry is refused for a full table
only where it is full.
"""

import collections

import cable

# How much each table holds, and the refusal where it is full.
LIMITS = {"transactions": (32, 14), "lookups": (8, 28), "names": (64, 27), "ends": (16, 50)}

# The reports that begin and end an entry, which they name.
ADDS = {"begun": "transactions", "looking": "lookups", "opening": "ends", "made": "ends"}
DROPS = {"response": "transactions", "failed": "transactions", "freed": "ends", "denied": "ends"}

# The reports that end a node's reading of a zone table, which they don't name, and those that end a named lookup.
READ, FINISHED = ("zones", "localzones", "zonesfailed", "zonefault"), ("found", "claimed", "taken")


class Tables:
    """The tables of one node, and the number under which its reading of a zone table asks."""

    def __init__(self):
        self.held = {table: [] for table in LIMITS}
        self.reading = None

    def add(self, table, entry):
        held = self.held[table]
        if entry in held and table != "names" or len(held) == LIMITS[table][0]:
            raise cable.Wrong(f"{entry} is one too many of the {table}: {held}")
        held.append(entry)

    def drop(self, table, entry):
        if entry not in self.held[table]:
            raise cable.Wrong(f"{entry} is none of the {table}: {self.held[table]}")
        self.held[table].remove(entry)

    def take(self, event, report):
        """Takes the report of an event of this node."""
        word, *rest = report.split(" ", 2)
        if word == "refused":
            self.take_refusal(event, int(rest[0]))
        elif word in READ or word == "begun" and not event.startswith("call "):
            self.drop("transactions", self.reading)
            self.reading = None
        if word in ADDS:
            self.add(ADDS[word], int(rest[0]))
        elif word in DROPS:
            self.drop(DROPS[word], int(rest[0]))
        self.note(event, word, rest)

    def note(self, event, word, rest):
        """Notes a reading, the end of a lookup, and the names, whose reports don't name an entry."""
        kind = cable.kind_of(event)
        if word == "begun" and kind != "call ask":
            self.reading = int(rest[0])
        if word in FINISHED:
            self.drop("lookups", int(event.split()[3]))
        if word == "claimed" or word == "done" and kind == "call register":
            self.add("names", "a name")
        elif word == "done" and kind == "call unregister":
            self.drop("names", "a name")

    def take_refusal(self, event, refusal):
        """A call is refused for a full table only where it is full. Which records stand, no report tells."""
        for table, (limit, full) in LIMITS.items():
            if refusal == full and event.startswith("call ") and len(self.held[table]) != limit:
                raise cable.Wrong(f"refused {refusal} of {len(self.held[table])} {table}: {event}")


def check(came):
    """Follows the tables of all nodes through a play."""
    nodes = collections.defaultdict(Tables)
    for event, report in zip(came.events, came.reports):
        if report != "ignored":
            words = event.split(" ", 3)
            nodes[int(words[2 if words[0] == "deliver" else 1])].take(event, report)
