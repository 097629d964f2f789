"""What the prover printed of a crate with wrong bodies in it, read function by function."""

from __future__ import annotations

import re
from typing import NamedTuple

from bodies import TRIES, Body

# How a goal failed. A proof names what is gone, or has other cases or parts. Or the goal is open: the prover met a
# limit, knows that it does not follow, or found no proof. Else the answer that a proof has for it does not fit.
HOW = [
    ("names", r"has no field|is not in scope|has no `|was not admitted|declarations? that depends? on `"),
    ("shape", r"write the case|no case of the|tuple has \d+ component|takes? \d+ argument"),
    ("limit", r"gave up at one of its limits|stopped at (its own|the step) limit|ran out of|outgrew the memory limit"),
    ("false", r"goal does not follow|the goal fails|may be false|this goal is false"),
    ("search", r"no proof of|is not proved that"),
]
SUREST = ["false", "answer", "search", "limit"]
ERROR = re.compile(r"(?:\./)?proofs/(\S+)\.antt:\d+:\d+: error: (?:`([^`]*)`: )?")
NOTE = re.compile(r"note: src/\S+?:\d+:\d+: it is not proved that .*?\(`([^`]+)`\)")
SAID = re.compile(r"(?:fn|impl|trait|struct|enum) (\S+): (.*)")
FRONT = re.compile(r"(?m)^(?:\./)?((?:src|specs)/\S+?):(\d+):\d+: (error.*)")


class Verdict(NamedTuple):
    """A verdict on a body: refused, name-only, proved, bad, untold or again; and what to say of it."""

    kind: str
    words: str = ""


class Failure(NamedTuple):
    """A goal of a function that is not proved, how it failed, and the line that says so."""

    function: str
    how: str
    goal: str
    line: str


def owner(name: str) -> str:
    """The function of the source to which a function of a report belongs: a closure's, or itself."""
    return re.sub(r"::fn::(\w+)::.*", r"::\1", name)


def how(line: str) -> str:
    """How the goal failed of which a line tells."""
    return next((it for it, words in HOW if re.search(words, line)), "answer")


class Report:
    """A check's report: the functions that it knows, what each waits for, and what failed."""

    def __init__(self, crate: str, status: int, text: str) -> None:
        self.crate, self.status = crate, status
        self.front = [(path, int(line), said) for path, line, said in FRONT.findall(text)]
        self.known: set[str] = set()
        self.waits: dict[str, set[str]] = {}
        self.failures: list[Failure] = []
        notes: list[tuple[str, str]] = []
        for line in text.split("\n"):
            if found := ERROR.match(line):
                self._note_error(found[1], found[2] or "", line)
            elif found := NOTE.match(line):
                notes.append((found[1], line))
            elif found := SAID.match(line):
                # (a function's line comes after the notes on its goals)
                self._note_function(found[1], found[2], notes)
                notes = []

    def _note_error(self, path: str, goal: str, line: str) -> None:
        # The file is of a function, whose name has a + before it where it calls itself, or of lemmas.
        name = re.sub(r"/(Answers|Proof|Invariants)$", "", path).replace("/+", "/").replace("/", "::")
        self.failures.append(Failure(owner(f"{self.crate}::{name}"), how(line), goal, line))

    def _note_function(self, name: str, said: str, notes: list[tuple[str, str]]) -> None:
        self.known.add(owner(name))
        if not said.startswith("proved"):
            self.failures += [Failure(owner(name), how(line), goal, line) for goal, line in notes]
        if re.search(r"it calls|it passes|waits? for", said):
            self.waits.setdefault(owner(name), set()).update(map(owner, re.findall(r"`(\S+::\S+)`", said)))

    def goal_of(self, functions: set[str]) -> str:
        """The open goal of these functions whose failure is surest, as words; empty if there is none."""
        # Where a goal that had an answer is gone, those in its place have none: that one is left open says little.
        gone = {it.function for it in self.failures if ".Goals` has no `" in it.line}
        own = [it for it in self.failures if it.function in functions]
        sure = [it for it in own if it.how in SUREST[: 2 if it.function in gone else 4]]
        best = min(sure, key=lambda it: SUREST.index(it.how), default=None)
        return f"{best.goal} of {best.function.partition('::')[2]} ({best.how})" if best else ""

    def reached(self, functions: set[str]) -> set[str]:
        """The functions that these wait for, at any depth."""
        found: set[str] = set()
        more = set(functions)
        while more - found:
            found, more = found | more, {it for name in more for it in self.waits.get(name, ())}
        return found - functions

    def stray(self, group: list[Body]) -> str:
        """An open goal of a function in which no body of the group stands, as words."""
        own = {it for body in group for it in body.told()}
        return self.goal_of({it.function for it in self.failures} - set(self.waits) - own)

    def read(self, body: Body, group: list[Body]) -> Verdict:
        """The verdict on a body that was tried in this group. `again` notes with what it may not be tried."""
        goal = self.goal_of(body.told())
        if goal:
            return Verdict("refused", goal)
        return self._put_off(body, group) if len(group) > 1 else self._read_alone()

    def _put_off(self, body: Body, group: list[Body]) -> Verdict:
        # What stands near an error of the front end, or waits for no other, or seems proved, is tried alone.
        at_fault = {(path, line + by) for path, line, _ in self.front for by in range(-12, 12)}
        near = [it for it in group if at_fault & it.stands] or group
        waits = self.reached(body.told())
        if self.front:
            body.tries += TRIES if body in near else 0
        else:
            body.tries += 1 if waits else TRIES
        body.avoids |= waits
        return Verdict("again", "alone" if body.tries >= TRIES else "")

    def _read_alone(self) -> Verdict:
        if self.status == 0:
            return Verdict("proved")
        if self.front:
            return Verdict("bad", "{}:{}: {:.120}".format(*self.front[0]))
        # (a function that waits for another may fail for that alone)
        goal = self.goal_of({it.function for it in self.failures} - set(self.waits))
        told = [it.line for it in self.failures if it.how in ("names", "shape")]
        if goal:
            return Verdict("refused", goal)
        if told and self.status == 1:
            return Verdict("name-only", told[0][:160])
        return Verdict("untold", f"its check ended with status {self.status}")
