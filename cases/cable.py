"""What `bend` and `fuzz` share: playing a schedule by a built program, and reading strictly what it prints.

Each line has to be of the language of docs/SCHEDULES.md: one report an event, of those that this event may have, and
under it what it sent. Anything else is `Wrong`, and so is a crash, or a play that does not come to its end in time.
"""

import itertools
import re
import subprocess

import protocols
from patterns import BYTE, number

SECONDS = 60

# Refusals of a datagram. A new request may also meet a full socket.
DATAGRAM, FULL = (1, 2, 3, 4), 14


class Wrong(Exception):
    """What is wrong with a play."""


def rotating_sum(body):
    """The checksum of a datagram whose bytes after the checksum field are these."""
    total = 0
    for byte in body:
        total = total + byte & 0xFFFF
        total = total << 1 & 0xFFFF | total >> 15
    return total or 0xFFFF


def summed(datagram):
    """The datagram with its right checksum, up to the length that its header states, or to its end before that."""
    if len(datagram) < 4:
        return datagram
    stated = int.from_bytes(datagram[:2], "big") & 0x3FF
    return datagram[:2] + rotating_sum(datagram[4 : max(stated, 4)]).to_bytes(2, "big") + datagram[4:]


def unsummed(datagram):
    """The datagram with the checksum field of one that was not summed."""
    return datagram if len(datagram) < 4 else datagram[:2] + b"\0\0" + datagram[4:]


# What a packet comes to, beside its refusals, and what else each kind of event does.
COMES = protocols.rows("COMES")
HEARD = " ".join(protocols.each("HEARD")) + " ignored"
COMES["deliver"] = HEARD, (FULL,)
COMES["forge"] = HEARD, (*DATAGRAM, *itertools.chain(*protocols.each("REFUSED")), FULL)

# Each report, by its first word. Memory is ample here, so `nomemory` is none of them.
REPORTS = protocols.rows("REPORTS")


def pattern_of(words, refusals):
    """The pattern of the reports of a kind of event. A list stands behind its first word with the spaces it has."""
    forms = [
        word + REPORTS[word] if REPORTS.get(word, "(").startswith("(?: ") else f"{word} {REPORTS[word]}"
        for word in words.split()
        if word in REPORTS
    ]
    forms += [word for word in words.split() if word not in REPORTS]
    forms += [f"refused {number}" for number in refusals]
    return re.compile("|".join(forms))


PATTERNS = {kind: pattern_of(*comes) for kind, comes in COMES.items()}


def kind_of(event):
    """The kind of an event: its first word, and with a call or a timer its third."""
    words = event.split(" ", 3)
    return f"{words[0]} {words[2]}" if words[0] in ("call", "timer") else words[0]


SENT = re.compile(f"sent {number(0, 999999)} {BYTE} (?:[0-9A-F]{{2}}){{13,599}}")
STOPPED = re.compile(f"stopped (7[0-3]) at {number(0, 200000)}")


class Play:
    """What came of a play: reports, what each event sent, and the number that it stopped with, or None."""

    def __init__(self, events):
        self.events, self.reports, self.sent, self.stopped = events, [], [], None
        self.datagrams = 0

    def take(self, line):
        """Takes a line that was printed."""
        if self.stopped is not None:
            raise Wrong(f"a line after the stop: {line[:80]}")
        if line.startswith("sent "):
            self.take_sent(line)
        elif line.startswith("stopped "):
            self.take_stop(line)
        else:
            self.take_report(line)

    def take_sent(self, line):
        if not self.reports or not SENT.fullmatch(line) or not line.startswith(f"sent {self.datagrams} "):
            raise Wrong(f"no line of datagram {self.datagrams}: {line[:80]}")
        if self.reports[-1].split(" ")[0] in ("ignored", "refused"):
            raise Wrong(f"an event without effect sent a datagram: {line[:80]}")
        self.datagrams += 1
        self.sent[-1].append(line.split(" ", 2)[2])

    def take_stop(self, line):
        found = STOPPED.fullmatch(line)
        if not found or not line.endswith(f" {len(self.reports)}") or len(self.reports) >= len(self.events):
            raise Wrong(f"no stop at event {len(self.reports)}: {line[:80]}")
        self.stopped = int(found[1])

    def take_report(self, line):
        place, _, report = line.partition(" ")
        if place != str(len(self.reports)) or len(self.reports) >= len(self.events):
            raise Wrong(f"no line of event {len(self.reports)}: {line[:80]}")
        event = self.events[len(self.reports)]
        if not PATTERNS[kind_of(event)].fullmatch(report):
            raise Wrong(f"no report of `{event[:80]}`: {line[:80]}")
        self.reports.append(report)
        self.sent.append([])


def output_of(program, text):
    """What a play of this text prints, and its status. It has to end in time, by itself."""
    try:
        run = subprocess.run([program, "play", "-"], input=text.encode(), capture_output=True, timeout=SECONDS)
    except subprocess.TimeoutExpired:
        raise Wrong(f"not at its end after {SECONDS} seconds") from None
    if run.returncode not in (0, 1):
        raise Wrong(f"status {run.returncode}: {run.stderr[-200:]}")
    if run.stdout and not run.stdout.endswith(b"\n") or not run.stdout.isascii():
        raise Wrong(f"a line that is not whole, or not of ASCII: {run.stdout[-80:]}")
    return run.stdout.decode(), run.returncode


def play(program, setup, events):
    """Plays a schedule, and reads all that was printed."""
    text, status = output_of(program, "".join(line + "\n" for line in (*setup, *events)))
    came = Play(events)
    for line in text.splitlines():
        came.take(line)
    if came.stopped is None and len(came.reports) != len(events):
        raise Wrong(f"{len(came.reports)} reports of {len(events)} events")
    if status != (came.stopped is not None):
        raise Wrong(f"status {status} with {'a stop' if came.stopped else 'no stop'}")
    return came
