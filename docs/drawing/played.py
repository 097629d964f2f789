"""What `atnode play` printed, event by event, and the schedule that it played, if it is at hand."""

import re
from collections.abc import Iterable
from contextlib import suppress
from dataclasses import dataclass, field
from typing import NamedTuple, Optional

from packets import sender_of

REPORT = re.compile(r"(\d+) (\S.*)")
SENT = re.compile(r"sent (\d+) (\d+) ((?:[0-9A-F]{2})*)")
ENDING = re.compile(r"fault \d+|stopped (?:\d+|nomemory) at \d+|usage")
SETUP = {"net", "port", "node", "zones", "local"}
EVERYONE = 255


class Unread(Exception):
    """Why the input can't be drawn."""


class Sent(NamedTuple):
    """A datagram: its number, the node that it goes to, and its bytes."""

    number: int
    to: int
    data: bytes


class Cause(NamedTuple):
    """The line of a schedule behind an event: its words, its node, and what comes to that node."""

    line: str
    node: int
    delivered: Optional[int] = None
    forged: Optional[bytes] = None


@dataclass
class Event:
    """An event that was played: its number, what the node reported, and what it sent."""

    number: int
    report: str
    cause: Optional[Cause] = None
    sent: list[Sent] = field(default_factory=list)

    @property
    def node(self) -> int:
        """The node of the event, or 0 if neither the schedule nor a datagram says it."""
        if self.cause:
            return self.cause.node
        return sender_of(self.sent[0].data) if self.sent else 0


class Schedule(NamedTuple):
    """The nodes of a schedule, its events in turn, and whether it says which datagrams come."""

    nodes: list[int]
    causes: list[Cause]
    delivers: bool


@dataclass
class Play:
    """All that was printed. `ending` is the line that ended it early, or empty."""

    nodes: list[int] = field(default_factory=list)
    events: list[Event] = field(default_factory=list)
    ending: str = ""
    delivers: bool = False


def cause_of(line: str) -> Cause:
    """The event that a line of a schedule says."""
    words = line.split()
    if words[0] == "deliver":
        return Cause(line, int(words[2]), delivered=int(words[1]))
    if words[0] == "forge":
        return Cause(line, int(words[1]), forged=bytes.fromhex(words[2].replace("-", "")))
    return Cause(line, int(words[1]))


def schedule_in(lines: Iterable[str]) -> Schedule:
    """Reads a schedule up to its first line with a fault. If it has one, no event was played."""
    rows = [" ".join(it.split()) for it in lines if it.strip() and not it.startswith("#")]
    nodes, causes = list[int](), list[Cause]()
    with suppress(IndexError, ValueError):
        for row in rows:
            word, *rest = row.split()
            if word == "node":
                nodes.append(int(rest[0]))
            elif word not in SETUP:
                causes.append(cause_of(row))
    return Schedule(nodes, causes, not any(it.startswith("port ") for it in rows))


def take_line(play: Play, line: str) -> bool:
    """Adds a printed line to the play, and tells whether it is one."""
    if sent := SENT.fullmatch(line):
        if not play.events:
            return False
        datagram = Sent(int(sent[1]), int(sent[2]), bytes.fromhex(sent[3]))
        play.events[-1].sent.append(datagram)
    elif ENDING.fullmatch(line):
        play.ending = line
    elif report := REPORT.fullmatch(line):
        take_report(play, int(report[1]), report[2])
    else:
        return False
    return True


def take_report(play: Play, number: int, report: str) -> None:
    """Adds an event, or to the last one a second line of its number, as of a cable that failed."""
    if play.events and play.events[-1].number == number:
        play.events[-1].report += f"; {report}"
    else:
        play.events.append(Event(number, report))


def play_in(lines: Iterable[str], schedule: Optional[Schedule] = None) -> Play:
    """Reads what was printed, and what the schedule says of it."""
    play = Play()
    for number, line in enumerate(lines, 1):
        if line and not take_line(play, line):
            raise Unread(f"line {number} is none that `atnode play` prints: {line.strip()[:60]}")
    if schedule and not play.ending.startswith(("fault", "usage")):
        give_causes(play, schedule)
    play.nodes = schedule.nodes if schedule else nodes_of(play)
    return play


def give_causes(play: Play, schedule: Schedule) -> None:
    """Gives each event its line of the schedule, which has to be the one that was played."""
    play.delivers = schedule.delivers
    for event in play.events:
        if event.number >= len(schedule.causes):
            raise Unread(f"the schedule has no event {event.number}, so another one was played")
        event.cause = schedule.causes[event.number]
        if any(sender_of(it.data) != event.node for it in event.sent):
            raise Unread(f"at event {event.number} another node sent, so another one was played")
    stopped = re.fullmatch(r"stopped \w+ at (\d+)", play.ending)
    if stopped and int(stopped[1]) < len(schedule.causes):
        play.ending += f": {schedule.causes[int(stopped[1])].line}"


def nodes_of(play: Play) -> list[int]:
    """The nodes that sent, or that something was sent to."""
    sent = [it for event in play.events for it in event.sent]
    found = {it.to for it in sent} | {sender_of(it.data) for it in sent}
    return sorted(found - {0, EVERYONE})
