#!/usr/bin/env python3
"""Sixteen live nodes on a cable of UDP that loses one datagram in ten, which make calls at random:

    bench/live_soak.py SECONDS [SEED]

The package `at_node` is to be on PYTHONPATH. A row tells, each tenth of the time, how many events
and refusals there were, and the memory of the process. The status is 1 if an exception came, or if
the memory at the end is not within 5 % of that after a minute, or after half of a shorter time.
"""

from __future__ import annotations

import random
import sys
import time
from pathlib import Path
from typing import Dict, List, Set

sys.path.insert(0, str(Path(__file__).resolve().parents[1] / "python" / "tests"))

from at_node import Node, Refused  # noqa: E402
from at_node.report import Report  # noqa: E402
from at_node.station import Station, setup_of  # noqa: E402
from at_node.udp import UdpCable  # noqa: E402
from cables import free_first  # noqa: E402
from lossy import LossyCable  # noqa: E402

NODES = range(1, 17)
PERCENT, PAUSE, ROWS, FLAT = 10, 0.004, 10, 0.05
# The timers run ten times as fast as the book has them, so that more comes to pass.
INTERVALS = {"retry": 0.2, "release": 3.0, "lookup": 0.15, "resend": 0.1, "probe": 3.0}
# A table keeps the room of its fullest moment, so few names let it be full early.
KINDS, NAMES = ["Stream", "LaserWriter", "Chat"], 4
FINISH = "finish "


class Caller:
    """A live node that makes calls at random, and answers what its service is asked."""

    def __init__(self, first: int, number: int, chance: random.Random) -> None:
        self.events = self.refusals = 0
        self._chance, self._number = chance, number
        self._lookups: List[int] = []
        self._ends: Set[int] = set()
        self._node = Node(setup_of(10, number, "Lab", router=1), number)
        everyone = [it for it in NODES if it != number]
        self._cable = LossyCable(UdpCable(first, number, everyone), PERCENT / 2, number)
        self._station = Station(self._node, self._cable, self._hear, INTERVALS)
        self._call("listen on")

    def step(self) -> None:
        """Does what there is to do now, without waiting."""
        self._station.step(0.0)

    def _call(self, words: str) -> None:
        self.events += 1
        try:
            self._note(self._station.call(words))
        except Refused:
            self.refusals += 1

    def _note(self, report: Report) -> None:
        if report.kind == "looking":
            self._lookups.append(report.number())
        elif report.kind in ("opening", "made"):
            self._ends.add(report.number())
        elif report.kind == "closed":
            self._call(f"close {report.number()}")
        elif report.kind in ("freed", "denied"):
            self._ends.discard(report.number())

    def _hear(self, report: Report) -> None:
        self.events += 1
        self._note(report)
        if report.kind == "asked":
            node, socket, number = report.words[1:4]
            self._call(f"answer {node} {socket} {number} 00000000:{self._data(40)}")
        elif report.kind == "heard":
            self._call(f"read {report.number()} 64")

    def _data(self, most: int) -> str:
        return self._chance.randbytes(self._chance.randint(1, most)).hex()

    def call_at_random(self) -> None:
        """Makes one of the calls that a user may make."""
        chance = self._chance
        name = f"N{chance.randrange(NAMES)} {chance.choice(KINDS)}"
        node, end = chance.choice(NODES), chance.choice([*self._ends, 1])
        words = chance.choice([
            "zones", "localzones", "setzones Lab Office", f"find = {chance.choice(KINDS)}",
            f"claim {name} 130", FINISH, FINISH, f"register {name} 130", f"unregister {name}",
            f"connect {node} 130", "open 0", f"close {end}", f"reset {end}",
            f"write {end} {self._data(60)} end", f"write {end} {self._data(60)}",
            f"ask {node} 129 00000000 {self._data(60)} 1 alo 2",
            f"ask {node} 129 00000000 {self._data(60)} 2 xo 4",
        ])
        if words == FINISH:
            words += str(self._lookups.pop(0) if self._lookups else 0)
        self._call(words)

    def close(self) -> None:
        """Leaves the cable."""
        self._station.close()
        self._node.close()
        self._cable.close()


def resident() -> int:
    """The memory of this process, in kB."""
    return int(Path("/proc/self/statm").read_text().split()[1]) * 4


def soak(callers: List[Caller], chance: random.Random, end: float) -> None:
    """Lets all live up to a time."""
    due = time.monotonic()
    while time.monotonic() < end:
        if time.monotonic() >= due:
            chance.choice(callers).call_at_random()
            due += PAUSE
        for caller in callers:
            caller.step()
        time.sleep(0.0005)


def main(words: List[str]) -> int:
    """Lives for the seconds that are named, and returns the status."""
    seconds = float(words[0])
    chance = random.Random(int(words[1]) if len(words) > 1 else 1)
    first = free_first(*NODES)
    callers = [Caller(first, number, chance) for number in NODES]
    begun = time.monotonic()
    rows: Dict[int, int] = {}
    for row in range(1, ROWS + 1):
        soak(callers, chance, begun + seconds * row / ROWS)
        rows[row] = resident()
        events, refusals = sum(it.events for it in callers), sum(it.refusals for it in callers)
        print(f"{seconds * row / ROWS:6.0f} s  {events:9} events  {refusals:8} refused"
              f"  {rows[row]:8} kB", flush=True)
    for caller in callers:
        caller.close()
    early = rows[min(ROWS // 2, max(1, round(60 * ROWS / seconds)))]
    is_flat = abs(rows[ROWS] - early) <= FLAT * early
    print("memory is flat" if is_flat else "memory is NOT flat")
    return int(not is_flat)


if __name__ == "__main__":
    sys.exit(main(sys.argv[1:]))
