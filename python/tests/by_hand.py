"""A printer, node 7, and a client, node 5, whose packets a test writes by hand."""

from __future__ import annotations

import contextlib
import io
import sys
import tempfile
import time
import unittest
from pathlib import Path
from typing import Iterator, List, Optional
from unittest import mock

from at_node import Report, word_of_bytes
from at_node.station import Station
from cables import MemoryCable, Place, place

EXAMPLES = Path(__file__).resolve().parents[2] / "examples" / "python"
sys.path.insert(0, str(EXAMPLES))

import connection  # noqa: E402
import pap  # noqa: E402
import printer as printing  # noqa: E402

# The seconds that a test may take.
PATIENCE = 30.0


class Clock:
    """The time, and so many seconds more."""

    def __init__(self) -> None:
        self.more = 0.0

    def monotonic(self) -> float:
        return time.monotonic() + self.more


class ByHand(unittest.TestCase):
    """What the printer answers, request by request."""

    def setUp(self) -> None:
        self.folder = tempfile.TemporaryDirectory()
        self.seven = place(MemoryCable(), 7)
        self.five = place(MemoryCable(), 5)
        self.printer = printing.Printer(self.seven.station, Path(self.folder.name))
        self.clock, self.end = Clock(), time.monotonic() + PATIENCE
        # What is said on both outputs is read by the tests that look for it.
        self.said, self.told = io.StringIO(), io.StringIO()
        with contextlib.ExitStack() as patches:
            patches.enter_context(mock.patch.object(connection, "time", self.clock))
            patches.enter_context(contextlib.redirect_stdout(self.said))
            patches.enter_context(contextlib.redirect_stderr(self.told))
            self.addCleanup(patches.pop_all().close)

    def tearDown(self) -> None:
        self.seven.__exit__()
        self.five.__exit__()
        self.folder.cleanup()

    def settle(self) -> None:
        """Hands on what both sent, until nothing is sent. A test that comes to no end fails."""
        self.assertLess(time.monotonic(), self.end, "the test comes to no end")
        pairs = ((self.five, self.seven), (self.seven, self.five))
        for each in (self.five, self.seven):
            Station.step(each.station, 0)
        while any(self.cable(one).sent for one, _ in pairs):
            for one, other in pairs:
                self.cable(other).coming.extend(it for _, it in self.cable(one).sent)
                self.cable(one).sent.clear()
                Station.step(other.station, 0)

    @staticmethod
    def cable(one: Place) -> MemoryCable:
        assert isinstance(one.cable, MemoryCable)
        return one.cable

    def later(self, seconds: float) -> None:
        """Lets so many seconds pass for both sides, and the printer look at its clock."""
        self.clock.more += seconds
        with mock.patch.object(self.seven.station, "step"):
            self.printer.step()
        self.settle()

    def ask(self, user: str, data: str = "-", mode: str = "xo") -> Optional[str]:
        """Asks the printer, and gives the user bytes and data of its answer, if there is one."""
        before = len(self.five.heard)
        number = self.five.station.call(f"ask 7 129 {user} {data} 1 {mode} 0").words[1]
        self.settle()
        for report in self.five.heard[before:]:
            if report.begins(["response", number]):
                return report.words[2]
        return None

    def give_up(self) -> None:
        """Ends what the client asked, and was not answered."""
        for timer in self.five.node.timers():
            if timer.startswith("retry"):
                self.five.node.timer(timer)
        self.five.station.settle()

    def open(self) -> Optional[str]:
        return self.ask("2A010000", "81080000")

    def requests(self, user: str) -> List[Report]:
        """The printer's requests whose user bytes begin so."""
        asked = [it for it in self.five.heard if it.kind == "asked"]
        return [it for it in asked if it.words[4].startswith(user)]

    def data(self, *packets: str) -> None:
        """Answers the printer's last request for data."""
        request = self.requests("2A03")[-1]
        self.five.station.call(f"answer {' '.join(request.words[1:4])} {' '.join(packets)}")
        self.settle()

    def send(self, data: bytes, ends: bool = True) -> None:
        """Gives a whole document, or a part of one."""
        for at in range(0, max(len(data), 1), 4096):
            rest = data[at:]
            packets = pap.data_packets(0x2A, rest[:4096], ends and len(rest) <= 4096)
            self.data(*(f"{it.user.hex()}:{word_of_bytes(it.data)}" for it in packets))

    def files(self) -> List[str]:
        """The names in the folder."""
        return sorted(it.name for it in Path(self.folder.name).iterdir())

    def job(self, number: int) -> bytes:
        """What a job has."""
        return Path(self.folder.name, f"job-{number:04}.ps").read_bytes()

    @contextlib.contextmanager
    def both(self) -> Iterator[None]:
        """Lets the printer live while the client waits."""
        with mock.patch.object(self.five.station, "step", lambda until=None: self.live()):
            yield

    def live(self) -> None:
        time.sleep(0.01)
        self.printer.step(0)
        self.settle()
