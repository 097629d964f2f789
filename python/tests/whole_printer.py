"""Whole jobs: the printer of examples/python and its client."""

import os
import random
import signal
import subprocess
import sys
import tempfile
import threading
import time
import unittest
from pathlib import Path
from typing import Any, List, Optional, Tuple
from unittest import mock

from at_node import Find
from at_node.station import Station, pass_numbers, setup_of
from at_node.udp import UdpCable
from cables import Place, free_first, has_multicast
from lossy import LossyCable

EXAMPLES = Path(__file__).resolve().parents[2] / "examples" / "python"
sys.path.insert(0, str(EXAMPLES))

import print as printing  # noqa: E402
from printer import Printer  # noqa: E402

JOB = os.urandom(135_091)
PAPER = Find("Paper", "LaserWriter", "*", 7, 129, 0)
# What the printer says first on standard error.
WHERE = "node 7 of network 10\n"


class Starts(unittest.TestCase):
    def start(self, *words: str) -> "subprocess.Popen[str]":
        how: Any = {"text": True, "stdout": subprocess.PIPE, "stderr": subprocess.PIPE}
        started = subprocess.Popen([sys.executable, "-W", "error", *words], **how)
        self.addCleanup(self.stop, started)
        return started

    @staticmethod
    def stop(process: "subprocess.Popen[str]") -> None:
        if process.poll() is None:
            process.terminate()
        process.communicate(timeout=10)

    def run_(self, *words: str) -> Tuple[int, str, str]:
        # An answer to the program before this one would be kept for 30 seconds.
        ran = self.start(*words)
        output, errors = ran.communicate(timeout=20)
        return ran.returncode, output, errors


class Processes(Starts):
    def print_a_job(self, seven: List[str], five: List[str]) -> None:
        """Prints a job, and asks for the status before and after."""
        client = [str(EXAMPLES / "print.py"), "Paper Printer"]
        with tempfile.TemporaryDirectory() as folder:
            job = Path(folder, "job")
            job.write_bytes(JOB)
            printer = self.start(str(EXAMPLES / "printer.py"), folder, *seven)
            assert printer.stdout is not None
            self.assertEqual(printer.stdout.readline(), "Paper Printer is node 7\n")
            self.assertEqual(self.run_(*client, *five), (0, "status: idle\n", ""))
            printed = f"{job} is printed by Paper Printer\n"
            self.assertEqual(self.run_(*client, str(job), *five), (0, printed, ""))
            path = Path(folder, "job-0001.ps")
            told = f"{path}: 135091 bytes from node 5\n"
            self.assertEqual(printer.stdout.readline(), told)
            self.assertEqual(path.read_bytes(), JOB)

    def test_a_job_is_printed_over_udp(self) -> None:
        first = ["--udp", str(free_first(5, 7))]
        self.print_a_job([*first, "--node", "7"], [*first, "--node", "5"])

    @unittest.skipUnless(has_multicast(), "this machine has no multicast at 127.0.0.1")
    def test_a_job_is_printed_over_localtalk_over_udp(self) -> None:
        wire = ["--interface", "127.0.0.1", "--node"]
        self.print_a_job([*wire, "7"], [*wire, "5"])

    def test_a_printer_that_is_not_there_is_told(self) -> None:
        five = ["--udp", str(free_first(5)), "--node", "5"]
        told = (1, "", "print.py: no printer has the name None\n")
        self.assertEqual(self.run_(str(EXAMPLES / "print.py"), "None", *five), told)


class Ends(Starts):
    """A printer over UDP, node 7, that ends in one way or another, and clients on other nodes."""

    def setUp(self) -> None:
        self.first = free_first(5, 6, 7, 8)
        made = tempfile.TemporaryDirectory()
        self.addCleanup(made.cleanup)
        self.folder = Path(made.name)

    def printer(self, *words: str, node: int = 7) -> "subprocess.Popen[str]":
        """Starts a printer, and waits until it is there."""
        place = ["--udp", str(self.first), "--node", str(node), "--name", f"Paper {node}"]
        printer = self.start(str(EXAMPLES / "printer.py"), str(self.folder), *place, *words)
        assert printer.stdout is not None
        self.assertEqual(printer.stdout.readline(), f"Paper {node} is node {node}\n")
        return printer

    def print(self, data: bytes, number: int = 5, node: int = 7) -> None:
        cable = UdpCable(self.first, number, [it for it in (5, 6, 7, 8) if it != number])
        with Place(cable, setup_of(10, number), number) as there:
            pass_numbers(there.node, number, random.randrange(8192))
            printing.send(there.station, Find("Paper", "LaserWriter", "*", node, 129, 0), data)

    def print_until(self, printer: "subprocess.Popen[str]", end: int) -> str:
        """Prints a long job, and sends a printer a signal amid it. What the client says."""
        def step(until: Optional[float] = None) -> None:
            Station.step(there.station, min(until or 1e9, time.monotonic() + 0.05))
            if printer.poll() is None and self.names(".part"):
                printer.send_signal(end)
            if end == signal.SIGKILL and printer.poll() is not None:
                raise printing.NoPrint("killed")

        with Place(UdpCable(self.first, 5, [7]), setup_of(10, 5), 5) as there:
            client = printing.Client(there.station, PAPER, bytes(50_000_000))
            with mock.patch.object(there.station, "step", step):
                self.assertEqual(client.open(), "")
                with self.assertRaises(printing.NoPrint) as raised:
                    client.finish()
        return str(raised.exception)

    def names(self, suffix: str) -> List[str]:
        return sorted(it.name for it in self.folder.iterdir() if it.name.endswith(suffix))

    def test_a_printer_that_is_killed_amid_a_job_leaves_no_file_that_looks_whole(self) -> None:
        self.assertEqual(self.print_until(self.printer(), signal.SIGKILL), "killed")
        self.assertEqual(self.names(".ps"), [])
        self.printer()
        self.print(JOB)
        self.assertEqual(self.names(".ps"), ["job-0001.ps"])
        self.assertTrue(Path(self.folder, "job-0001.ps").read_bytes() == JOB)

    def test_a_printer_that_is_ended_amid_a_job_says_so_to_the_client(self) -> None:
        printer = self.printer()
        told = "the printer closed the connection before it had all"
        self.assertEqual(self.print_until(printer, signal.SIGTERM), told)
        _, errors = printer.communicate(timeout=10)
        dropped = r"the printer is ended, and its job is dropped: \d+ bytes from"
        self.assertRegex(errors, f"^{WHERE}{dropped}")
        self.assertEqual((printer.returncode, self.names("")), (0, []))

    def test_two_printers_of_one_folder_and_one_that_starts_again_lose_no_job(self) -> None:
        jobs = [os.urandom(20_000 + it) for it in range(6)]
        first, other = self.printer(), self.printer(node=8)
        for at in range(0, len(jobs), 2):
            one = threading.Thread(target=self.print, args=(jobs[at], 5, 7))
            one.start()
            self.print(jobs[at + 1], 6, 8)
            one.join()
            first.terminate()
            first.wait(10)
            first = self.printer()
        other.terminate()
        self.assertEqual(self.names(""), [f"job-{it:04}.ps" for it in range(1, 7)])
        came = sorted((Path(self.folder, it).read_bytes() for it in self.names("")), key=len)
        self.assertTrue(came == jobs, "other bytes came")

    def test_a_command_gets_each_job_and_one_that_fails_is_told(self) -> None:
        out = self.folder.parent / f"{self.folder.name}.out"
        self.addCleanup(out.unlink)
        printer = self.printer("--run", f"cat >> {out}; test $(stat -c %s {out}) -lt 100")
        self.print(b"a short job")
        end = time.monotonic() + 10
        while self.names("") and time.monotonic() < end:
            time.sleep(0.05)
        self.print(b"a long job, 100 bytes and more" * 4)
        printer.terminate()
        _, errors = printer.communicate(timeout=10)
        path = self.folder / "job-0001.ps"
        wanted = f"{WHERE}{path}: the command ended with status 1, and the file is kept\n"
        self.assertEqual((errors, self.names("")), (wanted, ["job-0001.ps"]))
        self.assertEqual(out.read_bytes(), b"a short job" + path.read_bytes())


class PrinterThread(threading.Thread):
    """A printer, node 7, on a cable that loses, until `is_over` is set."""

    def __init__(self, first: int, folder: Path, percent: float) -> None:
        super().__init__()
        self.is_over = threading.Event()
        self.jobs: List[Path] = []
        self._first, self._folder, self._percent = first, folder, percent

    def run(self) -> None:
        cable = LossyCable(UdpCable(self._first, 7, [5, 9]), self._percent, 7)
        with Place(cable, setup_of(10, 7), 7) as seven:
            printer = Printer(seven.station, self._folder)
            while not self.is_over.is_set():
                printer.step(0.05)
            self.jobs = printer.jobs


class Losses(unittest.TestCase):
    """One datagram in eleven is lost on each side."""

    percent = 100 / 11

    def send(self, first: int, number: int, data: bytes) -> None:
        others = [it for it in (5, 7, 9) if it != number]
        cable = LossyCable(UdpCable(first, number, others), self.percent, number)
        with Place(cable, setup_of(10, number), number) as there:
            printing.send(there.station, PAPER, data)

    def test_jobs_of_two_clients_come_whole_one_after_the_other(self) -> None:
        first, jobs = free_first(5, 7, 9), [JOB, os.urandom(70_000)]
        with tempfile.TemporaryDirectory() as folder, mock.patch("builtins.print"):
            printer = PrinterThread(first, Path(folder), self.percent)
            printer.start()
            clients = [
                threading.Thread(target=self.send, args=(first, number, job))
                for number, job in zip((5, 9), jobs)
            ]
            for client in clients:
                client.start()
            for client in clients:
                client.join(60)
            printer.is_over.set()
            printer.join()
            came = sorted((path.read_bytes() for path in printer.jobs), key=len)
        self.assertEqual(len(came), 2)
        self.assertTrue(came == sorted(jobs, key=len), "other bytes came")


if __name__ == "__main__":
    unittest.main()
