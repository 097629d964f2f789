"""The files of the printer's jobs, and the command that they go to."""

import io
import os
import subprocess
import tempfile
import threading
import time
import unittest
from pathlib import Path
from typing import List
from unittest import mock

from by_hand import ByHand
import printer as printing
from jobs import Job
from runner import Runner


class Folders(unittest.TestCase):
    def setUp(self) -> None:
        made = tempfile.TemporaryDirectory()
        self.addCleanup(made.cleanup)
        self.folder = Path(made.name)

    def names(self) -> List[str]:
        return sorted(it.name for it in self.folder.iterdir())

    def write(self, data: bytes) -> str:
        job = Job(self.folder)
        job.write(data)
        return job.finish().name


class Files(Folders):
    def test_a_job_has_its_name_when_it_is_whole(self) -> None:
        job = Job(self.folder)
        job.write(b"ab")
        self.assertEqual([it.endswith(".ps") for it in self.names()], [False])
        job.write(b"c")
        self.assertEqual(job.finish(), self.folder / "job-0001.ps")
        self.assertEqual(self.names(), ["job-0001.ps"])
        self.assertEqual((self.folder / "job-0001.ps").read_bytes(), b"abc")

    def test_a_job_gets_the_first_free_number(self) -> None:
        for number in (1, 2, 4):
            (self.folder / f"job-{number:04}.ps").write_bytes(b"old")
        self.assertEqual([self.write(b"new") for _ in range(2)], ["job-0003.ps", "job-0005.ps"])
        self.assertEqual((self.folder / "job-0004.ps").read_bytes(), b"old")

    def test_many_that_write_at_once_lose_nothing(self) -> None:
        def write(writer: int) -> None:
            for number in range(10):
                self.write(f"{writer} {number}".encode())

        threads = [threading.Thread(target=write, args=(it,)) for it in range(4)]
        for thread in threads:
            thread.start()
        for thread in threads:
            thread.join()
        came = {it.read_bytes() for it in self.folder.iterdir()}
        self.assertEqual(came, {f"{a} {b}".encode() for a in range(4) for b in range(10)})
        self.assertEqual(self.names()[-1], "job-0040.ps")

    def test_a_job_that_is_dropped_leaves_nothing(self) -> None:
        job = Job(self.folder)
        job.write(b"abc")
        job.drop()
        self.assertEqual(self.names(), [])

    def test_a_job_that_a_full_disk_took_in_part_can_be_dropped(self) -> None:
        job = Job(self.folder)
        full = io.BufferedWriter(FullDisk())
        job._file.close()
        with mock.patch.object(job, "_file", full):
            job.write(b"abc")
            with self.assertRaises(OSError):
                job.finish()
            job.drop()
        self.assertEqual(self.names(), [])


class FullDisk(io.RawIOBase):
    def writable(self) -> bool:
        return True

    def write(self, data: object) -> int:
        raise OSError(28, "No space left on device")


class Commands(Folders):
    def setUp(self) -> None:
        super().setUp()
        self.told: List[str] = []

    def run_(self, command: str, *jobs: bytes) -> None:
        """Gives jobs to a command, and waits until all have gone through it."""
        runner = Runner(command, self.told.append)
        for job in jobs:
            runner.add(self.folder / self.write(job))
        end = time.monotonic() + 20
        while runner.is_busy():
            self.assertLess(time.monotonic(), end)
            runner.step()
            time.sleep(0.01)
        runner.close()

    def test_each_job_goes_to_the_command_in_its_order_and_its_file_goes(self) -> None:
        out = self.folder / "out"
        self.run_(f"cat >> {out}", b"first ", b"second ", b"third")
        self.assertEqual((out.read_bytes(), self.told), (b"first second third", []))
        self.assertEqual(self.names(), ["out"])

    def test_a_command_that_fails_is_told_and_the_file_is_kept(self) -> None:
        self.run_("cat > /dev/null; exit 3", b"first", b"second")
        kept = [self.folder / it for it in ("job-0001.ps", "job-0002.ps")]
        told = [f"{it}: the command ended with status 3, and the file is kept" for it in kept]
        self.assertEqual(self.told, told)
        self.assertEqual([it.read_bytes() for it in kept], [b"first", b"second"])

    def test_a_command_that_is_not_there_or_is_killed_is_told(self) -> None:
        for command, how in (("at-node-has-no-such-command 2> /dev/null", "with status 127"),
                             ("kill -9 $$", "by signal 9")):
            self.told.clear()
            self.run_(command, b"job")
            self.assertEqual(len(self.told), 1)
            self.assertIn(f"the command ended {how}, and the file is kept", self.told[0])
        self.assertEqual(self.names(), ["job-0001.ps", "job-0002.ps"])

    def test_a_command_that_can_not_be_started_is_told(self) -> None:
        with mock.patch.object(subprocess, "Popen", side_effect=OSError(11, "No processes")):
            self.run_("cat", b"job")
        self.assertIn("the command does not start, and the file is kept", self.told[0])
        self.assertEqual(self.names(), ["job-0001.ps"])

    def test_nobody_waits_for_a_command_but_at_the_end(self) -> None:
        runner, begun = Runner("sleep 0.5; cat > /dev/null", self.told.append), time.monotonic()
        runner.add(self.folder / self.write(b"job"))
        runner.step()
        self.assertLess(time.monotonic() - begun, 0.4)
        self.assertTrue(runner.is_busy())
        runner.close()
        self.assertEqual((self.told, self.names()), ([], []))

    def test_a_command_that_goes_on_and_jobs_behind_it_are_told_at_the_end(self) -> None:
        runner = Runner("exec sleep 1", self.told.append)
        paths = [self.folder / self.write(b"job") for _ in range(2)]
        for path in paths:
            runner.add(path)
        with mock.patch("runner.PATIENCE", 0.05):
            runner.close()
        self.assertEqual(self.told, [
            f"{paths[0]}: the command still runs, and the file is kept",
            f"{paths[1]}: it was not given to the command, and the file is kept"])
        self.assertEqual(self.names(), ["job-0001.ps", "job-0002.ps"])
        # It ends by itself; here nothing is left behind.
        assert runner._running is not None
        runner._running.process.wait()


class Printers(ByHand):
    def test_two_printers_of_one_folder_and_one_that_starts_again_lose_nothing(self) -> None:
        jobs = [b"first", b"second", b"third"]
        Path(self.folder.name, "job-0002.ps").write_bytes(b"of another printer")
        for job in jobs:
            # It starts again.
            self.printer = printing.Printer(self.seven.station, Path(self.folder.name))
            self.open()
            self.send(job)
            self.ask("2A060000")
        came = [self.job(it) for it in (1, 2, 3, 4)]
        self.assertEqual(came, [jobs[0], b"of another printer", jobs[1], jobs[2]])

    def test_a_whole_job_goes_to_the_command(self) -> None:
        out = Path(self.folder.name, "out")
        told: List[str] = []
        runner = Runner(f"cat > {out}", told.append)
        self.printer = printing.Printer(self.seven.station, Path(self.folder.name), runner)
        self.open()
        self.send(os.urandom(4000), ends=False)
        self.assertFalse(runner.is_busy())
        self.send(b"end")
        self.assertEqual(self.ask("2A030001"), "2A040100:-")
        end = time.monotonic() + 20
        while runner.is_busy() and time.monotonic() < end:
            self.printer.step(0.01)
        self.assertEqual((out.stat().st_size, self.files(), told), (4003, ["out"], []))


if __name__ == "__main__":
    unittest.main()
