"""netatalk's clients of a printer against examples/python/printer.py: jobs, queries, and clients
that pause, fall silent or are not heard."""

import os
import tempfile
import threading
import time
import unittest
from pathlib import Path
from typing import List, Tuple

from programs import Cable

JOB = os.urandom(135_091)
# The seconds for which a client pauses, and for which its answers are lost; the seconds of silence
# after which it is given up; and what the longest job takes at most.
PAUSE, LOSS, SILENCE, LONGEST = 190.0, 130.0, 120.0, 240.0
# Some text, which is in more than one packet.
BEGIN = "".join(f"line {number:4}\n" for number in range(60))
LONG = "".join(f"line {number:5}\n" for number in range(2_000))
# What no printer has, with what it is to answer where it has not.
QUERY = """%!PS-Adobe-3.0 Query
%%?BeginFeatureQuery: *NoSuchFeature
%%?EndFeatureQuery: Unknown
%%?BeginNoSuchQuery: *Colour
%%?EndNoSuchQuery: black
%%EOF
"""


def jobs_of(folder: Path) -> List[bytes]:
    """The jobs that are in a folder, in order, which has nothing else."""
    paths = sorted(folder.iterdir())
    assert all(it.match("job-????.ps") for it in paths), paths
    return [it.read_bytes() for it in paths]


class Printer:
    """A printer in the zone Lab of router 1, and the folder of its jobs."""

    def __init__(self, cable: Cable, number: int, name: str) -> None:
        self.name, self.number, self.folder = name, number, cable.folder(name)
        self.process = cable.printer(number, name, self.folder)

    def wait(self) -> None:
        """Waits until it has its name."""
        self.process.wait_for(f"{self.name} is node {self.number}")


class LongJob:
    """A printer, and pap as its client, whose job is what is said to it, and takes minutes."""

    def __init__(self, cable: Cable, number: int, name: str) -> None:
        self.printer = Printer(cable, number, name)
        self._cable, self.began = cable, 0.0

    def begin(self, text: str, loses: str = "") -> None:
        """Begins the job. What the client loses is said in losses.h."""
        self.printer.wait()
        losses = {"PEER_LOSES": loses} if loses else {}
        number, name = str(self.printer.number + 100), f"{self.printer.name}@Lab"
        self.client = self._cable.peer("pap", "-p", name, PEER_NODE=number, **losses)
        self.client.say(text)
        self.began = time.monotonic()

    def end(self) -> None:
        """Ends the job by a last line."""
        self.client.say("end")
        assert self.client.process.stdin is not None
        self.client.process.stdin.close()

    def wait(self) -> Tuple[int, str, float]:
        """Waits for the client: its status, what it told, and the seconds that it took."""
        status, told = self.client.wait(self.began + LONGEST - time.monotonic())
        return status, told, self.client.ended - self.began


class Printing(unittest.TestCase):
    """A router, node 1, and printers. The clients that take minutes begin all at once, before the
    first test."""

    cable: Cable
    paper: Printer
    pause: LongJob
    silence: LongJob
    deafness: LongJob

    @classmethod
    def setUpClass(cls) -> None:
        cls.cable = Cable()
        cls.addClassCleanup(cls.cable.close)
        place = ["--router", "1", "--zone", "Lab"]
        router = cls.cable.live(1, place, "setzones Lab Office", "setlocal Lab")
        router.wait_for("done", count=2)
        cls.paper = Printer(cls.cable, 8, "Paper")
        cls.pause = LongJob(cls.cable, 9, "Pause")
        cls.silence = LongJob(cls.cable, 10, "Silence")
        cls.deafness = LongJob(cls.cable, 11, "Deafness")
        cls.begin_long_jobs()
        cls.paper.wait()

    @classmethod
    def begin_long_jobs(cls) -> None:
        cls.silence.begin(BEGIN, "tickles")
        cls.deafness.begin(LONG, f"answers:{LOSS:g}")
        cls.deafness.end()
        cls.pause.begin(BEGIN)
        ending = threading.Timer(PAUSE, cls.pause.end)
        ending.start()
        cls.addClassCleanup(ending.cancel)

    def print_files(self, *files: bytes) -> Tuple[int, str, List[bytes]]:
        """Prints files by one pap. Its status, what it prints, and the jobs that come of it."""
        before = len(jobs_of(self.paper.folder))
        with tempfile.TemporaryDirectory() as folder:
            paths = [Path(folder, f"file-{number}") for number in range(len(files))]
            for path, content in zip(paths, files):
                path.write_bytes(content)
            status, printed = self.cable.run("pap", "-p", "Paper@Lab", *map(str, paths))
        return status, printed, jobs_of(self.paper.folder)[before:]

    def test_papstatus_prints_the_status(self) -> None:
        status, printed = self.cable.run("papstatus", "-p", "Paper@Lab")
        self.assertEqual(status, 0, printed)
        self.assertIn("idle", printed)

    def test_pap_prints_jobs_one_after_the_other(self) -> None:
        for job in (JOB, b"a short one"):
            status, printed, jobs = self.print_files(job)
            self.assertEqual(status, 0, printed)
            self.assertTrue(jobs == [job], f"{len(jobs)} jobs came")

    def test_two_documents_of_one_connection_are_two_jobs(self) -> None:
        status, printed, jobs = self.print_files(JOB, b"a short one")
        self.assertEqual(status, 0, printed)
        self.assertTrue(jobs == [JOB, b"a short one"], f"{len(jobs)} jobs came")

    def test_a_query_before_a_document_is_answered_and_is_no_job(self) -> None:
        status, printed, jobs = self.print_files(QUERY.encode(), b"a document")
        self.assertEqual((status, jobs), (0, [b"a document"]), printed)
        answers = [it for it in printed.replace("\r", "\n").split("\n") if not it.startswith("%%[")]
        self.assertEqual([it for it in answers if it], ["Unknown", "black"])

    def test_a_client_that_pauses_for_minutes_prints_its_job_whole_and_once(self) -> None:
        status, told, seconds = self.pause.wait()
        self.assertGreaterEqual(seconds, PAUSE)
        self.assertEqual(status, 0, told)
        self.assertEqual(jobs_of(self.pause.printer.folder), [f"{BEGIN}\nend\n".encode()])

    def test_a_client_that_does_not_tickle_is_given_up_and_both_are_told(self) -> None:
        status, told, seconds = self.silence.wait()
        self.assertTrue(SILENCE - 1 < seconds < SILENCE + 15, f"it took {seconds:.0f} s")
        self.assertEqual(status, 1)
        self.assertIn("Connection closed by foreign host", told)
        self.silence.printer.process.wait_for("dropped")
        self.assertEqual(jobs_of(self.silence.printer.folder), [])

    def test_a_client_whose_answers_are_lost_for_minutes_prints_its_job_whole(self) -> None:
        status, told, seconds = self.deafness.wait()
        self.assertGreater(seconds, LOSS - 1)
        self.assertEqual(status, 0, told)
        self.assertEqual(jobs_of(self.deafness.printer.folder), [f"{LONG}\nend\n".encode()])


if __name__ == "__main__":
    unittest.main()
