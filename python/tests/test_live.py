"""A live node and its lines."""

import io
import os
import tempfile
import time
import unittest
from typing import Iterable, List, Tuple

from at_node.live import Live, LineReader, read_script
from at_node.udp import UdpCable
from cables import MemoryCable, free_first, place


class Lives(unittest.TestCase):
    def live(
        self, lines: Iterable[str], prints_all: bool = False, patience: float = 5.0
    ) -> Tuple[bool, str, str]:
        """Whether all lines were played, and what a node printed and told of them, alone on a
        cable that brings back what goes to everyone."""
        output, errors = io.StringIO(), io.StringIO()
        with place(UdpCable(free_first(5), 5, []), 5) as five:
            live = Live(five.station, output, errors, prints_all, patience)
            live.feed(lines)
            live.end()
            is_good = live.run()
        return is_good, output.getvalue(), errors.getvalue()

    def test_lines_are_calls_and_their_reports_are_printed(self) -> None:
        lines = ["register Me Stream 130", "", "  # a comment", "  listen on  ", "find = ="]
        self.assertEqual(self.live(lines), (True, "done\ndone\nlooking 0\n", ""))

    def test_until_waits_for_a_report(self) -> None:
        lines = ["register Me Stream 130", "find = Stream", "until finds", "finish 0"]
        wanted = "done\nlooking 0\nfinds 1\nfound Me:Stream@*,5,130,0\n"
        self.assertEqual(self.live(lines), (True, wanted, ""))

    def test_until_waits_for_the_next_report_too(self) -> None:
        lines = ["listen on", "connect 5 130", "until made 2", "until opened"]
        good, printed, told = self.live(lines)
        self.assertEqual((good, told), (True, ""))
        self.assertIn("made 2\n", printed)

    def test_until_gives_up_and_says_so(self) -> None:
        begun = time.monotonic()
        good, printed, told = self.live(["until heard 1", "listen on"], patience=0.2)
        self.assertLess(time.monotonic() - begun, 2)
        self.assertEqual((good, printed), (False, "done\n"))
        self.assertEqual(told, "at_node: `heard 1` did not come within 0.2 s\n")

    def test_wait_waits(self) -> None:
        begun = time.monotonic()
        self.assertEqual(self.live(["wait 0.3", "listen on"])[:2], (True, "done\n"))
        self.assertGreaterEqual(time.monotonic() - begun, 0.3)

    def test_what_is_no_call_is_told(self) -> None:
        for line in ("nonsense", "find", "find \u4e2d ="):
            good, printed, told = self.live([line])
            self.assertEqual((good, printed), (False, ""))
            self.assertTrue(told.startswith(f"at_node: `{line}` is no call; "), told)
        for line in ("wait", "wait long", "wait 1 2"):
            self.assertIn("takes a number of seconds", self.live([line])[2])

    def test_a_refusal_is_told_with_its_reason(self) -> None:
        good, _, told = self.live(["open 0", "listen on"])
        self.assertFalse(good)
        self.assertIn("`open 0` was refused: the last finished lookup has no such entry", told)
        self.assertIn("(refusal 62)", told)

    def test_repeats_are_printed_only_if_all_is_wanted(self) -> None:
        lines = ["find = =", "wait 0.25"]
        self.assertEqual(self.live(lines)[1], "looking 0\n")
        self.assertIn("again\n", self.live(lines, prints_all=True)[1])

    def test_lines_of_a_pipe_are_played_as_they_come(self) -> None:
        reader, writer = os.pipe()
        output, errors = io.StringIO(), io.StringIO()
        with place(MemoryCable(), 5) as five:
            live = Live(five.station, output, errors)
            live.feed_from(reader)
            os.write(writer, b"listen on\nlisten o")
            five.station.step(time.monotonic() + 1)
            live._play_lines()
            self.assertEqual(output.getvalue(), "done\n")
            os.write(writer, b"ff\nfind = =")
            os.close(writer)
            self.assertTrue(live.run())
        os.close(reader)
        self.assertEqual((output.getvalue(), errors.getvalue()), ("done\ndone\nlooking 0\n", ""))

    def test_a_reader_gives_whole_lines_and_the_last_one_at_the_end(self) -> None:
        reader, writer = os.pipe()
        came: List[str] = []
        ends: List[bool] = []
        lines = LineReader(reader, came.extend, lambda: ends.append(True))
        for part, wanted in ((b"a", []), (b"b\nc\n\nd", ["ab", "c", ""]), (b"\xff", [])):
            os.write(writer, part)
            came.clear()
            lines.read()
            self.assertEqual((came, ends), (wanted, []))
        os.close(writer)
        lines.read()
        self.assertEqual((came, ends), (["d\ufffd"], [True]))
        os.close(reader)

    def test_a_script_has_its_lines(self) -> None:
        with tempfile.NamedTemporaryFile("w") as file:
            file.write("find = =\nwait 1")
            file.flush()
            self.assertEqual(read_script(file.name), ["find = =", "wait 1"])


if __name__ == "__main__":
    unittest.main()
