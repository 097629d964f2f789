"""Tests of the ladders that docs/ladder draws, without the program:

    python3 gate/test_ladder.py

The plays are those of the examples, and of each case that says all that is printed of its schedule.
"""

import re
import subprocess
import sys
import unittest
from collections.abc import Iterator
from pathlib import Path
from typing import Optional
from xml.etree import ElementTree
from xml.etree.ElementTree import Element

TOP = Path(__file__).resolve().parents[1]
sys.dont_write_bytecode = True
sys.path[:0] = [str(TOP / "docs" / "drawing"), str(TOP / "cases")]
from ladder import LINE, MOST, Ladder  # noqa: E402
from packets import words_of  # noqa: E402
from played import Unread, play_in, schedule_in  # noqa: E402
from written import cases_of  # noqa: E402

SCRIPT = TOP / "docs" / "ladder"
NAMES = {"svg": "http://www.w3.org/2000/svg"}
# Cases that go through all numbers take long to read, and plays of so many bytes to draw.
LONG, LARGE = {"drawn-connections.txt", "drawn-numbers.txt", "limits.txt"}, 500_000
# A request from node 5 to node 1, as it is printed, and a response to it.
REQUEST = "sent 0 1 00156711000A000A01050680034001000008000001"
ANSWER = "sent 1 5 0020CA71000A000A05018006039000000001000002034C6162064F6666696365"
SETUP = ["net 10", "node 1 router zone Lab", "node 5 zone Lab", "zones Lab Office"]


def drawn(printed: list[str], events: Optional[list[str]] = None, first: int = 0) -> Element:
    """The picture of a play, and of the schedule that it is of, if its events are given."""
    schedule = schedule_in(SETUP + events) if events is not None else None
    return ElementTree.fromstring(Ladder(play_in(printed, schedule), "a test", first).draw())


def texts(picture: Element) -> list[str]:
    """The texts that are drawn, without their hints."""
    return [it.text or "" for it in picture.findall("svg:text", NAMES)]


def count(picture: Element, name: str, **attributes: str) -> int:
    """How many shapes of a name have these attributes."""
    wanted = {key.replace("_", "-"): value for key, value in attributes.items()}
    found = picture.findall(f"svg:{name}", NAMES)
    return sum(wanted.items() <= it.attrib.items() for it in found)


def plays() -> Iterator[tuple[str, str, str]]:
    """The name, the schedule and what is printed of each play that the repository has."""
    for path in sorted(TOP.glob("examples/*.out")):
        yield path.stem, path.with_suffix(".txt").read_text(), path.read_text()
    for path in sorted((TOP / "cases").glob("*.txt")):
        for it in [] if path.name in LONG else cases_of(path):
            is_whole = not it.is_word and b"...\n" not in it.printed
            if is_whole and len(it.given + it.printed) < LARGE:
                printed = it.printed.decode().replace("(nothing)\n", "")
                yield it.place, it.given.decode("utf-8", "replace"), printed


class Plays(unittest.TestCase):
    def test_each_play_of_the_repository_is_drawn_with_and_without_its_schedule(self):
        played = list(plays())
        self.assertGreater(len(played), 500)
        for name, schedule, printed in played:
            for given in (None, schedule):
                with self.subTest(name, given=given is not None):
                    self.look_at(printed, given)

    def look_at(self, printed, given):
        """Draws a play, and compares the reports and the arrows with what was printed."""
        lines = printed.splitlines()
        play = play_in(lines, None if given is None else schedule_in(given.splitlines()))
        picture = ElementTree.fromstring(Ladder(play, "a play").draw())
        reports = len({it.split()[0] for it in lines if it[:1].isdigit()})
        drawn_events = [it for it in play.events if it.node in play.nodes]
        self.assertEqual(len(play.events), reports)
        self.assertEqual(count(picture, "circle", r="3.5"), min(len(drawn_events), MOST))

    def test_the_script_draws_each_example(self):
        for path in sorted(TOP.glob("examples/*.out")):
            with path.open() as printed:
                words = [str(SCRIPT), str(path.with_suffix(".txt"))]
                svg = subprocess.run(words, stdin=printed, capture_output=True, check=True).stdout
            title = ElementTree.fromstring(svg).findtext("svg:title", namespaces=NAMES)
            self.assertEqual(title, f"Ladder of {path.stem}.txt")


class Arrows(unittest.TestCase):
    def test_a_datagram_ends_at_the_event_that_delivers_it(self):
        printed = ["0 begun 0", REQUEST, "1 served 1", ANSWER]
        picture = drawn(printed, ["call 5 zones", "deliver 0 1"])
        self.assertIn("#0 ATP TReq 0", texts(picture))
        self.assertIn("#1 ATP TResp 0 place 0 EOM", texts(picture))
        self.assertEqual(count(picture, "polygon"), 1)

    def test_a_datagram_that_never_comes_ends_in_a_cross(self):
        picture = drawn(["0 begun 0", REQUEST], ["call 5 zones"])
        self.assertEqual(count(picture, "polygon"), 0)
        self.assertEqual(count(picture, "line", stroke_width="1.5"), 2)

    def test_a_datagram_that_comes_again_has_a_dashed_arrow_more(self):
        printed = ["0 begun 0", REQUEST, "1 ignored", "2 again"]
        picture = drawn(printed, ["call 5 zones", "deliver 0 1", "deliver 0 1"])
        self.assertEqual(count(picture, "polygon"), 2)
        self.assertEqual(count(picture, "line", stroke_dasharray="5 3"), 1)

    def test_forged_bytes_come_from_no_node(self):
        request = REQUEST.split()[-1]
        for data, what in (("00", "1 byte"), ("-", "0 bytes"), (request, "ATP TReq 0")):
            picture, words = drawn(["0 refused 1"], [f"forge 1 {data}"]), f"forged {what}"
            self.assertIn(words, texts(picture))
            self.assertEqual(count(picture, "polygon"), 1)

    def test_without_a_schedule_an_arrow_goes_across_to_each_node_that_it_is_for(self):
        everyone = REQUEST.replace("sent 0 1", "sent 2 255")
        picture = drawn(["0 begun 0", REQUEST, "1 served 1", ANSWER, "2 again", everyone])
        self.assertEqual(count(picture, "polygon"), 3)
        self.assertNotIn("1.5", [it.get("stroke-width") for it in picture])

    def test_what_a_drive_polls_is_not_shown_as_lost(self):
        setup = ["net 10", "port 47200", *SETUP[1:]]
        schedule = schedule_in([*setup, "call 5 zones", "poll 1", "poll 5"])
        printed = ["0 begun 0", REQUEST, "0 cable", "1 idle", "2 cable"]
        picture = ElementTree.fromstring(Ladder(play_in(printed, schedule), "a drive").draw())
        self.assertEqual(count(picture, "polygon"), 1)
        self.assertIn("begun 0; cable", texts(picture))

    def test_a_node_that_sends_to_itself_has_a_bow(self):
        own = REQUEST.replace("sent 0 1", "sent 0 5").replace("0A01050680", "0A05050680")
        call = "call 5 ask 5 6 00000000 - 1 alo 0"
        picture = drawn(["0 begun 0", own, "1 ignored"], [call, "deliver 0 5"])
        self.assertEqual(count(picture, "path"), 1)


class Endings(unittest.TestCase):
    def test_a_stop_is_told_with_the_line_that_was_not_played(self):
        picture = drawn(["0 begun 0", REQUEST, "stopped 70 at 1"], ["call 5 zones", "deliver 9 1"])
        self.assertIn("stopped 70 at 1: deliver 9 1", texts(picture))

    def test_a_fault_is_told_though_no_event_was_played(self):
        for printed in ("fault 3", "fault 0", "usage", "stopped nomemory at 0"):
            self.assertIn(printed, texts(drawn([printed])))

    def test_a_long_play_is_drawn_in_part_and_says_so(self):
        printed = [line for event in range(MOST + 7) for line in (f"{event} begun 0", REQUEST)]
        self.assertIn("7 more events are not shown", texts(drawn(printed)))
        self.assertIn(str(MOST + 6), texts(drawn(printed, first=7)))


class Words(unittest.TestCase):
    def test_what_is_long_is_cut_and_whole_where_it_is_pointed_at(self):
        call = "call 1 setzones " + " ".join(f"Zone{number}" for number in range(40))
        picture = drawn(["0 done"], [call])
        hints = [it.text for it in picture.findall("svg:text/svg:title", NAMES)]
        self.assertIn(call, hints)
        self.assertTrue(all(len(it) <= max(LINE, 48) for it in texts(picture)))

    def test_the_description_tells_all_that_is_drawn(self):
        picture = drawn(["0 begun 0", REQUEST], ["call 5 zones"])
        told = picture.findtext("svg:desc", namespaces=NAMES)
        self.assertEqual(
            told,
            "Nodes: 1, 5. Event 0, call 5 zones: begun 0."
            " Node 5 sends datagram 0, ATP TReq 0, to node 1.",
        )

    def test_any_bytes_have_words(self):
        for length in range(40):
            for first in (0x00, 0x40, 0x8F, 0xFF):
                for kind in range(8):
                    data = bytes([0] * 12 + [kind] + [first] * length)
                    self.assertRegex(words_of(data), r"^[\w+, -]+$")
                self.assertTrue(words_of(bytes([first] * length)))


class Input(unittest.TestCase):
    def test_a_line_that_is_never_printed_is_refused(self):
        for line in ("hello", "sent 0 1 0G", REQUEST, "0", "stopped 72", "sent 0 1 001"):
            with self.subTest(line), self.assertRaises(Unread):
                play_in([line])

    def test_a_schedule_with_a_fault_is_read_up_to_it(self):
        for line in ("node", "node x", "call", "deliver 0", "forge 1 0", "forge 1 X0"):
            schedule = schedule_in([*SETUP, "call 5 zones", line, "call 5 zones"])
            self.assertEqual((schedule.nodes, len(schedule.causes)), ([1, 5], 1), line)

    def test_another_schedule_is_refused(self):
        for events in ([], ["call 1 zones"]):
            with self.subTest(events), self.assertRaises(Unread):
                drawn(["0 begun 0", REQUEST], events)

    def test_the_script_says_why_nothing_is_drawn(self):
        words = {"capture_output": True, "text": True, "check": False}
        run = subprocess.run([str(SCRIPT)], input="hello\n", **words)
        self.assertEqual((run.stdout, run.returncode), ("", 1))
        self.assertTrue(re.match("docs/ladder: line 1 ", run.stderr), run.stderr)


if __name__ == "__main__":
    unittest.main()
