"""The node, and where its library is found."""

import gc
import os
import shutil
import subprocess
import sys
import tempfile
import threading
import unittest
from pathlib import Path
from typing import Any, Callable, Dict, List, Tuple

import at_node
from at_node import Node, library

SETUP = "net 10\nnode 5\nnode 7\n"


def settle(nodes: Dict[int, Node]) -> None:
    """Hands on what the nodes send, by their numbers, until nothing is left."""
    sent: List[Tuple[int, int, bytes]] = []
    while True:
        sent += [(own, *it) for own, node in nodes.items() for it in node.datagrams()]
        if not sent:
            return
        source, to, datagram = sent.pop(0)
        for number, node in nodes.items():
            if number != source and to in (number, 255):
                node.receive(datagram)


class Nodes(unittest.TestCase):
    def setUp(self) -> None:
        self.five, self.seven = Node(SETUP, 5), Node(SETUP.encode(), 7)

    def tearDown(self) -> None:
        self.five.close()
        self.seven.close()

    def settle(self) -> None:
        settle({5: self.five, 7: self.seven})

    def test_a_name_is_found(self) -> None:
        self.assertEqual(self.seven.call("register Laser%20Jet LaserWriter 130").line, "done")
        self.assertEqual(self.five.call("find = LaserWriter").line, "looking 0")
        self.settle()
        found = self.five.call("finish 0").finds()
        self.assertEqual(found, [at_node.Find("Laser Jet", "LaserWriter", "*", 7, 130, 0)])

    def test_a_name_with_an_accent_is_found(self) -> None:
        self.seven.call("register Caf\u00e9 LaserWriter 130")
        self.five.call("find Caf\u00e9 =")
        self.settle()
        self.assertEqual(self.five.call("finish 0").finds()[0].object, "Caf\u00e9")

    def test_each_datagram_is_handed_out_once(self) -> None:
        self.five.call("find = =")
        self.five.timer("lookup 0")
        ((to, first),) = [next(self.five.datagrams())]
        rest = list(self.five.datagrams())
        self.assertEqual(to, 255)
        self.assertEqual(rest, [(255, first)])
        self.assertEqual(list(self.five.datagrams()), [])

    def test_timers_are_those_that_would_do_something(self) -> None:
        self.assertEqual(self.five.timers(), [])
        self.five.call("ask 7 129 00000000 61 1 xo 3")
        self.five.call("find = =")
        self.assertEqual(self.five.timers(), ["retry 0", "lookup 0"])
        self.assertEqual(self.five.timer("retry 0").line, "again")
        with self.assertRaises(at_node.Refused) as refused:
            self.five.timer("retry 1")
        self.assertEqual(refused.exception.number, 15)

    def test_a_refused_call_says_why(self) -> None:
        with self.assertRaises(at_node.Refused) as refused:
            self.five.call("open 0")
        self.assertEqual(refused.exception.number, 62)
        self.assertIn("no such entry", refused.exception.sentence)
        self.assertEqual(list(self.five.datagrams()), [])

    def test_a_refused_datagram_is_a_report(self) -> None:
        for datagram in (b"", b"abc", bytearray(5), memoryview(b"abc")):
            report = self.five.receive(datagram)
            self.assertEqual(report.line, "refused 1")
            self.assertIsNotNone(report.refusal)
            assert report.refusal is not None
            self.assertEqual(report.refusal.number, 1)
            self.assertIn("cut short", report.refusal.sentence)
        self.five.call("find = =")
        self.assertEqual(self.five.receive(next(self.five.datagrams())[1]).refusal, None)

    def test_a_service_answers(self) -> None:
        self.five.call("ask 7 129 0000002A 6869 1 xo 3")
        asked = self.seven.receive(next(self.five.datagrams())[1])
        self.assertEqual(asked.line, "asked 5 128 0 0000002A 6869")
        self.assertEqual(self.seven.call("answer 5 128 0 00000001:6A").line, "answered 1")
        self.assertEqual(self.seven.timers(), ["release 129 5 128 0"])
        (packet,) = self.five.receive(next(self.seven.datagrams())[1]).packets()
        self.assertEqual(packet, at_node.Packet(b"\0\0\0\1", b"j"))

    def test_a_long_report_is_whole(self) -> None:
        names = [f"{it:032d}" for it in range(1024)]
        with Node("net 10\nnode 1 router zone Lab\nnode 5 zone Lab\n", 1) as router, Node(
            "net 10\nnode 1 router zone Lab\nnode 5 zone Lab\n", 5
        ) as reader:
            router.call("setzones " + " ".join(names))
            reader.call("zones")
            reports: List[at_node.Report] = []
            while not reports or reports[-1].kind != "zones":
                for _, datagram in list(reader.datagrams()):
                    router.receive(datagram)
                reports += [reader.receive(it) for _, it in list(router.datagrams())]
            self.assertEqual(reports[-1].texts(), names)

    def test_no_words_are_an_event_by_chance(self) -> None:
        for words in ("", "nothing", "find = =\n", "call find = =", "find = = \0"):
            with self.assertRaises(at_node.NoEvent):
                self.five.call(words)
        with self.assertRaises(at_node.NoEvent):
            self.five.timer("retry x")

    def test_an_opening_says_what_is_wrong(self) -> None:
        with self.assertRaises(at_node.BadSetup):
            Node("nett 10\n", 5)
        for number in (6, 0, 255, 256 + 5, -1):
            with self.assertRaises(at_node.NoSuchNode):
                Node(SETUP, number)
        with self.assertRaises(UnicodeEncodeError):
            Node("net 10\nnode 5 zone \u4e2d\n", 5)

    def test_a_closed_node_says_so(self) -> None:
        self.five.close()
        self.five.close()
        uses: List[Callable[[], object]] = [
            lambda: self.five.call("zones"),
            lambda: self.five.receive(b""),
            lambda: self.five.timers(),
            lambda: list(self.five.datagrams()),
        ]
        for use in uses:
            with self.assertRaises(at_node.Closed):
                use()

    def test_a_node_closes_at_the_end_of_its_block(self) -> None:
        with Node(SETUP, 5) as node:
            node.call("listen on")
        with self.assertRaises(at_node.Closed):
            node.call("listen on")

    def test_a_node_that_nobody_has_is_closed(self) -> None:
        gc.collect()
        closed: List[object] = []
        library_ = library.load()
        real = library_.at_node_close

        def close(handle: Any) -> None:
            closed.append(handle)
            real(handle)

        self.addCleanup(setattr, library_, "at_node_close", real)
        setattr(library_, "at_node_close", close)
        Node(SETUP, 5)
        gc.collect()
        self.assertEqual(len(closed), 1)

    def test_a_node_stays_on_its_thread(self) -> None:
        caught: List[BaseException] = []

        def use() -> None:
            try:
                self.five.timers()
            except at_node.WrongThread as error:
                caught.append(error)

        thread = threading.Thread(target=use)
        thread.start()
        thread.join()
        self.assertEqual(len(caught), 1)

    def test_show_tells_what_bytes_are(self) -> None:
        self.five.call("find = =")
        shown = at_node.show(next(self.five.datagrams())[1])
        self.assertTrue(shown.startswith("ddp length 26 hops 0 "), shown)
        self.assertIn("\nnbp lkup id 0 count 1\n", shown)
        self.assertEqual(at_node.show(b""), "refused 1\n")


class Libraries(unittest.TestCase):
    def run_python(self, path: str, library_: str = "") -> "subprocess.CompletedProcess[str]":
        surroundings = {**os.environ, "PYTHONPATH": path}
        surroundings.pop(library.VARIABLE, None)
        if library_:
            surroundings[library.VARIABLE] = library_
        words = [sys.executable, "-W", "error", "-c", "import at_node; print(at_node.version())"]
        how = {"env": surroundings, "cwd": "/", "text": True, "capture_output": True}
        return subprocess.run(words, **how)  # type: ignore[call-overload,no-any-return]

    def test_the_number_is_that_of_the_package(self) -> None:
        self.assertEqual(at_node.version(), library.NUMBER)

    def test_a_missing_library_is_told_with_what_to_do(self) -> None:
        ran = self.run_python(str(Path(at_node.__file__).parents[1]), "/nowhere/libat_node.so.1")
        self.assertEqual(ran.returncode, 1)
        self.assertIn("/nowhere/libat_node.so.1 can't be loaded", ran.stderr)
        self.assertIn("./atnode install PREFIX", ran.stderr)

    def test_another_library_is_told(self) -> None:
        with tempfile.TemporaryDirectory() as folder:
            other = Path(folder, library.NAME)
            other.write_text("no library")
            ran = self.run_python(str(Path(at_node.__file__).parents[1]), str(other))
        self.assertIn(f"{other} can't be loaded", ran.stderr)

    def test_a_library_of_another_number_is_refused(self) -> None:
        kept, library.NUMBER = library.NUMBER, 3
        library.load.cache_clear()
        try:
            with self.assertRaises(at_node.LibraryMissing) as missing:
                library.load()
            self.assertIn("install both from one source", str(missing.exception))
        finally:
            library.NUMBER = kept
            library.load.cache_clear()

    def test_the_library_of_the_same_prefix_is_found(self) -> None:
        with tempfile.TemporaryDirectory() as folder:
            packages = Path(folder, "lib", "python3", "site-packages")
            shutil.copytree(Path(at_node.__file__).parent, packages / "at_node")
            shutil.copy(library.find(), Path(folder, "lib", library.NAME))
            ran = self.run_python(str(packages))
        self.assertEqual((ran.stdout, ran.stderr), ("2\n", ""))


if __name__ == "__main__":
    unittest.main()
