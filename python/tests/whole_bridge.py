"""The bridge in C of examples/c/ltoudp.c, against live nodes in Python.

The environment variable AT_NODE_BRIDGE names the built program.
"""

import os
import random
import subprocess
import sys
import threading
import time
import unittest
from typing import Any, List, Tuple

from at_node import llap
from at_node.llap import Frame
from at_node.wire import GROUP, PORT, Wire
from cables import has_multicast

BRIDGE = os.environ.get("AT_NODE_BRIDGE", "")
LOOPBACK = "127.0.0.1"
# A name of node 8 of network 10, and the answer to lookup 7 that has it, at socket 130.
NAME = b"\x06Bridge\x06Stream\x03Lab"
OWN_NAME = bytes([0x31, 7, 0, 10, 8, 130, 0]) + NAME


class Program:
    """A program whose lines are read as they come."""

    def __init__(self, words: List[str]) -> None:
        how: Any = {"stdin": subprocess.PIPE, "stdout": subprocess.PIPE, "stderr": subprocess.PIPE}
        self.process = subprocess.Popen(words, text=True, **how)
        self.printed: List[str] = []
        self._came = threading.Condition()
        self._thread = threading.Thread(target=self._read)
        self._thread.start()

    def _read(self) -> None:
        assert self.process.stdout is not None
        for line in self.process.stdout:
            with self._came:
                self.printed.append(line.rstrip("\n"))
                self._came.notify_all()

    def say(self, *lines: str) -> None:
        assert self.process.stdin is not None
        self.process.stdin.write("".join(it + "\n" for it in lines))
        self.process.stdin.flush()

    def wait_for(self, begin: str, seconds: float = 10) -> str:
        """The first line that begins so, once it is there."""
        def found() -> List[str]:
            return [it for it in self.printed if it.startswith(begin)]

        with self._came:
            if not self._came.wait_for(found, seconds):
                raise AssertionError((begin, self.printed))
            return found()[0]

    def end(self) -> Tuple[int, str]:
        """Ends its lines, and gives its status and what it told."""
        assert self.process.stdin is not None and self.process.stderr is not None
        self.process.stdin.close()
        told = self.process.stderr.read()
        self._thread.join()
        assert self.process.stdout is not None
        self.process.stdout.close()
        self.process.stderr.close()
        return self.process.wait(10), told


@unittest.skipUnless(BRIDGE, "AT_NODE_BRIDGE names no program")
@unittest.skipUnless(has_multicast(), "this machine has no multicast at 127.0.0.1")
class Programs(unittest.TestCase):
    """Programs that end with the test that started them."""

    def setUp(self) -> None:
        self.programs: List[Program] = []

    def tearDown(self) -> None:
        for program in self.programs:
            if program.process.poll() is None:
                self.assertEqual(program.end()[0], 0)

    def start(self, words: List[str]) -> Program:
        self.programs.append(Program(words))
        return self.programs[-1]

    def live(self, number: int, *words: str) -> Program:
        live = [sys.executable, "-m", "at_node", "live", "--interface", LOOPBACK]
        return self.start([*live, "--node", str(number), *words])


class Bridges(Programs):
    bridge: Program

    @classmethod
    def setUpClass(cls) -> None:
        cls.bridge = Program([BRIDGE, "7", LOOPBACK])
        cls.bridge.say("register Bridge Stream 130", "listen on")
        cls.bridge.wait_for("done")

    @classmethod
    def tearDownClass(cls) -> None:
        status, told = cls.bridge.end()
        assert (status, told) == (0, "ltoudp: this is no call: call nonsense\n"), told

    def setUp(self) -> None:
        super().setUp()
        self.bridge.printed.clear()

    def test_both_find_each_other(self) -> None:
        live = self.live(9)
        live.say("register Live Stream 130", "find = Stream", "until finds", "wait 0.2", "finish 0")
        found = live.wait_for("found")
        self.assertIn("Bridge:Stream@*,7,130,0", found)
        self.bridge.say("find Live Stream")
        lookup = self.bridge.wait_for("looking").split()[1]
        self.bridge.wait_for("finds")
        self.bridge.say(f"finish {lookup}")
        self.assertEqual(self.bridge.wait_for("found"), "found Live:Stream@*,9,130,0")

    def test_a_request_is_answered(self) -> None:
        live = self.live(9)
        live.say("ask 7 129 00000000 6869 1 xo 3")
        self.assertRegex(live.wait_for("response"), r"^response \d+ 00000000:2A$")

    def test_a_stream_comes(self) -> None:
        live = self.live(9)
        live.say("connect 7 130", "until opened", "write 1 48656C6C6F end", "wait 0.3", "close 1")
        self.assertEqual(self.bridge.wait_for("read 4"), "read 48656C6C6F end")
        self.bridge.wait_for("closed")

    def test_its_number_is_taken_for_others(self) -> None:
        live = self.live(7)
        live.process.wait(10)
        status, told = live.end()
        self.assertEqual(status, 1)
        self.assertIn("node number 7 is taken", told)

    def test_it_ends_where_its_number_is_taken(self) -> None:
        other = self.start([BRIDGE, "7", LOOPBACK])
        other.process.wait(10)
        self.assertEqual(other.end(), (1, "ltoudp: the node number is taken\n"))

    def test_what_is_no_call_is_told(self) -> None:
        # It is read at the end of all tests.
        self.bridge.say("nonsense", "listen on")
        self.bridge.wait_for("done")

    def test_random_frames_do_not_end_it(self) -> None:
        chance, wire = random.Random(1), Wire(LOOPBACK)
        for _ in range(20_000):
            head = bytes([7, chance.randrange(256), chance.choice([1, 1, 2, 0x81])])
            length = chance.randrange(60)
            short = (length + 5).to_bytes(2, "big") + bytes([chance.choice([2, 6, 129, 130]), 9])
            data = short + bytes([chance.choice([2, 3, 7])]) + chance.randbytes(length)
            wire._socket.sendto(b"HOST" + (head + data)[:chance.randrange(70)], (GROUP, PORT))
        wire.close()
        self.test_both_find_each_other()


class RoutedBridges(Programs):
    """The bridge, node 8, in the zone Lab of network 10, whose router is node 1."""

    bridge: Program

    def setUp(self) -> None:
        super().setUp()
        router = self.live(1, "--router", "1", "--zone", "Lab")
        router.say("setzones Lab Office", "setlocal Lab")
        self.bridge = self.start([BRIDGE, "8", LOOPBACK, "10", "1", "Lab"])
        self.bridge.say("register Bridge Stream 130")
        for each in (router, self.bridge):
            each.wait_for("done")

    def names(self, pattern: str) -> Tuple[int, str]:
        words = ["-m", "at_node", "names", pattern, "--interface", LOOPBACK, "--node", "9"]
        words += ["--router", "1", "--zone", "Lab"]
        ran = subprocess.run([sys.executable, *words], stdout=subprocess.PIPE, text=True)
        return ran.returncode, ran.stdout

    def test_its_names_are_found_in_its_zone_alone(self) -> None:
        found = "Bridge:Stream@Lab\t8.130\n"
        self.assertEqual(self.names("=:Stream@Lab"), (0, found))
        self.assertEqual(self.names("=:Stream@Office"), (1, ""))

    def test_it_finds_names_of_its_zone(self) -> None:
        live = self.live(9, "--router", "1", "--zone", "Lab")
        live.say("register Live Stream 130")
        live.wait_for("done")
        self.bridge.say("find Live Stream")
        self.bridge.wait_for("finds")
        self.bridge.say("finish 0")
        self.assertEqual(self.bridge.wait_for("found"), "found Live:Stream@Lab,9,130,0")

    def test_what_goes_to_its_own_network_goes_short_and_tells_the_network(self) -> None:
        answer = self.answer_to_a_lookup_of(10)
        self.assertEqual((answer.to, answer.kind), (5, llap.SHORT))
        self.assertEqual(answer.data[llap.SHORT_HEADER:], OWN_NAME)

    def test_what_goes_to_another_network_goes_long_to_the_router(self) -> None:
        answer = self.answer_to_a_lookup_of(20)
        self.assertEqual((answer.to, answer.kind), (1, llap.LONG))
        networks_and_nodes = bytes([0, 20, 0, 10, 5, 8])
        self.assertEqual(answer.data[4:10], networks_and_nodes)
        self.assertEqual(answer.data[llap.LONG_HEADER:], OWN_NAME)

    def answer_to_a_lookup_of(self, network: int) -> Frame:
        """What the bridge sends to node 5 of a network that looks its name up by the router."""
        wire = Wire(LOOPBACK)
        self.addCleanup(wire.close)
        lookup = bytes([0x21, 7, 0, network, 5, 200, 0]) + NAME
        length = (len(lookup) + llap.SHORT_HEADER).to_bytes(2, "big")
        wire.send(Frame(8, 1, llap.SHORT, length + bytes([2, 2, llap.NAMES]) + lookup))
        end = time.monotonic() + 5
        while time.monotonic() < end:
            payload = wire.receive()
            frame = None if payload is None else wire.frame_of(payload)
            if frame is not None and frame.source == 8 and frame.kind in (llap.SHORT, llap.LONG):
                return frame
            time.sleep(0.01)
        raise AssertionError("nothing came")


if __name__ == "__main__":
    unittest.main()
