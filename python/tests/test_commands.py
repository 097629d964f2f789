"""The commands names, zones and chat, and their command lines."""

import io
import os
import signal
import subprocess
import sys
import threading
import time
import unittest
from typing import Any, Callable, List, Tuple

from at_node import commands
from at_node.udp import UdpCable
from cables import Place, free_first, has_multicast, place, run

HAS_MULTICAST = has_multicast()


class Patterns(unittest.TestCase):
    def test_a_pattern_has_object_type_and_zone(self) -> None:
        for text, wanted in (
            ("=:=@*", ("=", "=", "*")),
            ("Laser Jet:LaserWriter@My Zone", ("Laser%20Jet", "LaserWriter", "My%20Zone")),
            ("Laser Jet", ("Laser%20Jet", "=", "*")),
            (":LaserWriter", ("=", "LaserWriter", "*")),
            ("", ("=", "=", "*")),
            ("Prin\u2248", ("Prin%C5", "=", "*")),
        ):
            self.assertEqual(commands.pattern_of(text), wanted)

    def test_an_address_is_a_node_and_maybe_a_socket(self) -> None:
        self.assertEqual(commands.address_of("7"), (7, 130))
        self.assertEqual(commands.address_of("7.129"), (7, 129))
        for text in ("", "x", "7.", "7.x", "7.1.2"):
            self.assertRaises(ValueError, commands.address_of, text)


class Background:
    """Places that live on a thread of their own until the end of a block."""

    def __init__(self, make: Callable[[], List[Place]]) -> None:
        self._make, self._is_over, self._is_there = make, threading.Event(), threading.Event()
        self._thread = threading.Thread(target=self._live)

    def _live(self) -> None:
        places = self._make()
        self._is_there.set()
        run(places, self._is_over.is_set, 60)
        for each in places:
            each.__exit__()

    def __enter__(self) -> None:
        self._thread.start()
        self._is_there.wait()

    def __exit__(self, *_: object) -> None:
        self._is_over.set()
        self._thread.join()


class Commands(unittest.TestCase):
    def setUp(self) -> None:
        self.first = free_first(1, 5, 7)

    def others(self) -> List[Place]:
        """A router and a node with names."""
        router = place(UdpCable(self.first, 1, [5, 7]), 1, router=1)
        router.station.call("setzones Lab Caf%8E")
        router.station.call("setlocal Lab")
        seven = place(UdpCable(self.first, 7, [1, 5]), 7, router=1)
        seven.station.call("register Laser%20Jet LaserWriter 129")
        seven.station.call("register Chat Stream 130")
        return [router, seven]

    def test_names_are_printed_with_their_addresses(self) -> None:
        output = io.StringIO()
        with Background(self.others), place(UdpCable(self.first, 5, [1, 7]), 5, 1) as five:
            self.assertTrue(commands.names(five.station, "=:=@*", 0.3, output))
        wanted = "Chat:Stream@Lab\t7.130\nLaser Jet:LaserWriter@Lab\t7.129\n"
        self.assertEqual(output.getvalue(), wanted)

    def test_no_name_is_a_failure(self) -> None:
        output = io.StringIO()
        with place(UdpCable(self.first, 5, []), 5) as five:
            self.assertFalse(commands.names(five.station, "=:None", 0.1, output))
        self.assertEqual(output.getvalue(), "")

    def test_zones_are_printed_as_texts(self) -> None:
        for is_local, wanted in ((False, "Lab\nCaf\u00e9\n"), (True, "Lab\n")):
            output = io.StringIO()
            with Background(self.others), place(UdpCable(self.first, 5, [1, 7]), 5, 1) as five:
                self.assertTrue(commands.zones(five.station, is_local, output))
            self.assertEqual(output.getvalue(), wanted)

    def test_a_router_that_is_not_there_is_a_failure(self) -> None:
        output = io.StringIO()
        with place(UdpCable(self.first, 5, []), 5, router=1) as five:
            self.assertFalse(commands.zones(five.station, False, output))
        self.assertEqual(output.getvalue(), "")


class Lines(unittest.TestCase):
    """Whole commands, as processes."""

    def start(self, *words: str, lines: bool = False) -> "subprocess.Popen[str]":
        how: Any = {"text": True, "stdout": subprocess.PIPE, "stderr": subprocess.PIPE}
        how["stdin"] = subprocess.PIPE if lines else subprocess.DEVNULL
        ran = subprocess.Popen([sys.executable, "-W", "error", "-m", "at_node", *words], **how)
        self.addCleanup(self.stop, ran)
        return ran

    @staticmethod
    def stop(ran: "subprocess.Popen[str]") -> None:
        if ran.poll() is None:
            ran.kill()
        ran.communicate()

    def run_(self, *words: str) -> Tuple[int, str, str]:
        ran = self.start(*words)
        output, errors = ran.communicate(timeout=30)
        return ran.returncode, output, errors

    def read_until(self, file: Any, line: str) -> None:
        for came in iter(file.readline, ""):
            if came == line:
                return
        self.fail(f"{line!r} did not come")

    def udp(self, number: int) -> List[str]:
        return ["--udp", str(self.first), "--node", str(number)]

    def setUp(self) -> None:
        self.first = free_first(5, 7)

    def test_a_live_node_is_found_by_names(self) -> None:
        live = self.start("live", *self.udp(7), lines=True)
        assert live.stdin is not None and live.stdout is not None
        live.stdin.write("register Laser%20Jet LaserWriter 129\n")
        live.stdin.flush()
        self.read_until(live.stdout, "done\n")
        ran = self.run_("names", "=:=@*", "--seconds", "0.5", *self.udp(5))
        self.assertEqual(ran, (0, "Laser Jet:LaserWriter@*\t7.129\n", ""))
        output, errors = live.communicate(timeout=10)
        self.assertEqual(live.returncode, 0)
        self.assertIn("at_node: node 7 of network 10\n", errors)
        self.assertRegex(errors, r"at_node: received \d+, sent \d+, dropped 0\n$")

    def test_counts_are_told_on_a_signal(self) -> None:
        live = self.start("live", *self.udp(7), lines=True)
        assert live.stderr is not None
        self.read_until(live.stderr, "at_node: node 7 of network 10\n")
        time.sleep(0.1)
        live.send_signal(signal.SIGUSR1)
        self.read_until(live.stderr, "at_node: received 0, sent 0, dropped 0\n")
        live.send_signal(signal.SIGTERM)
        live.wait(10)
        self.assertEqual(live.returncode, 143)

    def test_a_chat_goes_both_ways(self) -> None:
        there = self.start("chat", *self.udp(7), lines=True)
        here = self.start("chat", "7.130", *self.udp(5), lines=True)
        for one, line in ((here, "Hello, \u00e9"), (there, "and back")):
            assert one.stdin is not None
            one.stdin.write(line + "\n")
            one.stdin.flush()
        assert here.stdout is not None and there.stdout is not None
        self.read_until(there.stdout, "Hello, \u00e9\n")
        self.read_until(here.stdout, "and back\n")
        here.communicate(timeout=10)
        there.wait(10)
        self.assertEqual((here.returncode, there.returncode), (0, 0))

    def test_a_chat_with_nobody_fails(self) -> None:
        live = self.start("live", *self.udp(7), lines=True)
        assert live.stderr is not None
        self.read_until(live.stderr, "at_node: node 7 of network 10\n")
        status, _, errors = self.run_("chat", "7", *self.udp(5))
        self.assertEqual(status, 1)
        self.assertIn("nobody listens there", errors)

    def test_a_script_is_played(self) -> None:
        script = os.path.join(os.path.dirname(__file__), "script.txt")
        status, output, errors = self.run_("live", "--script", script, *self.udp(5))
        wanted = "done\nlooking 0\nfinds 1\nfound Me:Stream@*,5,130,0\n"
        self.assertEqual((status, output), (0, wanted))
        self.assertEqual(len(errors.splitlines()), 2)

    def test_a_port_in_use_is_told(self) -> None:
        with place(UdpCable(self.first, 7, []), 7):
            status, output, errors = self.run_("names", *self.udp(7))
        self.assertEqual((status, output), (1, ""))
        self.assertRegex(errors, r"^at_node: port \d+ of 127.0.0.1 is in use: .*\n$")

    def test_what_does_not_go_together_is_told(self) -> None:
        cases: List[Tuple[List[str], str]] = [
            (["names", "--udp", "47200"], "--udp needs --node"),
            (["names", "--udp", "47200", "--node", "5", "--router", "1"], "--router needs --zone"),
            (["zones", "--udp", "47200", "--node", "5"], "zones needs --router"),
            (["chat", "x", "--udp", "47200", "--node", "5"], "x is no address"),
            (["names", "--udp", "47200", "--node", "255"], "255 is not from 1 to 254"),
            (["live", "--udp", "1", "--ltoudp"], "not allowed with"),
            ([], "required"),
        ]
        for words, wanted in cases:
            status, output, errors = self.run_(*words)
            self.assertEqual((status, output), (2, ""), words)
            self.assertIn(wanted, errors)

    def test_a_script_that_is_missing_is_told(self) -> None:
        status, _, errors = self.run_("live", "--script", "/nowhere", *self.udp(5))
        self.assertEqual(status, 1)
        self.assertIn("No such file or directory: '/nowhere'", errors)

    @unittest.skipUnless(HAS_MULTICAST, "this machine has no multicast at 127.0.0.1")
    def test_two_live_nodes_meet_on_localtalk_over_udp(self) -> None:
        live = self.start("live", "--interface", "127.0.0.1", "--node", "7", lines=True)
        assert live.stdin is not None and live.stdout is not None
        live.stdin.write("register Laser%20Jet LaserWriter 129\n")
        live.stdin.flush()
        self.read_until(live.stdout, "done\n")
        wire = ["--interface", "127.0.0.1", "--seconds", "0.5"]
        ran = self.run_("names", "=:LaserWriter", *wire)
        self.assertEqual(ran, (0, "Laser Jet:LaserWriter@*\t7.129\n", ""))
        status, _, errors = self.run_("names", *wire, "--node", "7")
        self.assertEqual(status, 1)
        self.assertIn("node number 7 is taken: name another", errors)

    @unittest.skipUnless(HAS_MULTICAST, "this machine has no multicast at 127.0.0.1")
    def test_a_zone_list_comes_over_localtalk_over_udp(self) -> None:
        wire = ["--interface", "127.0.0.1", "--router", "1", "--zone", "Lab"]
        router = self.start("live", *wire, "--node", "1", lines=True)
        assert router.stdin is not None and router.stdout is not None
        router.stdin.write("setzones Lab Caf\u00e9\n")
        router.stdin.flush()
        self.read_until(router.stdout, "done\n")
        self.assertEqual(self.run_("zones", *wire), (0, "Lab\nCaf\u00e9\n", ""))


if __name__ == "__main__":
    unittest.main()
