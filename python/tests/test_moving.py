"""When a node moves: by a clock of the test's own, on a wire without a socket."""

import unittest
from typing import List, Optional
from unittest import mock

from at_node import Node, OutOfMemory, Refused, Report, myzone
from at_node.kept import PATIENCE, Kept
from at_node.ltoudp import LtoudpCable
from at_node.moving import PAUSE, Mover
from at_node.place import Place
from at_node.rtmp import Router
from at_node.station import Station, setup_of
from at_node.watch import Watch
from fakes import FakeWire, told, zone_answer

FIRST, SECOND, ELSEWHERE = Router(5, 1), Router(5, 2), Router(6, 1)


class Watches(unittest.TestCase):
    def test_a_first_router_is_where_the_node_belongs(self) -> None:
        watch = Watch(None, 0)
        self.assertEqual(watch.hear(FIRST, 9), "network 5 has router 1: the node moves there")
        self.assertEqual(watch.wanted, FIRST)

    def test_the_own_router_changes_nothing(self) -> None:
        watch = Watch(FIRST, 0)
        self.assertIsNone(watch.hear(FIRST, 9))
        self.assertIsNone(watch.wanted)

    def test_another_network_is_where_the_node_belongs_and_is_said_once(self) -> None:
        watch = Watch(FIRST, 0)
        self.assertIsNotNone(watch.hear(ELSEWHERE, 9))
        self.assertIsNone(watch.hear(ELSEWHERE, 19))
        self.assertIsNone(watch.hear(Router(7, 9), 19))
        self.assertEqual(watch.wanted, ELSEWHERE)

    def test_another_router_of_the_network_counts_once_the_first_is_silent(self) -> None:
        watch = Watch(FIRST, 0)
        watch.hear(FIRST, 10)
        self.assertIsNone(watch.hear(SECOND, 59.9))
        self.assertIsNone(watch.wanted)
        self.assertIsNotNone(watch.hear(SECOND, 60))
        self.assertEqual(watch.wanted, SECOND)

    def test_silence_is_said_once_and_again_after_a_word(self) -> None:
        watch, silent = Watch(FIRST, 0), "router 1 of network 5 has been silent for 50 s"
        self.assertEqual([watch.look(it) for it in (0, 49.9, 50, 90)], [None, None, silent, None])
        watch.hear(FIRST, 100)
        self.assertEqual([watch.look(it) for it in (149.9, 150, 151)], [None, silent, None])

    def test_a_node_without_a_router_misses_none(self) -> None:
        self.assertIsNone(Watch(None, 0).look(1000))

    def test_a_node_that_moved_belongs_there(self) -> None:
        watch = Watch(None, 0)
        watch.hear(FIRST, 9)
        watch.move(FIRST, 10)
        self.assertIsNone(watch.wanted)
        self.assertIsNone(watch.hear(FIRST, 11))


class Keeps(unittest.TestCase):
    """What is kept of the calls of a real node."""

    def setUp(self) -> None:
        self.node, self.kept = Node(setup_of(10, 5), 5), Kept()
        self.addCleanup(self.node.close)

    def call(self, words: str, now: float = 0) -> Report:
        report = self.node.call(words)
        self.kept.called(words.split(), report, now)
        return report

    def is_busy(self, now: float = 0) -> bool:
        return self.kept.is_busy(self.node.timers(), now)

    def test_names_are_kept_until_they_are_taken_away(self) -> None:
        self.call("register Laser LaserWriter 129")
        self.call("register Me%20too Stream 130")
        self.call("unregister LASER laserwriter")
        self.assertEqual(self.kept.calls(), ["register Me%20too Stream 130"])

    def test_a_claim_is_kept_once_it_is_claimed(self) -> None:
        self.call("claim Laser LaserWriter 129")
        self.call("find = =")
        self.assertEqual(self.kept.calls(), [])
        self.call("finish 1")
        self.call("finish 0")
        self.assertEqual(self.kept.calls(), ["register Laser LaserWriter 129"])

    def test_listening_is_kept(self) -> None:
        self.call("listen on")
        self.assertEqual(self.kept.calls(), ["listen on"])
        self.call("listen off")
        self.assertEqual(self.kept.calls(), [])

    def test_streams_transactions_and_lookups_keep_a_node_busy(self) -> None:
        self.assertFalse(self.is_busy())
        for begin, end in (("find = =", "call finish 0"), ("connect 7 130", "call close 1"),
                           ("ask 7 129 00000000 - 1 alo 0", "timer retry 0")):
            self.call(begin)
            self.assertTrue(self.is_busy(), begin)
            kind, _, words = end.partition(" ")
            if kind == "call":
                self.call(words)
            else:
                self.node.timer(words)
            self.assertFalse(self.is_busy(), end)

    def test_a_lookup_that_nobody_ends_keeps_nothing_for_ever(self) -> None:
        self.call("find = =")
        self.assertTrue(self.is_busy(PATIENCE - 1))
        self.assertFalse(self.is_busy(PATIENCE))

    def test_a_request_keeps_a_node_busy_until_it_is_answered(self) -> None:
        for answer in ("answer 9 128 7 00000000:-", None):
            self.kept.heard(Report("asked 9 128 7 00000000 -"), 0)
            self.assertTrue(self.is_busy(1))
            if answer is not None:
                self.kept.called(answer.split(), Report("answered 1"), 1)
            self.assertFalse(self.is_busy(1 if answer else PATIENCE))


class Moves(unittest.TestCase):
    """A node that lives without a router at first. `pass_` lets seconds pass."""

    def setUp(self) -> None:
        self.now = 1000.0
        patch = mock.patch("time.monotonic", lambda: self.now)
        patch.start()
        self.addCleanup(patch.stop)
        self.wire = FakeWire()
        self.told: List[str] = []
        self.number, self.zone = 21, None
        self.cable = LtoudpCable(self.wire, 21, 10)
        self.station = Station(self.open(Place(10)), self.cable)
        self.addCleanup(self.close)
        self.mover = Mover(self.station, self.cable, self, Place(10), self.told.append)

    def close(self) -> None:
        self.station.close()
        self.station.node.close()

    def open(self, where: Place) -> Node:
        zone = None if where.zone is None else where.zone.decode()
        return Node(setup_of(where.network, 21, zone, where.router), 21)

    def pass_(self, seconds: float, router: Optional[Router] = None, zone: bytes = b"") -> None:
        """Lets time pass, while a router is heard each ten seconds, and answers for its zone."""
        for tick in range(round(seconds * 2)):
            self.now += 0.5
            if router is not None and tick % 20 == 0:
                self.wire.come(told(router))
            for frame in self.wire.frames:
                if zone and frame.data[2:3] == bytes([myzone.SOCKET]):
                    self.wire.come(zone_answer(frame, zone))
            self.wire.frames.clear()
            self.station.step(self.now)

    FOUND = ["network 5 has router 1: the node moves there",
             "node 21 of network 5, router 1, zone Lab"]

    def test_a_node_moves_to_a_router_that_comes_and_keeps_its_names(self) -> None:
        self.station.call("register Laser LaserWriter 129")
        self.station.call("listen on")
        self.pass_(30, FIRST, b"\3Lab")
        self.assertEqual(self.told, self.FOUND)
        lookup = self.station.call("find Laser LaserWriter Lab").number()
        self.assertEqual(self.station.call(f"finish {lookup}").line, "found")
        self.assertRaises(Refused, self.station.call, "register Laser LaserWriter 129")
        self.assertEqual(self.wire.frames[0].to, 1)

    def test_a_node_with_a_stream_stays_until_that_ends(self) -> None:
        end = self.station.call("connect 7 130").number()
        self.pass_(20, FIRST, b"\3Lab")
        self.assertEqual(self.told, self.FOUND[:1])
        self.station.call(f"close {end}")
        self.pass_(20, FIRST, b"\3Lab")
        self.assertEqual(self.told, self.FOUND)

    def test_a_node_moves_once_in_fifty_seconds_at_most(self) -> None:
        self.pass_(5, FIRST, b"\3Lab")
        for network in range(6, 106):
            self.pass_(1, Router(network, 9), b"\3Far")
        moves = [it for it in self.told if it.startswith("node")]
        self.assertEqual(len(moves), 1 + 100 // int(PAUSE))
        heard = [it for it in self.told if it.endswith("the node moves there")]
        self.assertEqual(len(heard), len(moves) + 1)

    def test_a_router_that_names_no_zone_is_told_once_and_the_node_stays(self) -> None:
        self.pass_(200, FIRST)
        self.assertEqual(len(self.told), 2)
        self.assertIn("answered, but not which zone this is", self.told[1])
        self.assertRaises(Refused, self.station.call, "zones")

    def test_a_node_that_finds_no_memory_stays(self) -> None:
        with mock.patch.object(self, "open", side_effect=OutOfMemory("none")):
            self.pass_(5, FIRST, b"\3Lab")
        self.assertEqual(self.told[1:], ["there is no memory to move"])
        self.pass_(60, FIRST, b"\3Lab")
        self.assertEqual(self.told[2:], self.FOUND[1:])

    def test_silence_is_told_and_another_router_of_the_network_takes_over(self) -> None:
        self.pass_(5, FIRST, b"\3Lab")
        self.pass_(20, SECOND, b"\3Lab")
        self.assertEqual(self.told, self.FOUND)
        self.pass_(60, SECOND, b"\3Lab")
        self.assertEqual(self.told[2:], [
            "router 1 of network 5 has been silent for 50 s",
            "network 5 has router 2: the node moves there",
            "node 21 of network 5, router 2, zone Lab"])


if __name__ == "__main__":
    unittest.main()
