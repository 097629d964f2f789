"""Where a node is: how it asks for its router and its zone, on a wire without a socket."""

import unittest
from typing import List, Optional
from unittest import mock

from at_node import CableFault, place
from at_node.llap import SHORT, Frame
from at_node.ltoudp import LtoudpCable
from at_node.place import Place, RouterSearch, ZoneQuestion
from at_node.rtmp import Router
from fakes import FakeWire, told, zone_answer

FIRST, ELSEWHERE = Router(5, 1), Router(6, 1)


class Questions(unittest.TestCase):
    def setUp(self) -> None:
        self.wire = FakeWire()
        self.cable = LtoudpCable(self.wire, 21, 10)

    def sent(self) -> List[Frame]:
        sent, self.wire.frames = self.wire.frames, []
        return sent

    def test_a_router_is_asked_for_three_times(self) -> None:
        search = RouterSearch(self.cable, 21, 1.5, 100)
        times = [it for it in range(160) if search.look(100 + it / 100) is None or self.sent()]
        self.assertEqual(times, [0, 50, 100])
        self.assertFalse(search.look(101.49))
        self.assertTrue(search.look(101.5))
        self.assertIsNone(search.router)

    def test_the_request_is_as_a_mac_sends_it(self) -> None:
        RouterSearch(self.cable, 21, 1.5, 0).look(0)
        self.assertEqual(self.sent(), [Frame(255, 21, SHORT, bytes.fromhex("000601010501"))])

    def test_the_first_router_that_is_heard_is_it(self) -> None:
        search = RouterSearch(self.cable, 21, 1.5, 0)
        self.cable.beside.append(search.take)
        for router in (FIRST, ELSEWHERE):
            self.wire.come(told(router))
            self.assertIsNone(self.cable.receive())
        self.assertEqual(search.router, FIRST)
        self.assertTrue(search.look(0))

    def test_a_zone_is_asked_for_four_times(self) -> None:
        question = ZoneQuestion(self.cable, 21, FIRST, 0)
        times = [it for it in range(60) if not question.look(it / 10) and self.sent()]
        self.assertEqual(times, [0, 10, 20, 30])
        self.assertEqual([question.look(it) for it in (3.9, 4)], [False, True])

    def answer(self, question: ZoneQuestion, source: int = 1, zone: bytes = b"\3Lab") -> None:
        question.look(0)
        self.wire.come(zone_answer(self.sent()[0], zone)._replace(source=source))
        self.cable.beside[:] = [question.take]
        self.cable.receive()

    def test_the_routers_answer_ends_the_question(self) -> None:
        question = ZoneQuestion(self.cable, 21, FIRST, 0)
        self.answer(question)
        self.assertEqual(question.zone, b"Lab")
        self.assertTrue(question.look(0))

    def test_an_answer_of_another_node_or_of_no_zone_does_not(self) -> None:
        for source, zone in ((2, b"\3Lab"), (1, b"\0"), (1, b"\5Lab")):
            question = ZoneQuestion(self.cable, 21, FIRST, 0)
            self.answer(question, source, zone)
            self.assertIsNone(question.zone)
            self.assertFalse(question.look(0))


class Finds(unittest.TestCase):
    """The whole search, while the test answers what is sent."""

    def find(self, zone: Optional[bytes], named: Optional[bytes] = None) -> Optional[Place]:
        wire = FakeWire()
        cable = LtoudpCable(wire, 21, 10)

        def send(frame: Frame) -> None:
            if frame.data[4:5] == b"\5":
                wire.come(told(FIRST, 21))
            elif zone is not None:
                wire.come(zone_answer(frame, zone))

        with mock.patch.object(wire, "send", send), mock.patch.object(place, "STEP", 1):
            return place.find(cable, 21, zone=named)

    def test_a_node_learns_its_network_router_and_zone(self) -> None:
        self.assertEqual(self.find(b"\3Lab"), Place(5, 1, b"Lab"))

    def test_a_zone_that_is_named_is_not_asked_for(self) -> None:
        self.assertEqual(self.find(None, b"Office"), Place(5, 1, b"Office"))

    def test_a_router_that_names_no_zone_is_told(self) -> None:
        with mock.patch.object(place, "PATIENCE", 0.01):
            with self.assertRaisesRegex(CableFault, "router 1 of network 5 answered, but not whi"):
                self.find(None)

    def test_without_a_router_there_is_no_place(self) -> None:
        wire = FakeWire()
        with mock.patch.object(place, "ASKED_AT", (0.0, 0.01)), mock.patch.object(place, "STEP", 1):
            self.assertIsNone(place.find(LtoudpCable(wire, 21, 10), 21, 0.05))
        self.assertEqual(len(wire.frames), 2)

    def test_a_place_is_told_in_words(self) -> None:
        self.assertEqual(Place(10).of_node(7), "node 7 of network 10")
        self.assertEqual(Place(5, 1, b"Caf\x8e").of_node(21),
                         "node 21 of network 5, router 1, zone Caf\u00e9")


if __name__ == "__main__":
    unittest.main()
