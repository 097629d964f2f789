"""Stations: nodes on cables with clocks, and streams over them."""

import os
import time
import unittest
from typing import List, Optional

from at_node import Node, Refused, Report
from at_node.station import pass_numbers, setup_of
from at_node.stream import Stream
from at_node.udp import UdpCable
from cables import MemoryCable, Place, free_first, has_waited, place, run


class Setups(unittest.TestCase):
    def test_a_setup_has_the_node_and_its_router(self) -> None:
        self.assertEqual(setup_of(10, 5), "net 10\nnode 5 rooms 64 64\n")
        wanted = "net 10\nnode 1 router zone Lab\nnode 5 zone Lab rooms 9 9\n"
        self.assertEqual(setup_of(10, 5, "Lab", 1, 9), wanted)
        self.assertEqual(setup_of(10, 1, "Lab", 1), "net 10\nnode 1 router zone Lab rooms 64 64\n")


class Numbers(unittest.TestCase):
    def test_a_node_passes_over_numbers_and_nothing_is_left(self) -> None:
        with Node("net 10\nnode 5\n", 5) as node:
            pass_numbers(node, 5, 70)
            self.assertEqual((node.timers(), list(node.datagrams())), ([], []))
            self.assertEqual(node.call("ask 7 129 00000000 - 1 xo 0").line, "begun 70")


class Stations(unittest.TestCase):
    def test_a_call_sends_what_comes_of_it(self) -> None:
        with place(MemoryCable(), 5) as five:
            self.assertEqual(five.station.call("find = =").line, "looking 0")
            assert isinstance(five.cable, MemoryCable)
            self.assertEqual([to for to, _ in five.cable.sent], [255])
            self.assertEqual(five.station.timers(), ["lookup 0"])

    def test_a_refused_call_raises(self) -> None:
        with place(MemoryCable(), 5) as five:
            self.assertRaises(Refused, five.station.call, "open 0")

    def test_a_timer_fires_by_the_clock(self) -> None:
        with place(MemoryCable(), 5) as five:
            begun = time.monotonic()
            five.station.call("find = =")
            while len(five.heard) < 3:
                five.station.step()
            self.assertTrue(has_waited(begun, 0.3))
            self.assertEqual(five.kinds(), ["again"] * 3)
            assert isinstance(five.cable, MemoryCable)
            self.assertEqual(len(five.cable.sent), 4)

    def test_a_report_of_a_datagram_is_heard_with_it_and_one_of_a_timer_with_none(self) -> None:
        with place(MemoryCable(), 5) as five:
            assert isinstance(five.cable, MemoryCable)
            came: List[Optional[bytes]] = []
            five.station.hear = lambda report: came.append(five.station.datagram)
            five.cable.coming.append(b"\0\x15 and no more")
            five.station.step(0)
            five.station.call("find = =")
            while len(came) < 2:
                five.station.step()
            self.assertEqual(came, [b"\0\x15 and no more", None])
            self.assertIsNone(five.station.datagram)

    def test_whoever_calls_the_node_itself_settles_it(self) -> None:
        with place(MemoryCable(), 5) as five:
            assert isinstance(five.cable, MemoryCable)
            five.node.call("find = =")
            self.assertEqual((five.cable.sent, five.station.timers()), ([], []))
            five.station.settle()
            self.assertEqual([to for to, _ in five.cable.sent], [255])
            self.assertEqual(five.station.timers(), ["lookup 0"])

    def test_a_step_waits_and_does_not_spin(self) -> None:
        with place(MemoryCable(), 5) as five:
            begun, used = time.monotonic(), time.process_time()
            five.station.step(begun + 0.4)
            self.assertTrue(has_waited(begun, 0.4))
            self.assertLess(time.process_time() - used, 0.1)

    def test_a_station_whose_timers_run_does_not_spin(self) -> None:
        with place(MemoryCable(), 5) as five:
            five.station.call("find = =")
            used, steps, end = time.process_time(), 0, time.monotonic() + 0.5
            while time.monotonic() < end:
                five.station.step(end)
                steps += 1
            self.assertLess(steps, 12)
            self.assertLess(time.process_time() - used, 0.1)

    def test_what_comes_is_heard_and_what_is_refused_is_counted(self) -> None:
        with place(MemoryCable(), 5) as five:
            assert isinstance(five.cable, MemoryCable)
            five.cable.coming.extend([b"abc", b"abcd"])
            five.station.step(time.monotonic())
            self.assertEqual(five.kinds(), ["refused", "refused"])
            self.assertIn("2 refused: the datagram is under 13 bytes", five.cable.counts.line())

    def test_a_watched_file_is_read_as_it_comes(self) -> None:
        reader, writer = os.pipe()
        came: List[bytes] = []
        with place(MemoryCable(), 5) as five:
            five.station.watch(reader, lambda: came.append(os.read(reader, 9)))
            os.write(writer, b"one")
            five.station.step(time.monotonic() + 5)
            five.station.unwatch(reader)
            os.write(writer, b"two")
            five.station.step(time.monotonic() + 0.02)
        os.close(reader)
        os.close(writer)
        self.assertEqual(came, [b"one"])

    def test_what_is_heard_may_call_the_node(self) -> None:
        with place(MemoryCable(), 5) as five:
            five.station.hear = lambda report: five.heard.append(five.station.call("listen on"))
            assert isinstance(five.cable, MemoryCable)
            five.cable.coming.append(b"abc")
            five.station.step(time.monotonic())
            self.assertEqual(five.kinds(), ["done"])


class Streams(unittest.TestCase):
    def setUp(self) -> None:
        first = free_first(5, 7)
        self.five = Place(UdpCable(first, 5, [7]), setup_of(10, 5, rooms=4096), 5)
        self.seven = Place(UdpCable(first, 7, [5]), setup_of(10, 7, rooms=64), 7)
        self.streams: List[Stream] = []
        self.came: List[Optional[bytes]] = []
        self.seven.station.hear = self.hear

    def tearDown(self) -> None:
        self.five.__exit__()
        self.seven.__exit__()

    def hear(self, report: Report) -> None:
        self.seven.heard.append(report)
        if report.kind == "made":
            self.streams.append(Stream(self.seven.station, report.number(), self.came.extend))
        for stream in self.streams:
            stream.hear(report)

    def connect(self) -> Stream:
        number = self.five.station.call("connect 7 130").number()
        stream = Stream(self.five.station, number, lambda items: None)
        self.five.station.hear = stream.hear
        return stream

    def run_until_written(self, stream: Stream) -> None:
        run([self.five, self.seven], lambda: stream.is_written())

    def data(self) -> bytes:
        return b"".join(it for it in self.came if it is not None)

    def test_what_is_written_before_the_opening_comes_whole_and_in_order(self) -> None:
        self.seven.station.call("listen on")
        stream = self.connect()
        wanted = bytes(range(256)) * 40
        stream.write(wanted, ends_message=True)
        stream.write(b"", ends_message=True)
        self.run_until_written(stream)
        self.assertEqual(self.data(), wanted)
        self.assertEqual(self.came[-2:], [None, None])

    def test_both_sides_write(self) -> None:
        back: List[Optional[bytes]] = []
        self.seven.station.call("listen on")
        stream = self.connect()
        stream._take = back.extend
        stream.write(b"there")
        run([self.five, self.seven], lambda: self.data() == b"there")
        self.streams[0].write(b"back" * 100)
        run([self.five, self.seven], lambda: b"".join(filter(None, back)) == b"back" * 100)

    def test_a_closed_side_ends_the_other(self) -> None:
        self.seven.station.call("listen on")
        stream = self.connect()
        run([self.five, self.seven], lambda: "opened" in self.seven.kinds())
        stream.close()
        run([self.five, self.seven], lambda: self.streams[0].is_closed)
        self.assertFalse(stream.is_closed)
        stream.close()

    def test_a_denied_stream_is_closed(self) -> None:
        stream = self.connect()
        run([self.five, self.seven], lambda: stream.is_closed)


if __name__ == "__main__":
    unittest.main()
