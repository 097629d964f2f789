"""The cable of UDP sockets."""

import socket
import time
import unittest
from typing import List, Optional

from at_node import CableFault
from at_node.udp import UdpCable
from cables import LOOPBACK, free_first


def receive(cable: UdpCable) -> Optional[bytes]:
    """What comes within a second."""
    end = time.monotonic() + 1
    while time.monotonic() < end:
        payload = cable.receive()
        if payload is not None:
            return payload
        time.sleep(0.001)
    return None


class Udp(unittest.TestCase):
    def setUp(self) -> None:
        self.first = free_first(5, 7, 9)
        self.cables: List[UdpCable] = []

    def tearDown(self) -> None:
        for cable in self.cables:
            cable.close()

    def cable(self, number: int, others: Optional[List[int]] = None) -> UdpCable:
        self.cables.append(UdpCable(self.first, number, others))
        return self.cables[-1]

    def test_a_datagram_comes_to_the_node_it_is_for(self) -> None:
        five, seven, nine = self.cable(5), self.cable(7), self.cable(9)
        five.send(7, b"hello")
        self.assertEqual(receive(seven), b"hello")
        self.assertIsNone(nine.receive())
        self.assertEqual((five.counts.sent, seven.counts.received), (1, 1))

    def test_what_goes_to_everyone_comes_to_each_and_to_the_sender(self) -> None:
        five, seven, nine = self.cable(5), self.cable(7), self.cable(9)
        five.send(255, b"all")
        for cable in (five, seven, nine):
            self.assertEqual(receive(cable), b"all")
            self.assertIsNone(cable.receive())

    def test_others_are_the_only_ones_that_hear_everyone(self) -> None:
        five, seven, nine = self.cable(5, [7]), self.cable(7), self.cable(9)
        five.send(255, b"all")
        self.assertEqual((receive(five), receive(seven)), (b"all", b"all"))
        self.assertIsNone(nine.receive())

    def test_nothing_waits_and_nobody_is_waited_for(self) -> None:
        five = self.cable(5)
        begun = time.monotonic()
        self.assertIsNone(five.receive())
        five.send(200, b"lost")
        self.assertIsNone(five.receive())
        self.assertLess(time.monotonic() - begun, 0.5)

    def test_only_600_bytes_are_read(self) -> None:
        five, seven = self.cable(5), self.cable(7)
        five.send(7, bytes(700))
        self.assertEqual(receive(seven), bytes(600))

    def test_a_port_in_use_is_told_with_what_to_do(self) -> None:
        self.cable(7)
        with self.assertRaises(CableFault) as fault:
            self.cable(7)
        self.assertIn(f"port {self.first + 7} of {LOOPBACK} is in use", str(fault.exception))

    def test_a_port_past_the_last_is_told(self) -> None:
        with self.assertRaises(CableFault):
            UdpCable(65_530, 9)
        last = UdpCable(65_535 - 254, 1)
        last.send(255, b"all")
        self.assertEqual(last.counts.dropped_in_all(), 0)
        last.close()

    def test_a_datagram_that_cannot_be_sent_is_counted(self) -> None:
        five = self.cable(5)
        five.send(7, bytes(70_000))
        self.assertEqual(five.counts.line(), "received 0, sent 0, dropped 1: 1 could not be sent")

    def test_a_closed_cable_frees_its_port(self) -> None:
        self.cable(5).close()
        with socket.socket(socket.AF_INET, socket.SOCK_DGRAM) as one:
            one.bind((LOOPBACK, self.first + 5))


if __name__ == "__main__":
    unittest.main()
