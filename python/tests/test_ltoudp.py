"""LocalTalk over UDP: numbers, frames and errors."""

import threading
import time
import unittest
from typing import Callable, List, Optional
from unittest import mock

from at_node import NumberTaken, llap, ltoudp, numbering
from at_node.llap import ACK, ENQ, LONG, RTS, SHORT, Frame
from at_node.ltoudp import LtoudpCable
from at_node.wire import GROUP, PORT, Wire
from cables import LOOPBACK, has_multicast, has_waited
from test_llap import LOOKUP, lookup

HAS_MULTICAST = has_multicast()
needs_multicast = unittest.skipUnless(HAS_MULTICAST, "this machine has no multicast at 127.0.0.1")


def payloads(wire: Wire, seconds: float = 0.3) -> List[bytes]:
    """What comes within some time."""
    came = []
    end = time.monotonic() + seconds
    while time.monotonic() < end:
        payload = wire.receive()
        if payload is None:
            time.sleep(0.002)
        else:
            came.append(payload)
    return came


@needs_multicast
class Wires(unittest.TestCase):
    def setUp(self) -> None:
        self.wires: List[Wire] = []
        self.other = self.wire()

    def tearDown(self) -> None:
        for wire in self.wires:
            wire.close()

    def wire(self) -> Wire:
        self.wires.append(Wire(LOOPBACK))
        return self.wires[-1]

    def cable(self, number: int, router: Optional[int] = None) -> LtoudpCable:
        return LtoudpCable(self.wire(), number, 10, router)

    def frames(self, seconds: float = 0.2) -> List[Frame]:
        """What the other wire hears."""
        came = [self.other.frame_of(it) for it in payloads(self.other, seconds)]
        return [it for it in came if it is not None]

    def come(self, cable: LtoudpCable, frame: Frame) -> Optional[bytes]:
        """What a cable makes of a frame of the other wire."""
        self.other.send(frame)
        end = time.monotonic() + 0.3
        before = cable.counts.received
        while cable.counts.received == before and time.monotonic() < end:
            datagram = cable.receive()
            if datagram is not None:
                return datagram
        return None

    def test_a_payload_is_a_sender_and_a_frame(self) -> None:
        wire = self.wire()
        wire.send(Frame(7, 9, SHORT, b"abc"))
        self.assertEqual(payloads(self.other), [wire.sender + b"\x07\x09\x01abc"])

    def test_own_payloads_are_dropped(self) -> None:
        cable = self.cable(7)
        cable.send(9, LOOKUP)
        time.sleep(0.05)
        self.assertIsNone(cable.receive())
        self.assertEqual(cable.counts.dropped, {"of our own": 1})

    def test_a_datagram_for_the_same_network_leaves_short_and_of_network_0(self) -> None:
        cable = self.cable(5)
        cable.send(255, LOOKUP)
        (frame,) = self.frames()
        self.assertEqual(frame[:3], (255, 5, SHORT))
        self.assertEqual(frame.data, llap.short_of(llap.with_network(LOOKUP, 10, 0)))

    def test_with_a_router_the_network_stays(self) -> None:
        cable = self.cable(5, router=1)
        request = lookup("net 10\nnode 1 router zone Lab\nnode 5 zone Lab\n", 5)
        cable.send(1, request)
        (frame,) = self.frames()
        self.assertEqual(frame, Frame(1, 5, SHORT, llap.short_of(request)))

    def test_a_datagram_for_another_network_leaves_long_by_the_router(self) -> None:
        cable = self.cable(5, router=1)
        far = LOOKUP[:2] + b"\0\0\0\x0c" + LOOKUP[6:]
        cable.send(7, far)
        self.assertEqual(self.frames(), [Frame(1, 5, LONG, far)])

    def test_a_short_datagram_comes_as_a_long_one(self) -> None:
        cable = self.cable(7)
        near = llap.with_network(LOOKUP, 10, 0)
        for to in (7, 255):
            datagram = self.come(cable, Frame(to, 9, SHORT, llap.short_of(near)))
            wanted = LOOKUP[:2] + b"\0\0" + LOOKUP[4:8] + bytes([to, 9]) + LOOKUP[10:]
            self.assertEqual(datagram, wanted)

    def test_a_long_datagram_of_network_0_comes_as_one_of_the_network(self) -> None:
        cable = self.cable(7)
        near = llap.with_network(LOOKUP, 10, 0)
        wanted = LOOKUP[:2] + b"\0\0" + LOOKUP[4:]
        self.assertEqual(self.come(cable, Frame(255, 5, LONG, near)), wanted)

    def test_what_is_no_datagram_of_ours_is_counted(self) -> None:
        cable = self.cable(7)
        bent = bytearray(LOOKUP)
        bent[20] ^= 1
        for frame, reason in (
            (Frame(8, 9, SHORT, llap.short_of(LOOKUP)), "for another node"),
            (Frame(7, 9, RTS, b""), "of another type"),
            (Frame(7, 9, SHORT, b"\0\4abc"), "of a wrong length"),
            (Frame(7, 9, LONG, b"\0\x0d"), "of a wrong length"),
            (Frame(7, 9, LONG, bytes(bent)), "of a wrong sum"),
            (Frame(7, 7, SHORT, llap.short_of(LOOKUP)), "under our own number"),
        ):
            before = cable.counts.dropped[reason]
            self.assertIsNone(self.come(cable, frame))
            self.assertEqual(cable.counts.dropped[reason], before + 1, reason)
        self.assertEqual(cable.counts.dropped_in_all(), 6)

    def test_a_payload_that_is_cut_short_is_counted(self) -> None:
        cable = self.cable(7)
        self.other._socket.sendto(b"abcd\x07\x09", (GROUP, PORT))
        time.sleep(0.05)
        self.assertIsNone(cable.receive())
        self.assertEqual(cable.counts.line(), "received 1, sent 0, dropped 1: 1 cut short")

    def test_what_goes_to_the_node_itself_comes_back(self) -> None:
        cable = self.cable(7)
        cable.send(7, LOOKUP)
        self.assertTrue(cable.has_more())
        self.assertEqual(cable.receive(), LOOKUP)
        self.assertFalse(cable.has_more())
        self.assertEqual(self.frames(), [])
        cable.send(255, LOOKUP)
        self.assertEqual(cable.receive(), LOOKUP)
        self.assertEqual(len(self.frames()), 1)

    def test_who_asks_for_our_number_gets_an_answer(self) -> None:
        cable = self.cable(7)
        self.assertIsNone(self.come(cable, Frame(7, 7, ENQ, b"")))
        self.assertEqual(self.frames(), [Frame(7, 7, ACK, b"")])
        self.assertIsNone(self.come(cable, Frame(8, 8, ENQ, b"")))
        self.assertEqual(self.frames(), [])


class Background:
    """A cable that lives on a thread of its own until the end of a block."""

    def __init__(self, cable: LtoudpCable) -> None:
        self._cable, self._is_over = cable, threading.Event()
        self._thread = threading.Thread(target=self._live)

    def _live(self) -> None:
        while not self._is_over.wait(0.002):
            self._cable.receive()

    def __enter__(self) -> None:
        self._thread.start()

    def __exit__(self, *_: object) -> None:
        self._is_over.set()
        self._thread.join()
        self._cable.close()


def taken(number: int) -> Background:
    """A node that has this number."""
    return Background(LtoudpCable(Wire(LOOPBACK), number, 10))


@needs_multicast
class Numbers(unittest.TestCase):
    def setUp(self) -> None:
        self.patch("PATIENCE", 0.04)

    def patch(self, name: str, value: object) -> None:
        """Gives a constant of the module another value for this test."""
        patch = mock.patch.object(numbering, name, value)
        patch.start()
        self.addCleanup(patch.stop)

    def take(self, wanted: Optional[int] = None, server: bool = False) -> int:
        wire = Wire(LOOPBACK)
        try:
            return numbering.take_number(wire, wanted, server)
        finally:
            wire.close()

    def test_a_free_number_is_asked_for_eight_times(self) -> None:
        self.patch("PATIENCE", 0.2)
        wire, other = Wire(LOOPBACK), Wire(LOOPBACK)
        begun = time.monotonic()
        self.assertFalse(numbering.is_taken(wire, 7))
        self.assertTrue(has_waited(begun, 1.6))
        frames = [other.frame_of(it) for it in payloads(other, 0.1)]
        self.assertEqual(frames, [Frame(7, 7, ENQ, b"")] * 8)
        wire.close()
        other.close()

    def test_a_taken_number_is_an_error_that_says_what_to_do(self) -> None:
        with taken(7):
            begun = time.monotonic()
            with self.assertRaises(NumberTaken) as fault:
                self.take(7)
            self.assertLess(time.monotonic() - begun, 0.5)
        self.assertEqual(
            str(fault.exception), "node number 7 is taken: name another, or leave --node out"
        )

    def test_another_number_is_tried_where_none_is_fixed(self) -> None:
        self.patch("USERS", range(7, 9))
        with taken(7):
            self.assertEqual({self.take() for _ in range(3)}, {8})

    def test_no_number_is_left(self) -> None:
        self.patch("USERS", range(7, 8))
        with taken(7):
            with self.assertRaises(NumberTaken) as fault:
                self.take()
        self.assertEqual(str(fault.exception), "all node numbers are taken")

    def test_users_and_servers_have_numbers_of_their_own(self) -> None:
        asked: List[int] = []

        def is_taken(wire: object, number: int) -> bool:
            asked.append(number)
            return True

        self.patch("is_taken", is_taken)
        for server, wanted in ((False, range(1, 128)), (True, range(128, 255))):
            asked.clear()
            self.assertRaises(NumberTaken, self.take, None, server)
            self.assertEqual(sorted(asked), list(wanted))

    def both(self, use: Callable[[], int]) -> List[Optional[int]]:
        """What two get that ask at once."""
        numbers: List[Optional[int]] = []

        def ask() -> None:
            try:
                numbers.append(use())
            except NumberTaken:
                numbers.append(None)

        threads = [threading.Thread(target=ask) for _ in range(2)]
        for thread in threads:
            thread.start()
        for thread in threads:
            thread.join()
        return numbers

    def test_of_two_that_ask_at_once_one_gets_the_number(self) -> None:
        numbers = self.both(lambda: self.take(7))
        self.assertEqual(sorted(numbers, key=str), [7, None])

    def test_of_two_that_ask_at_once_the_greater_sender_gets_the_number(self) -> None:
        for sender, is_taken, frames in (
            (b"\x80\0\0\1", True, []), (b"\x7f\xff\xff\xff", False, [Frame(7, 7, ACK, b"")])
        ):
            wire, other = Wire(LOOPBACK), Wire(LOOPBACK)
            wire.sender, other.sender = b"\x80\0\0\0", sender
            other.send(Frame(7, 7, ENQ, b""))
            self.assertEqual(numbering.is_taken(wire, 7), is_taken)
            heard = [other.frame_of(it) for it in payloads(other, 0.1)]
            self.assertEqual([it for it in heard if it is not None and it.kind == ACK], frames)
            wire.close()
            other.close()

    def test_of_two_that_ask_at_once_the_other_takes_the_next(self) -> None:
        with mock.patch("random.shuffle", lambda numbers: None):
            numbers = self.both(self.take)
        self.assertEqual(sorted(numbers, key=str), [1, 2])

    def test_join_gives_the_number_and_the_cable(self) -> None:
        number, cable = ltoudp.join(10, 9, interface=LOOPBACK)
        self.assertEqual(number, 9)
        cable.send(9, LOOKUP)
        self.assertEqual(cable.receive(), LOOKUP)
        cable.close()


if __name__ == "__main__":
    unittest.main()
