"""Frames of LocalTalk, and datagrams in them."""

import unittest

import at_node
from at_node import Node, llap
from at_node.llap import LONG, SHORT, Frame


def lookup(setup: str, number: int) -> bytes:
    """The datagram of a lookup, as a node sends it."""
    with Node(setup, number) as node:
        node.call("find = LaserWriter")
        return next(node.datagrams())[1]


LOOKUP = lookup("net 10\nnode 5\n", 5)


class Frames(unittest.TestCase):
    def test_a_frame_comes_back(self) -> None:
        frame = Frame(7, 9, 0x81, b"abc")
        self.assertEqual(llap.encode(frame), b"\x07\x09\x81abc")
        self.assertEqual(llap.decode(b"\x07\x09\x81abc"), frame)

    def test_what_is_cut_short_is_no_frame(self) -> None:
        self.assertIsNone(llap.decode(b"\x07\x09"))
        self.assertEqual(llap.decode(b"\x07\x09\x81"), Frame(7, 9, 0x81, b""))


class Short(unittest.TestCase):
    def test_a_short_header_has_length_sockets_and_type(self) -> None:
        short = llap.short_of(LOOKUP)
        self.assertEqual(int.from_bytes(short[:2], "big"), len(LOOKUP) - 8)
        self.assertEqual(short[2:5], b"\x02\x02\x02")
        self.assertEqual(short[5:], LOOKUP[13:])

    def test_a_datagram_comes_back_without_its_sum(self) -> None:
        frame = Frame(255, 5, SHORT, llap.short_of(LOOKUP))
        self.assertEqual(llap.long_of(frame, 10), LOOKUP[:2] + b"\0\0" + LOOKUP[4:])

    def test_padding_after_the_datagram_is_left_out(self) -> None:
        frame = Frame(255, 5, SHORT, llap.short_of(LOOKUP) + b"\0\0\0")
        self.assertEqual(llap.long_of(frame, 10), LOOKUP[:2] + b"\0\0" + LOOKUP[4:])

    def test_bits_before_the_length_are_passed_over(self) -> None:
        short = llap.short_of(LOOKUP)
        frame = Frame(255, 5, SHORT, bytes([short[0] | 0xFC]) + short[1:])
        self.assertIsNotNone(llap.long_of(frame, 10))

    def test_a_length_that_does_not_fit_is_no_datagram(self) -> None:
        for length, data in ((4, 10), (0, 0), (11, 10), (592, 600), (0x3FF, 1100)):
            raw = length.to_bytes(2, "big") + bytes(max(0, data - 2))
            self.assertIsNone(llap.long_of(Frame(5, 9, SHORT, raw[:data]), 10), length)
        self.assertIsNotNone(llap.long_of(Frame(5, 9, SHORT, b"\0\5" + bytes(3)), 10))
        longest = (591).to_bytes(2, "big") + bytes(589)
        whole = llap.long_of(Frame(5, 9, SHORT, longest), 10)
        assert whole is not None
        self.assertEqual(len(whole), 599)
        self.assertTrue(at_node.show(whole).startswith("ddp length 599 "))


class Networks(unittest.TestCase):
    def test_the_network_is_written_anew_in_addresses_and_names(self) -> None:
        near = llap.with_network(LOOKUP, 10, 0)
        self.assertEqual(near[2:8], bytes(6))
        self.assertEqual(near[15:17], b"\0\0")
        back = llap.with_network(near, 0, 10)
        self.assertEqual(back[:2] + back[4:], LOOKUP[:2] + LOOKUP[4:])

    def test_each_tuple_of_a_reply_is_written_anew(self) -> None:
        with Node("net 10\nnode 7\n", 7) as node:
            for name in ("One", "Two%20Words", "Three"):
                node.call(f"register {name} LaserWriter 130")
            node.receive(LOOKUP)
            reply = next(node.datagrams())[1]
        near = llap.with_network(reply, 10, 0)
        self.assertEqual(near.count(b"\0\0\x07\x82"), 3)
        self.assertIn("\ntuple Three:LaserWriter@* 0.7.130 ", at_node.show(near))

    def test_another_network_stays_and_keeps_the_sum(self) -> None:
        self.assertEqual(llap.with_network(LOOKUP, 12, 0), LOOKUP)

    def test_data_of_another_type_stay(self) -> None:
        datagram = bytes([0, 19, 0, 0, 0, 12, 0, 12, 7, 5, 129, 128, 3]) + b"\0\x0a\0\x0a\0\x0a"
        self.assertEqual(llap.with_network(datagram, 10, 0), datagram)

    def test_names_that_are_cut_short_are_left_as_they_are(self) -> None:
        for length in range(13, len(LOOKUP)):
            cut = llap.with_network(LOOKUP[:length], 10, 0)
            self.assertEqual(len(cut), length)
        forged = LOOKUP[:13] + b"\x2f\0" + b"\xff" * 40
        self.assertEqual(llap.with_network(forged, 10, 0)[13:], forged[13:])

    def test_a_sum_is_told_right_from_wrong(self) -> None:
        self.assertFalse(llap.has_wrong_sum(LOOKUP))
        self.assertFalse(llap.has_wrong_sum(LOOKUP[:2] + b"\0\0" + LOOKUP[4:]))
        for place in range(4, len(LOOKUP)):
            bent = bytearray(LOOKUP)
            bent[place] ^= 1
            self.assertTrue(llap.has_wrong_sum(bytes(bent)))

    def test_a_datagram_for_another_network_leaves_long(self) -> None:
        self.assertEqual(llap.network_of(LOOKUP), 10)
        self.assertEqual(LONG, 2)


if __name__ == "__main__":
    unittest.main()
