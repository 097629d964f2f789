"""The printer of examples/python, answer by answer."""

import unittest
from unittest import mock

from at_node.station import Station
from by_hand import ByHand
from cables import MemoryCable, place
import pap
import printer as printing


class Words(unittest.TestCase):
    def test_a_request_is_taken_apart(self) -> None:
        request = pap.asked_of("asked 9 128 77 2A030102 0506".split(" "))
        self.assertEqual(request, ("9", "9 128 77", 0x2A, pap.SEND_DATA, 0x0102, b"\5\6"))

    def test_user_bytes_and_texts_are_spelled(self) -> None:
        self.assertEqual(pap.user_bytes(0x2A, pap.DATA, 0x100), b"\x2a\4\1\0")
        self.assertEqual(pap.counted("idle"), b"\4idle")
        self.assertEqual(pap.counted("\u4e2d"), b"\1?")
        self.assertEqual(len(pap.counted("a" * 300)), 256)

    def test_a_status_of_a_wrong_length_is_read(self) -> None:
        self.assertEqual([pap.text_of(it) for it in (b"\4idle", b"\x09idle", b"")],
                         ["idle", "idle", ""])

    def test_numbers_run_from_1_to_65535_and_then_from_1(self) -> None:
        self.assertEqual([pap.after(it) for it in (1, 0xFFFE, 0xFFFF)], [2, 0xFFFF, 1])

    def test_each_packet_says_whether_a_file_ends(self) -> None:
        packets = pap.data_packets(1, bytes(513), True)
        self.assertEqual([(it.user, len(it.data)) for it in packets],
                         [(b"\1\4\1\0", 512), (b"\1\4\1\0", 1)])
        self.assertEqual(pap.data_packets(1, b"", False), [(b"\1\4\0\0", b"")])


class Answers(ByHand):
    def test_a_status_is_told(self) -> None:
        idle = pap.counted("status: idle").hex().upper()
        self.assertEqual(self.ask("00080000"), f"00090000:00000000{idle}")
        self.open()
        answer = self.ask("00080000")
        assert answer is not None
        self.assertIn(b"busy".hex().upper(), answer)

    def test_a_connection_opens_and_data_are_asked_for(self) -> None:
        answer = self.open()
        assert answer is not None
        self.assertTrue(answer.startswith("2A020000:81080000"), answer)
        self.assertEqual(self.five.heard[-1].line.split()[4], "2A030001")

    def test_a_client_that_takes_one_packet_is_asked_for_eight(self) -> None:
        self.ask("2A010000", "81010000")
        self.data("2A040000:61", "2A040000:62", "2A040100:63")
        self.assertEqual(self.job(1), b"abc")

    def test_a_client_without_a_socket_or_a_quantum_gets_no_connection(self) -> None:
        for data in ("81", "00080000", "FF080000"):
            answer = self.ask("2A010000", data)
            assert answer is not None
            self.assertTrue(answer.startswith("2A020000:8108FFFF"), answer)

    def test_a_second_client_hears_that_the_printer_is_busy(self) -> None:
        self.open()
        answer = self.ask("2B010000", "81080000")
        assert answer is not None
        self.assertTrue(answer.startswith("2B020000:8108FFFF"), answer)

    def test_a_job_is_written_at_its_end(self) -> None:
        self.open()
        self.data("2A040000:6162")
        self.assertEqual(self.printer.jobs, [])
        self.data("2A040100:63")
        (path,) = self.printer.jobs
        self.assertEqual(path.read_bytes(), b"abc")
        self.assertEqual(self.said.getvalue(), f"{path}: 3 bytes from node 5\n")

    def test_who_waits_hears_of_the_end(self) -> None:
        self.open()
        self.assertIsNone(self.ask("2A030001"))
        self.data("2A040100:63")
        self.assertIn("2A040100:-", [it.words[-1] for it in self.five.heard])

    def test_who_asks_after_the_end_hears_of_it(self) -> None:
        self.open()
        self.data("2A040100:63")
        self.assertEqual(self.ask("2A030001"), "2A040100:-")
        self.assertIsNone(self.ask("2A030002"))

    def test_data_of_another_connection_are_no_part_of_the_job(self) -> None:
        self.open()
        self.data("2B040000:6162")
        self.data("2A040100:63")
        self.assertEqual(self.printer.jobs[0].read_bytes(), b"c")
        self.assertEqual(len(self.requests("2A030001")), 2)

    def test_a_closed_connection_makes_room_for_the_next(self) -> None:
        self.open()
        self.data("2A040100:63")
        self.assertEqual(self.ask("2A060000"), "2A070000:-")
        answer = self.open()
        assert answer is not None
        self.assertTrue(answer.startswith("2A020000:81080000"), answer)

    def test_who_closed_is_asked_for_nothing_more(self) -> None:
        self.open()
        self.assertEqual([it for it in self.seven.node.timers() if it.startswith("retry")],
                         ["retry 0"])
        self.ask("2A060000")
        self.assertEqual([it for it in self.seven.node.timers() if it.startswith("retry")], [])

    def test_a_job_that_is_closed_before_its_end_is_no_file(self) -> None:
        self.open()
        self.data(f"2A040000:{bytes(512).hex()}")
        self.ask("2A060000")
        self.assertEqual(self.files(), [])
        told = "a client closed before the end of its job, and its job is dropped: 512 bytes from"
        self.assertEqual(self.told.getvalue(), f"{told} node 5\n")

    def claim(self) -> bool:
        """Whether the printer gets its name."""
        step = mock.patch.object(self.seven.station, "step", lambda end: self.settle())
        with mock.patch.object(printing, "CLAIM", 0.05), step:
            return self.printer.claim("Paper Printer")

    def test_a_name_is_taken_only_if_nobody_has_it(self) -> None:
        self.assertTrue(self.claim())
        self.seven.station.call("unregister Paper%20Printer LaserWriter")
        self.five.station.call("register Paper%20Printer LaserWriter 129")
        self.assertFalse(self.claim())

    def test_an_unknown_function_is_answered(self) -> None:
        self.assertEqual(self.ask("2A630000"), "2A000000:-")


class Numbers(ByHand):
    """SEND_DATA of the client, by its numbers."""

    def setUp(self) -> None:
        super().setUp()
        self.open()
        self.data("2A040100:63")

    def test_a_number_that_was_answered_gets_the_same_packets(self) -> None:
        self.assertEqual([self.ask("2A030001") for _ in range(3)], ["2A040100:-"] * 3)

    def test_an_older_number_and_a_later_one_get_none(self) -> None:
        self.ask("2A030001")
        self.data("2A040100:64")
        self.assertEqual(self.ask("2A030002"), "2A040100:-")
        self.assertIsNone(self.ask("2A030001"))
        self.assertIsNone(self.ask("2A030004"))
        self.assertEqual(self.ask("2A030002"), "2A040100:-")

    def test_the_number_0_is_never_wrong_and_is_not_counted(self) -> None:
        for number in ("0000", "0001", "0000", "0002"):
            self.assertEqual(self.ask(f"2A03{number}"), "2A040100:-")
            self.data("2A040100:64")

    def test_who_asks_anew_takes_the_place_of_the_request_that_waits(self) -> None:
        self.ask("2A030001")
        self.assertIsNone(self.ask("2A030002"))
        self.assertIsNone(self.ask("2A030002"))
        before = len(self.five.heard)
        self.data("2A040100:64")
        ends = [it for it in self.five.heard[before:] if it.words[-1] == "2A040100:-"]
        self.assertEqual(len(ends), 1)


class Records(ByHand):
    """The node has room for 64 requests."""

    def assert_none_dropped(self) -> None:
        self.assertEqual(self.seven.cable.counts.dropped_in_all(), 0)

    def test_a_request_goes_with_its_release(self) -> None:
        self.open()
        for _ in range(100):
            self.assertIsNotNone(self.ask("2B010000", "81080000"))
        self.assert_none_dropped()

    def test_tickles_leave_nothing(self) -> None:
        self.open()
        for _ in range(100):
            self.ask("2A050000", mode="alo")
            self.give_up()
        self.assert_none_dropped()

    def test_who_asks_anew_again_and_again_leaves_nothing(self) -> None:
        self.open()
        for _ in range(100):
            self.assertIsNone(self.ask("2A030001"))
            self.give_up()
        self.assert_none_dropped()

    def test_requests_of_connections_that_ended_leave_nothing_and_get_no_answer(self) -> None:
        for _ in range(100):
            self.assertIsNone(self.ask("2A030001"))
            self.give_up()
        self.assert_none_dropped()

    def test_a_client_that_starts_again_under_its_numbers_is_answered(self) -> None:
        for _ in range(2):
            answer = self.open()
            assert answer is not None
            self.assertTrue(answer.startswith("2A020000:81080000"), answer)
            self.ask("2A060000")
            self.five.__exit__()
            self.five = place(MemoryCable(), 5)


class Networks(ByHand):
    def far(self, user: str, data: str) -> bytes:
        """What the printer answers to node 5 of network 20."""
        self.five.station.call(f"ask 7 129 {user} {data} 1 xo 0")
        ((_, datagram),) = self.cable(self.five).sent
        self.cable(self.five).sent.clear()
        far = bytearray(datagram)
        far[2:4], far[6:8] = b"\0\0", (20).to_bytes(2, "big")
        self.cable(self.seven).coming.append(bytes(far))
        Station.step(self.seven.station, 0)
        ((_, answer),) = self.cable(self.seven).sent
        return answer

    def test_a_client_of_another_network_is_told_why_it_gets_no_connection(self) -> None:
        status = pap.counted("status: this printer serves only clients of its own network")
        answer = self.far("2A010000", "81080000")
        self.assertEqual(answer[17:], b"\x2a\2\0\0\x81\x08\xff\xff" + status)
        self.cable(self.seven).sent.clear()
        self.assertEqual(self.far("00080000", "-")[17:], b"\0\x09\0\0\0\0\0\0" + status)
        near = self.open()
        assert near is not None
        self.assertTrue(near.startswith("2A020000:81080000"), near)


if __name__ == "__main__":
    unittest.main()
