"""Clients of the printer of examples/python that fall silent, and answers that are lost."""

import unittest
from typing import Callable, List
from unittest import mock

from at_node import Find, Report
from at_node.station import Station
from by_hand import ByHand
import documents
import pap
import print as client

JOB = bytes(range(256)) * 80
PAPER = Find("Paper Printer", "LaserWriter", "*", 7, 129, 0)


class Silence(ByHand):
    def tickle(self) -> None:
        """Sends a tickle as netatalk and Macs do: it wants no packets, and nobody answers it."""
        self.five.station.node.call("ask 7 129 2A050000 - 1 alo 0")
        ((_, datagram),) = self.five.station.node.datagrams()
        self.give_up()
        self.cable(self.seven).coming.append(datagram[:2] + b"\0\0" + datagram[4:14] + b"\0"
                                             + datagram[15:])
        self.settle()

    def is_open(self) -> bool:
        """Whether another client hears that the printer is busy."""
        answer = self.ask("00080000")
        assert answer is not None
        return b"busy".hex().upper() in answer

    def test_a_client_that_falls_silent_is_given_up_after_two_minutes(self) -> None:
        self.open()
        self.ask("2A030001")
        self.send(bytes(600), ends=False)
        self.later(119)
        self.assertTrue(self.is_open())
        self.five.heard.clear()
        self.later(2)
        self.assertFalse(self.is_open())
        self.assertEqual([it.words[4] for it in self.requests("")], ["2A060000"])
        self.assertFalse(any("2A04" in it.line for it in self.five.heard))
        self.assertEqual(self.files(), [])
        told = "a client fell silent, and its job is dropped: 600 bytes from node 5\n"
        self.assertEqual(self.told.getvalue(), told)

    def test_a_client_that_was_given_up_hears_of_no_end(self) -> None:
        self.open()
        self.later(121)
        self.five.heard.clear()
        self.assertIsNone(self.ask("2A030001"))
        self.assertEqual([it.kind for it in self.five.heard], [])
        self.assertEqual(self.told.getvalue(), "a client fell silent: node 5\n")

    def test_a_tickle_keeps_a_connection(self) -> None:
        self.open()
        for _ in range(5):
            self.later(100)
            self.tickle()
        self.later(100)
        self.assertTrue(self.is_open())
        self.later(21)
        self.assertFalse(self.is_open())

    def test_a_tickle_that_wants_a_packet_keeps_it_too(self) -> None:
        self.open()
        for _ in range(3):
            self.later(100)
            self.assertIsNone(self.ask("2A050000", mode="alo"))
        self.assertTrue(self.is_open())

    def test_a_tickle_of_another_connection_keeps_none(self) -> None:
        self.open()
        self.later(100)
        self.ask("2B050000", mode="alo")
        self.later(21)
        self.assertFalse(self.is_open())

    def test_who_asks_for_the_status_alone_is_silent(self) -> None:
        self.open()
        self.later(100)
        self.assertTrue(self.is_open())
        self.later(21)
        self.assertFalse(self.is_open())

    def test_data_and_requests_keep_a_connection(self) -> None:
        self.open()
        self.later(100)
        self.send(b"%!", ends=False)
        self.later(100)
        self.ask("2A030001")
        self.later(100)
        self.assertTrue(self.is_open())

    def test_the_printer_tickles_each_minute(self) -> None:
        self.open()
        for _ in range(3):
            self.later(61)
            self.tickle()
        self.assertEqual(len(self.requests("2A05")), 3)

    def test_the_end_of_the_printer_drops_the_job(self) -> None:
        self.open()
        self.send(bytes(600), ends=False)
        self.printer.close()
        self.settle()
        self.assertEqual(self.requests("")[-1].words[4], "2A060000")
        self.assertEqual(self.files(), [])
        self.assertIn("the printer is ended, and its job is dropped", self.told.getvalue())


class Losses(ByHand):
    """Transactions whose answers are lost, and then are not."""

    def setUp(self) -> None:
        super().setUp()
        # What the client's node sends as DATA of the second SEND_DATA is lost, while this holds.
        self.loses = True
        self.lost = 0
        self.numbers: List[str] = []
        self.client = client.Client(self.five.station, PAPER, JOB)
        patch = mock.patch.object(self.cable(self.five), "send", self.pass_)
        patch.start()
        self.addCleanup(patch.stop)
        self.hear = self.five.station.hear
        self.five.station.hear = self.note

    def note(self, report: Report) -> None:
        if report.kind == "asked" and report.words[4][2:4] == "03":
            self.numbers.append(report.words[4][4:])
        self.hear(report)

    def pass_(self, to: int, datagram: bytes) -> None:
        """Sends what is not lost."""
        is_data = datagram[12] == 3 and datagram[13] & 0xC0 == 0x80 and datagram[18] == pap.DATA
        if self.loses and is_data and self.numbers[-1:] == ["0002"]:
            self.lost += 1
        else:
            self.cable(self.five).sent.append((to, datagram))

    def print_by(self, live: Callable[[], None]) -> None:
        with mock.patch.object(self.five.station, "step", lambda until=None: live()):
            self.assertEqual(self.client.open(), "")
            self.client.finish()
        self.assertEqual(self.job(1), JOB)

    def print(self, until: int) -> None:
        """Prints, and lets pass what is sent once so many packets were lost."""
        def live() -> None:
            self.loses = self.lost < until
            self.live()

        self.print_by(live)
        self.assertEqual(self.files(), ["job-0001.ps"])

    def test_what_is_asked_before_the_reply_is_read_is_answered_at_once(self) -> None:
        self.print(0)
        self.assertEqual(self.numbers, ["0001", "0002", "0003", "0004", "0005", "0006"])

    def test_a_transaction_whose_answers_were_lost_is_answered_again(self) -> None:
        self.print(40)
        self.assertEqual(self.numbers.count("0002"), 1)

    def test_a_transaction_that_failed_is_asked_anew_under_its_number(self) -> None:
        with mock.patch.object(pap, "PATIENT", 2):
            self.print(40)
        self.assertGreaterEqual(self.numbers.count("0002"), 2)
        self.assertEqual(self.numbers[:1] + self.numbers[-3:], ["0001", "0004", "0005", "0006"])

    def test_an_answer_that_the_client_forgot_is_given_again(self) -> None:
        def forget() -> None:
            self.live()
            for timer in self.five.node.timers():
                if timer.startswith("release"):
                    self.five.node.timer(timer)
                    self.five.station.settle()
            self.loses = self.lost < 40

        self.print_by(forget)
        self.assertGreaterEqual(self.numbers.count("0002"), 2)


class Clients(ByHand):
    """What print.py says where it does not print."""

    def print(self, data: bytes = JOB) -> str:
        """Why nothing is printed."""
        with self.both(), self.assertRaises(client.NoPrint) as raised:
            client.send(self.five.station, PAPER, data)
        return str(raised.exception)

    def test_a_printer_that_can_not_write_closes_the_connection(self) -> None:
        with mock.patch("jobs.Job.write", side_effect=OSError(28, "No space left on device")):
            why = self.print()
        self.assertEqual(why, "the printer closed the connection before it had all")
        self.assertIn("No space left on device", self.told.getvalue())
        self.assertEqual((self.printer.jobs, self.files()), ([], []))

    def test_a_busy_printer_says_why(self) -> None:
        self.open()
        with mock.patch.object(client, "PATIENCE", -1.0):
            why = self.print()
        self.assertEqual(why, "the printer stays busy: status: busy; source: AppleTalk")

    def test_a_printer_that_says_end_of_file_at_once_has_not_printed(self) -> None:
        def lie(it: documents.Documents, data: bytes) -> None:
            it._outbox.end()

        with mock.patch.object(documents.Documents, "feed", lie):
            why = self.print()
        self.assertEqual(why, "the printer ended before it had all")

    def test_an_error_in_postscript_is_told(self) -> None:
        def fail(it: documents.Documents) -> None:
            it._outbox.say(b"%%[ Error: undefined; OffendingCommand: hi ]%%\n")
            it._outbox.end()

        with mock.patch.object(documents.Documents, "end", fail):
            why = self.print(b"hi")
        self.assertEqual(why, "the printer says: Error: undefined; OffendingCommand: hi")

    def test_a_printer_that_falls_silent_is_given_up(self) -> None:
        def live() -> None:
            self.clock.more += 50
            Station.step(self.five.station, 0)

        one = client.Client(self.five.station, PAPER, JOB)
        with self.both():
            self.assertEqual(one.open(), "")
        self.cable(self.five).sent.clear()
        with mock.patch.object(self.five.station, "step", lambda until=None: live()):
            with self.assertRaises(client.NoPrint) as raised:
                one.finish()
        self.assertEqual(str(raised.exception), "the printer fell silent before it had all")

    def test_the_status_is_read(self) -> None:
        with self.both():
            one = client.Client(self.five.station, PAPER, b"")
            self.assertEqual(one.status(), "status: idle")


if __name__ == "__main__":
    unittest.main()
