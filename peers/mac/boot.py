"""A Mac that starts beside a router and a printer of ours, nodes 1 and 7: each step from its number
to a printed letter has its answer."""

from __future__ import annotations

import struct
import subprocess
import sys
import tempfile
import time
import unittest
from pathlib import Path
from typing import Any, List

import mac
from mac import Address, Found, Mac

EXAMPLES = Path(__file__).resolve().parents[2] / "examples" / "python"
PLACE = ["--interface", "127.0.0.1", "--router", "1", "--zone", "Lab", "--node"]
ROUTER, PRINTER = 1, 7
LETTER = b"%!PS-Adobe-3.0\nshowpage\n"
# The functions of the Printer Access Protocol, its connection, and the packets of a response.
OPEN, OPEN_REPLY, SEND_DATA, DATA, TICKLE, CLOSE, CLOSE_REPLY, SEND_STATUS, STATUS = range(1, 10)
CONNECTION, QUANTUM = 9, 8
# What the router sends of itself each ten seconds comes after so many at most.
ADVERTISED = 12.0


def user_bytes(connection: int, function: int, rest: int = 0) -> bytes:
    return struct.pack(">BBH", connection, function, rest)


class Boots(unittest.TestCase):
    folder: "tempfile.TemporaryDirectory[str]"

    @classmethod
    def setUpClass(cls) -> None:
        cls.folder = tempfile.TemporaryDirectory()
        cls.addClassCleanup(cls.folder.cleanup)
        router = cls.start(["-m", "at_node", "live", *PLACE, str(ROUTER)])
        words = [str(EXAMPLES / "printer.py"), cls.folder.name, "--name", "Paper"]
        printer = cls.start([*words, *PLACE, str(PRINTER)])
        router.stdin.write("setzones Lab Office\nsetlocal Lab\n")
        router.stdin.flush()
        for ready in (router, router, printer):
            assert ready.stdout.readline(), "a program ended at its start"

    @classmethod
    def start(cls, words: List[str]) -> Any:
        pipes: Any = {"stdin": subprocess.PIPE, "stdout": subprocess.PIPE, "text": True}
        pipes["stderr"] = subprocess.DEVNULL
        process = subprocess.Popen([sys.executable, "-W", "error", *words], **pipes)
        cls.addClassCleanup(process.communicate)
        cls.addClassCleanup(process.terminate)
        return process

    def setUp(self) -> None:
        self.mac = Mac()
        self.addCleanup(self.mac.close)

    def test_each_step_from_its_number_to_its_chooser_is_answered(self) -> None:
        self.assertFalse(self.mac.is_taken(mac.MAC))
        self.assertTrue(self.mac.is_taken(PRINTER))
        self.mac.find_network()
        self.assertEqual((self.mac.network, self.mac.router), (10, ROUTER))
        self.mac.look_up(b"Mac", b"Workstation")
        with self.assertRaisesRegex(AssertionError, "nothing came"):
            self.mac.found("a name that nobody has", 1.0)
        self.mac.find_zone()
        self.assertEqual(self.mac.zone, b"Lab")
        self.assertEqual(self.mac.zones(), [b"Lab", b"Office"])
        self.mac.look_up(b"=", b"LaserWriter")
        wanted = Found(10, PRINTER, 129, b"Paper", b"LaserWriter", b"Lab")
        self.assertEqual(self.mac.found("the Chooser's lookup"), wanted)

    def test_the_router_and_the_printer_echo(self) -> None:
        for node in (ROUTER, PRINTER):
            self.assertEqual(self.mac.echo(node, b"hello"), b"hello")

    def test_the_router_tells_its_route_to_everyone_each_ten_seconds(self) -> None:
        route = bytes.fromhex("000A0801 000082 000A00")
        times = []
        for _ in range(2):
            self.mac.hear("the router's data", lambda it: it.data == route, ADVERTISED)
            times.append(time.monotonic())
        self.assertTrue(9 < times[1] - times[0] < ADVERTISED, times)

    def test_a_letter_is_printed(self) -> None:
        self.mac.find_network()
        self.mac.find_zone()
        self.mac.look_up(b"Paper", b"LaserWriter")
        found = self.mac.found("the printer's name")
        printer = Address(found.node, found.socket)
        status = self.ask("SendStatus", printer, user_bytes(0, SEND_STATUS))
        self.assertEqual(status.user[1], STATUS)
        self.assertIn(b"idle", status.data)
        there = self.open(printer)
        waiting = self.mac.request(there, mac.PRINT_ASKER, user_bytes(CONNECTION, SEND_DATA, 1),
                                   once=True, packets=QUANTUM)
        tickle = user_bytes(CONNECTION, TICKLE)
        self.mac.request(there, mac.PRINT_ASKER, tickle, packets=0)
        self.send_letter()
        answer = self.mac.response("the Mac's SendData", waiting)
        self.mac.release(there, mac.PRINT_ASKER, waiting)
        self.assertEqual(answer.user, user_bytes(CONNECTION, DATA, 0x100))
        closed = self.ask("CloseConn", there, user_bytes(CONNECTION, CLOSE), once=True)
        self.assertEqual(closed.user[1], CLOSE_REPLY)
        jobs = [it.read_bytes() for it in Path(self.folder.name).iterdir()]
        self.assertEqual(jobs, [LETTER])

    def ask(
        self, what: str, to: Address, user: bytes, data: bytes = b"", once: bool = False
    ) -> mac.Transaction:
        return self.mac.ask(what, to, mac.PRINT_ASKER, user, data, once)

    def open(self, printer: Address) -> Address:
        """Opens a connection, and gives the printer's end of it."""
        wanted = bytes([mac.PRINT_ASKER, QUANTUM, 0, 0])
        opened = self.ask("OpenConn", printer, user_bytes(CONNECTION, OPEN), wanted, once=True)
        self.assertEqual(opened.user[:2], bytes([CONNECTION, OPEN_REPLY]))
        self.assertEqual(opened.data[2:4], b"\0\0", "the printer is busy")
        return Address(printer.node, opened.data[0])

    def send_letter(self) -> None:
        """Answers the printer's request for data by the letter, and its end."""
        asked = self.mac.transaction(
            "the printer's SendData", mac.REQUEST,
            lambda it: it.user[:2] == bytes([CONNECTION, SEND_DATA]),
        )
        user = user_bytes(CONNECTION, DATA, 0x100)
        self.mac.answer(asked, mac.PRINT_ASKER, user, LETTER)


if __name__ == "__main__":
    unittest.main()
