"""What is answered beside a node: echoes, and as router RTMP and GetMyZone. The bytes of requests
and answers are those that netatalk's programs and its atalkd send."""

import unittest
from typing import List, Optional

from at_node import aep, ddp, myzone, rtmp
from at_node.beside import Beside, Routing
from at_node.ddp import Address, Datagram
from at_node.llap import LONG, SHORT, Frame
from at_node.ltoudp import LtoudpCable
from at_node.rtmp import Router
from fakes import FakeWire

ROUTER = Router(10, 1)
ECHO = bytes.fromhex("0010836E000A000A070504830401ABCD")


def came(raw: str) -> Datagram:
    datagram = ddp.decode(bytes.fromhex(raw))
    assert datagram is not None
    return datagram


class Datagrams(unittest.TestCase):
    def test_a_datagram_has_its_parts(self) -> None:
        wanted = Datagram(Address(10, 7, 4), Address(10, 5, 131), 4, b"\x01\xab\xcd")
        self.assertEqual(ddp.decode(ECHO), wanted)
        self.assertEqual(ddp.encode(wanted), ECHO[:2] + b"\0\0" + ECHO[4:])

    def test_what_follows_a_datagram_is_no_part_of_it(self) -> None:
        self.assertEqual(ddp.decode(ECHO + b"padding"), ddp.decode(ECHO))

    def test_a_length_that_does_not_fit_is_none(self) -> None:
        for length in (0, 12, 17, 600):
            self.assertIsNone(ddp.decode(length.to_bytes(2, "big") + ECHO[2:]))
        self.assertIsNone(ddp.decode(b""))


class Echoes(unittest.TestCase):
    def test_a_request_is_answered_with_its_data(self) -> None:
        self.assertEqual(aep.answer(came(ECHO.hex())), b"\x02\xab\xcd")
        self.assertEqual(aep.answer(came("000E0000000A000A070504830401")), b"\x02")

    def test_a_reply_and_what_is_no_echo_are_not(self) -> None:
        for raw in (
            "00100000000A000A070504830402ABCD", "000D0000000A000A0705048304",
            "00100000000A000A070583830401ABCD", "00100000000A000A070504830301ABCD",
        ):
            self.assertIsNone(aep.answer(came(raw)), raw)


class Routers(unittest.TestCase):
    """Requests to router 1 of network 10, from node 5."""

    @staticmethod
    def request(function: str) -> Datagram:
        return came("000E0000000A000AFF05010105" + function)

    def test_a_request_is_answered_by_network_and_node(self) -> None:
        self.assertEqual(rtmp.answer(self.request("01"), ROUTER), bytes.fromhex("000A0801"))

    def test_requests_for_routes_are_answered_by_data(self) -> None:
        wanted = bytes.fromhex("000A0801000082000A00")
        self.assertEqual(rtmp.answer(self.request("02"), ROUTER), wanted)
        self.assertEqual(rtmp.answer(self.request("03"), ROUTER), wanted)

    def test_other_functions_are_not_answered(self) -> None:
        for function in ("00", "04", "FF"):
            self.assertIsNone(rtmp.answer(self.request(function), ROUTER))
        for raw in ("000D0000000A000AFF05010105", "000E0000000A000AFF0502010501"):
            self.assertIsNone(rtmp.answer(came(raw), ROUTER), raw)

    def test_a_router_is_believed_only_of_itself(self) -> None:
        head = "00110000000A000A0501010101"
        for frame, told, wanted in (
            (Frame(5, 1, SHORT, b""), "000A0801", ROUTER),
            (Frame(5, 1, LONG, b""), "000A0801", None),
            (Frame(5, 2, SHORT, b""), "000A0801", None),
            (Frame(5, 1, SHORT, b""), "000A0701", None),
            (Frame(5, 1, SHORT, b""), "00000801", None),
            (Frame(5, 0, SHORT, b""), "000A0800", None),
            (Frame(5, 255, SHORT, b""), "000A08FF", None),
        ):
            self.assertEqual(rtmp.router_of(frame, came(head + told)), wanted, told)
        for raw in ("00100000000A000A0501010101000A08", "00110000000A000A0501020101000A0801"):
            self.assertIsNone(rtmp.router_of(Frame(5, 1, SHORT, b""), came(raw)), raw)


class Zones(unittest.TestCase):
    REQUEST = "00150000000A000A01050680034001000007000000"

    def test_a_request_is_as_a_mac_sends_it(self) -> None:
        self.assertEqual(myzone.request(0), came(self.REQUEST).data)

    def test_the_answer_names_the_zone_and_is_read_so(self) -> None:
        data = "9000000000000001034C6162"
        self.assertEqual(myzone.answer(came(self.REQUEST), b"Lab"), bytes.fromhex(data))
        answer = came("00190000000A000A0501FE0603" + data)
        self.assertEqual(myzone.zone_of(answer, 0), b"Lab")
        self.assertIsNone(myzone.zone_of(answer, 1))

    def test_an_exactly_once_request_is_answered_too(self) -> None:
        self.assertIsNotNone(myzone.answer(came(self.REQUEST.replace("4001", "6001")), b"Lab"))

    def test_other_requests_are_left_to_the_node(self) -> None:
        for old, new in (
            ("07000000", "07000001"), ("07000000", "08000001"), ("4001", "4000"), ("4001", "C001"),
            ("06800340", "07800340"), ("06800340", "06800440"),
        ):
            self.assertIsNone(myzone.answer(came(self.REQUEST.replace(old, new)), b"Lab"), new)
        self.assertIsNone(myzone.answer(came("00140000000A000A010506800340010000070000"), b"Lab"))

    def test_a_zone_that_is_cut_short_or_of_no_length_is_none(self) -> None:
        for data in ("9000000000000001", "900000000000000100", "9000000000000001044C6162",
                     "900000000000000121" + "41" * 33, "9001000000000001034C6162"):
            length = f"{13 + len(data) // 2:04X}"
            raw = length + "0000000A000A0501FE0603" + data
            self.assertIsNone(myzone.zone_of(came(raw), 0), data)


class Answers(unittest.TestCase):
    """What leaves a cable, as frames."""

    def answers(self, frame: Frame, zone: Optional[bytes] = None, number: int = 1) -> List[Frame]:
        wire = FakeWire()
        routing = None if zone is None else Routing(ROUTER, zone)
        cable = LtoudpCable(wire, number, 10, None if zone is None else 1)
        Beside(cable, number, routing)
        wire.come(frame)
        self.left = cable.receive()
        return wire.frames

    @staticmethod
    def ask(to: int, socket: int, kind: int, data: str) -> Frame:
        """A datagram with the short header, from socket 131 of node 9."""
        body = bytes([socket, 131, kind]) + bytes.fromhex(data)
        return Frame(to, 9, SHORT, (2 + len(body)).to_bytes(2, "big") + body)

    def test_an_echo_comes_back_to_who_sent_it(self) -> None:
        (answer,) = self.answers(self.ask(7, 4, 4, "01ABCD"), number=7)
        self.assertEqual(answer, Frame(9, 7, SHORT, bytes.fromhex("000883040402ABCD")))
        self.assertIsNone(self.left)

    def test_an_echo_of_another_network_goes_back_by_the_router(self) -> None:
        far = bytes.fromhex("00100000000A0014070504830401ABCD")
        wire = FakeWire()
        cable = LtoudpCable(wire, 7, 10, 1)
        Beside(cable, 7)
        wire.come(Frame(7, 1, LONG, far))
        self.assertIsNone(cable.receive())
        (answer,) = wire.frames
        self.assertEqual((answer.to, answer.kind), (1, LONG))
        echo = ddp.decode(answer.data)
        self.assertEqual(echo, Datagram(Address(20, 5, 131), Address(10, 7, 4), 4, b"\2\xab\xcd"))

    def test_an_echo_to_everyone_is_left_to_the_node(self) -> None:
        self.assertEqual(self.answers(self.ask(255, 4, 4, "01")), [])
        self.assertIsNotNone(self.left)

    def test_a_node_that_is_no_router_answers_for_none(self) -> None:
        for words in ((255, 1, 5, "01"), (7, 6, 3, "4001000007000000")):
            self.assertEqual(self.answers(self.ask(*words), number=7), [])
            self.assertIsNotNone(self.left)

    def test_the_router_answers_who_looks_for_it(self) -> None:
        (answer,) = self.answers(self.ask(255, 1, 5, "01"), b"Lab")
        self.assertEqual(answer, Frame(9, 1, SHORT, bytes.fromhex("0009830101000A0801")))

    def test_the_router_tells_a_node_its_zone(self) -> None:
        (answer,) = self.answers(self.ask(1, 6, 3, "4001123407000000"), b"Lab")
        wanted = bytes.fromhex("00118306039000123400000001034C6162")
        self.assertEqual(answer, Frame(9, 1, SHORT, wanted))

    def test_the_router_sends_its_routes_to_everyone_but_itself(self) -> None:
        wire = FakeWire()
        cable = LtoudpCable(wire, 1, 10, 1)
        Beside(cable, 1, Routing(ROUTER, b"Lab")).send_routes()
        wanted = bytes.fromhex("000F010101000A0801000082000A00")
        self.assertEqual(wire.frames, [Frame(255, 1, SHORT, wanted)])
        self.assertFalse(cable.has_more())
        Beside(cable, 1).send_routes()
        self.assertEqual(len(wire.frames), 1)


if __name__ == "__main__":
    unittest.main()
