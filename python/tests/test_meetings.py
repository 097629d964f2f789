"""Nodes that meet on LocalTalk over UDP, and what is told where a cable can't be joined."""

import os
import socket
import subprocess
import sys
import unittest

from at_node import CableFault
from at_node.ltoudp import LtoudpCable
from at_node.wire import PORT, Wire
from cables import LOOPBACK, Place, has_multicast, place, run

HAS_MULTICAST = has_multicast()
needs_multicast = unittest.skipUnless(HAS_MULTICAST, "this machine has no multicast at 127.0.0.1")


@needs_multicast
class Conversations(unittest.TestCase):
    def test_two_nodes_find_each_other_and_themselves(self) -> None:
        def cable(number: int) -> LtoudpCable:
            return LtoudpCable(Wire(LOOPBACK), number, 10)

        with place(cable(5), 5) as five, place(cable(7), 7) as seven:
            for each in (five, seven):
                each.station.call("register Me Stream 130")
            five.station.call("find = Stream")
            run([five, seven], lambda: five.kinds().count("finds") >= 2)
            finds = five.station.call("finish 0").finds()
            self.assertEqual({(it.object, it.node) for it in finds}, {("Me", 5), ("Me", 7)})

    def test_nodes_of_other_networks_find_each_other_without_a_router(self) -> None:
        five = Place(LtoudpCable(Wire(LOOPBACK), 5, 12), "net 12\nnode 5\n", 5)
        with five, place(LtoudpCable(Wire(LOOPBACK), 7, 10), 7) as seven:
            seven.station.call("register Printer LaserWriter 130")
            five.station.call("find = LaserWriter")
            run([five, seven], lambda: "finds" in five.kinds())
            self.assertEqual(five.station.call("finish 0").finds()[0].node, 7)

    def test_a_node_reads_the_zones_of_a_router(self) -> None:
        def cable(number: int) -> LtoudpCable:
            return LtoudpCable(Wire(LOOPBACK), number, 10, 1)

        with place(cable(1), 1, router=1) as router, place(cable(5), 5, router=1) as five:
            router.station.call("setzones Lab Office")
            five.station.call("zones")
            run([router, five], lambda: "zones" in five.kinds())
            self.assertEqual(five.heard[-1].texts(), ["Lab", "Office"])


class Errors(unittest.TestCase):
    def told(self, command: str) -> str:
        """What a wire says of its opening after a shell command, in a network of its own."""
        program = (
            "from at_node.wire import Wire\n"
            "from at_node.numbering import take_number\n"
            "from at_node import CableFault\n"
            "import sys\n"
            "try: take_number(Wire(*sys.argv[1:]), 7)\n"
            "except CableFault as fault: print(fault.args[-1])\n"
        )
        words = ["unshare", "-n", "sh", "-c", command, "sh", sys.executable, "-c", program]
        how = {"text": True, "stdout": subprocess.PIPE, "stderr": subprocess.DEVNULL}
        try:
            return str(subprocess.run(words, **how).stdout)  # type: ignore[call-overload]
        except OSError:
            return ""

    def setUp(self) -> None:
        if os.system("unshare -n true 2>/dev/null"):
            self.skipTest("no network of its own can be made here")

    def test_no_multicast_route_is_told_with_the_command_that_makes_one(self) -> None:
        self.assertEqual(
            self.told('ip link set lo up; "$@"'),
            "there is no multicast route: run `ip route add 239.192.76.84 dev INTERFACE` as root,"
            " or name an interface by --interface ADDRESS\n",
        )

    def test_an_address_of_no_interface_is_told(self) -> None:
        self.assertIn("no interface has the address 10.1.1.1", self.told('"$@" 10.1.1.1'))

    def test_what_is_no_address_is_told(self) -> None:
        self.assertIn("nonsense is no address of an interface", self.told('"$@" nonsense'))

    @needs_multicast
    def test_a_port_that_is_not_shared_is_told(self) -> None:
        with socket.socket(socket.AF_INET, socket.SOCK_DGRAM) as greedy:
            greedy.bind(("", PORT))
            with self.assertRaises(CableFault) as fault:
                Wire(LOOPBACK)
        told = str(fault.exception)
        self.assertIn("port 1954 is in use by a program that does not share it", told)


if __name__ == "__main__":
    unittest.main()
