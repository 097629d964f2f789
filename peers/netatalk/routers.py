"""Live nodes on the cable of netatalk's router, atalkd: each learns where it is, as a Mac does, and
is found there.

Each class is a cable. atalkd asks for other routers three times, each ten seconds, before it is one
itself.
"""

import time
import unittest
from typing import List

from programs import Cable, Started

# The seconds that atalkd needs to be a router, and how long it is waited for.
BECOMES, PATIENCE = 31.0, 60.0
# The seconds for which a router has to be silent before another one is taken.
SILENCE = 50.0
NAME = "register Laser LaserWriter 130"


class Routed(unittest.TestCase):
    """A cable with a router of netatalk's, and the live node 21."""

    def setUp(self) -> None:
        self.cables: List[Cable] = []
        self.cable = self.cable_of(5)

    def cable_of(self, network: int) -> Cable:
        """The cable, for clients of this network."""
        cable = Cable(network)
        self.addCleanup(cable.close)
        return cable

    def begin_router(self, network: int, zone: str) -> Started:
        """Starts a router, which is none yet, of a network with two zones."""
        where = f"-net {network} -addr {network}.1 -zone {zone} -zone Office"
        return self.cable.atalkd(f"lt0 -router -phase 1 {where}")

    def check_found(self, cable: Cable, zone: str, address: str) -> None:
        """The node is found in its zone, in no other one, and by a client that names none."""
        for asked, wanted in ((zone, True), ("Office", False), ("*", True)):
            status, printed = cable.run("nbplkup", f"=:LaserWriter@{asked}")
            found = ["Laser:LaserWriter", f"{address}:130"] if wanted else []
            self.assertEqual(printed.split(), found, asked)


class RouterBefore(Routed):
    def test_a_node_that_comes_after_the_router_is_found_in_its_zone(self) -> None:
        self.begin_router(5, "Lab").wait_for("kernel: lt0 is 5.1", PATIENCE)
        live = self.cable.live(21, [], NAME)
        live.wait_for("at_node: node 21 of network 5, router 1, zone Lab")
        live.wait_for("done")
        self.check_found(self.cable, "Lab", "5.21")


class RouterAfter(Routed):
    def test_a_node_is_found_in_the_zone_of_a_router_that_comes_20_s_later(self) -> None:
        router = self.begin_router(5, "Lab")
        time.sleep(BECOMES - 20)
        live = self.cable.live(21, [], NAME)
        live.wait_for("at_node: node 21 of network 10")
        live.wait_for("done")
        router.wait_for("kernel: lt0 is 5.1", PATIENCE)
        live.wait_for("node 21 of network 5, router 1, zone Lab", SILENCE + PATIENCE)
        self.check_found(self.cable, "Lab", "5.21")


class RouterChanges(Routed):
    def test_a_node_is_found_again_after_the_router_changed_its_network(self) -> None:
        first = self.begin_router(5, "Lab")
        first.wait_for("kernel: lt0 is 5.1", PATIENCE)
        live = self.cable.live(21, [], NAME)
        live.wait_for("at_node: node 21 of network 5, router 1, zone Lab")
        live.wait_for("done")
        first.end()
        self.begin_router(6, "Annex").wait_for("kernel: lt0 is 6.1", PATIENCE)
        live.wait_for("node 21 of network 6, router 1, zone Annex", SILENCE + PATIENCE)
        self.check_found(self.cable_of(6), "Annex", "6.21")


class NoRouter(Routed):
    def test_a_node_is_found_without_a_router_as_ever(self) -> None:
        one, other = self.cable.live(21, [], NAME), self.cable.live(22, [])
        for live in (one, other):
            live.wait_for("of network 10")
        one.wait_for("done")
        other.say("find = LaserWriter", "until finds", "finish 0")
        other.wait_for("found Laser:LaserWriter@*,21,130,0")
        self.assertFalse([line for _, line in one.told if "router" in line])


if __name__ == "__main__":
    unittest.main()
