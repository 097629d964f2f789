"""netatalk's own programs against live nodes on the cable of a router of ours: zones, names, echoes
and routes."""

import unittest

from programs import PROGRAMS, Cable

HAS_RTMPQRY = (PROGRAMS / "rtmpqry").exists()


class OurRouter(unittest.TestCase):
    """A router with two zones, node 1, a node with names, node 7, and one with another, node 8."""

    cable: Cable

    @classmethod
    def setUpClass(cls) -> None:
        cls.cable = Cable()
        cls.addClassCleanup(cls.cable.close)
        place = ["--router", "1", "--zone"]
        started = [
            cls.cable.live(1, [*place, "Lab"], "setzones Lab Office", "setlocal Lab"),
            cls.cable.live(7, [*place, "Office"], "register Line%20Printer LaserWriter 130",
                           "register Seven Server 129"),
            cls.cable.live(8, [*place, "Lab"], "register Paper%20Printer LaserWriter 129",
                           "register Eight Server 131"),
        ]
        for live in started:
            live.wait_for("done", count=2)

    def test_getzones_prints_the_zones(self) -> None:
        self.assertEqual(self.cable.run("getzones"), (0, "Lab\nOffice\n"))
        self.assertEqual(self.cable.run("getzones", "-l"), (0, "Lab\n"))

    def test_getzones_prints_the_zone_of_the_cable(self) -> None:
        self.assertEqual(self.cable.run("getzones", "-m"), (0, "Lab\n"))

    def test_nbplkup_finds_the_names_of_a_zone(self) -> None:
        for zone, wanted in (
            ("Office", ["Line", "Printer:LaserWriter", "10.7:130"]),
            ("Lab", ["Paper", "Printer:LaserWriter", "10.8:129"]),
        ):
            status, printed = self.cable.run("nbplkup", f"=:LaserWriter@{zone}")
            self.assertEqual((status, printed.split()), (0, wanted))

    def test_nbplkup_finds_no_other_name(self) -> None:
        status, printed = self.cable.run("nbplkup", "Nobody:LaserWriter@Office")
        self.assertEqual(printed, "")

    def test_aecho_hears_each_live_node(self) -> None:
        for number in (1, 7, 8):
            status, printed = self.cable.run("aecho", "-c", "2", f"10.{number}")
            self.assertEqual(status, 0, printed)
            self.assertIn("2 packets sent, 2 packets received, 0% packet loss", printed)

    @unittest.skipUnless(HAS_RTMPQRY, "this netatalk has no rtmpqry")
    def test_rtmpqry_prints_the_router(self) -> None:
        told = "Router: 10.1\nNetwork(s): 10\n"
        self.assertEqual(self.cable.run("rtmpqry", "-r"), (0, told))

    @unittest.skipUnless(HAS_RTMPQRY, "this netatalk has no rtmpqry")
    def test_rtmpqry_prints_the_route_of_the_cable(self) -> None:
        for words in (["rtmpqry"], ["rtmpqry", "-a"]):
            status, printed = self.cable.run(*words)
            routes = set(printed.split("\n")) - {""}
            self.assertEqual((status, routes), (0, {"10 distance 0 via 10.1"}))

    def test_atalkd_is_a_node_of_the_network_within_a_second(self) -> None:
        atalkd = self.cable.atalkd("lt0 -phase 1")
        began = atalkd.wait_for("kernel: lt0 is 0.33")
        self.assertLess(atalkd.wait_for("kernel: lt0 is 10.33") - began, 1.0)
        status, printed = self.cable.run("aecho", "-c", "2", "10.33")
        self.assertIn("2 packets received", printed)


if __name__ == "__main__":
    unittest.main()
