"""The clocks of timers."""

import unittest

from at_node import Alarms


class Clocks(unittest.TestCase):
    def test_a_timer_fires_after_its_interval_and_not_before(self) -> None:
        for timer, seconds in (
            ("retry 0", 2.0), ("release 129 5 128 0", 30.0), ("lookup 0", 1.5),
            ("resend 1", 1.0), ("probe 1", 30.0),
        ):
            alarms = Alarms()
            alarms.read([timer], 100.0)
            self.assertEqual(alarms.first(), 100.0 + seconds)
            self.assertIsNone(alarms.fire(100.0 + seconds - 0.01))
            self.assertEqual(alarms.fire(100.0 + seconds), timer)
            self.assertIsNone(alarms.first())

    def test_what_is_still_listed_keeps_its_time(self) -> None:
        alarms = Alarms()
        alarms.read(["retry 0"], 0.0)
        alarms.read(["retry 0", "probe 1"], 1.0)
        self.assertEqual(alarms.first(), 2.0)
        self.assertEqual(alarms.armed(), ["retry 0", "probe 1"])

    def test_what_fired_and_is_still_listed_is_armed_again(self) -> None:
        alarms = Alarms()
        alarms.read(["retry 0"], 0.0)
        alarms.fire(2.5)
        alarms.read(["retry 0"], 2.5)
        self.assertEqual(alarms.first(), 4.5)

    def test_what_has_gone_does_not_fire(self) -> None:
        alarms = Alarms()
        alarms.read(["retry 0"], 0.0)
        alarms.read([], 1.0)
        self.assertIsNone(alarms.fire(9.0))

    def test_the_one_that_is_due_for_longest_fires_first(self) -> None:
        alarms = Alarms({"resend": 0.1})
        alarms.read(["retry 0", "resend 1"], 0.0)
        self.assertEqual([alarms.fire(9.0), alarms.fire(9.0)], ["resend 1", "retry 0"])


if __name__ == "__main__":
    unittest.main()
