"""Tests of the trial of wrong bodies by the prover itself, over two small crates of its own: `python3 gate/test_sharp.py`.

A body that is right has to be told as proved, also in a group: else no verdict of the trial would tell anything. And a
verdict that is noted has to be tried anew where what it rests on has changed. It takes some minutes, and needs rt.
"""

import shutil
import subprocess
import sys
import tempfile
import unittest
from pathlib import Path

TRIAL = Path(__file__).resolve().parent / "wrong"
BELOW = """//! The rooms of a house.
#![tactic(auto)]

ghost use Rattle.std.specs.Prelude.{◌≡◌};
ghost use Rattle.house.specs.Most.{most};

/// How many rooms a house has at most.
pub fn most_rooms() -> u8
    ensures { result ≡ most }
{
    99
}
"""
MOST = """use Rattle.std.specs.Prelude.{ℕ}

-- how many rooms a house has at most
abbrev pub most : ℕ
most = 99
"""
SOURCE = """//! Rooms for guests.
#![tactic(auto)]

ghost use Rattle.house.specs.Most.{most};
ghost use Rattle.std.specs.Prelude.{◌≡◌, ◌+◌, ◌-◌, ◌≤◌, min};

use house::most_rooms;

/// How many of these guests have a room.
pub fn housed(guests: u8, rooms: u8) -> u8
    ensures { result ≡ min guests rooms }
{
    guests.min(rooms)
}

/// How many rooms are left, of which no more are taken than there are.
pub fn left(rooms: u8, taken: u8) -> u8
    requires { taken ≤ rooms }
    ensures { result ≡ rooms - taken }
{
    rooms - taken
}

/// How many rooms stay empty.
pub fn empty(guests: u8, rooms: u8) -> u8
    ensures { result ≡ rooms - min guests rooms }
{
    left(rooms, housed(guests, rooms))
}

/// How many guests a house takes, with some more for each room than it has beds.
pub fn taken(more: u8) -> u8
    requires { more ≤ 100 }
    ensures { result ≡ most + more }
{
    most_rooms() + more
}

/// The number of a room, of which nothing is promised.
pub fn number(room: u8) -> u8 {
    room.min(99)
}
"""
# Each body with its verdict.
BODIES = {
    "houses_all": ("guests.min(rooms)", "guests.max(rooms)", "refused"),
    "houses_by_another_way": ("guests.min(rooms)", "rooms.min(guests)", "proved"),
    "leaves_all": ("    rooms - taken", "    rooms", "refused"),
    "asks_for_more_than_there_are": ("left(rooms, housed(guests, rooms))", "left(rooms, guests)", "refused"),
    "takes_one_more": ("most_rooms() + more", "more", "refused"),
    "has_another_number": ("room.min(99)", "room.min(9)", "proved"),
    "does_not_compile": ("    rooms - taken", "    rooms - true", "bad"),
    "changes_what_is_not_there": ("rooms * taken", "rooms", "bad"),
}


class Trials(unittest.TestCase):
    def setUp(self):
        self.room = tempfile.TemporaryDirectory(prefix="sharp-")
        self.top = Path(self.room.name)
        wrong = self.top / "crates" / "guests" / "wrong"
        (wrong.parent / "src").mkdir(parents=True)
        wrong.mkdir()
        (self.top / "gate").mkdir()
        (self.top / "crates.txt").write_text("house:\nguests: house\n")
        house = self.top / "crates" / "house"
        for place, text in (("src/lib.rt", BELOW), ("specs/Lib.antt", "pub mod Most\n"), ("specs/Most.antt", MOST)):
            (house / place).parent.mkdir(parents=True, exist_ok=True)
            (house / place).write_text(text)
        (wrong.parent / "src" / "lib.rt").write_text(SOURCE)
        for name, (old, new, _) in BODIES.items():
            text = "".join(f"{word}: {it.rstrip()}\n" for word, it in (("file", "src/lib.rt"), ("old", old), ("new", new)))
            (wrong / f"{name}.edit").write_text(text)

    def tearDown(self):
        self.room.cleanup()

    def prove(self):
        """Proves both crates, so that the library of the lower one is there. (rt ci puts back what it finds of one.)"""
        for crate in self.top.glob("crates/*/out"):
            shutil.rmtree(crate)
        ran = subprocess.run(["rt", "ci"], cwd=self.top, stdout=subprocess.PIPE, stderr=subprocess.STDOUT, text=True)
        self.assertEqual(ran.stdout.splitlines()[-1], "2 passed, 0 failed", ran.stdout)

    def trial(self, *words):
        ran = subprocess.run([TRIAL, *words], cwd=self.top, stdout=subprocess.PIPE, text=True)
        told = dict(line.removeprefix("wrong guests/").split(": ", 1) for line in ran.stdout.splitlines() if ": " in line)
        return ran, {name: words.split(":")[0] for name, words in told.items()}

    def test_each_body_has_its_verdict_in_groups(self):
        self.prove()
        ran, told = self.trial()
        wanted = {name: verdict for name, (_, _, verdict) in BODIES.items()}
        self.assertEqual({name: told.get(name) for name in wanted}, wanted, ran.stdout)
        self.assertEqual(ran.returncode, 1)
        self.assertIn("asks_for_more_than_there_are: refused: ", ran.stdout)
        self.assertEqual(ran.stdout.splitlines()[-1], "4 passed, 4 failed")
        # (what is not refused is tried again each time, so only one such body goes on)
        for name, (_, _, verdict) in BODIES.items():
            if verdict != "refused" and name != "houses_by_another_way":
                (self.top / "crates" / "guests" / "wrong" / f"{name}.edit").unlink()
        self.check_that_a_line_by_hand_fails_anew()
        self.check_that_another_definition_below_tries_anew()

    def check_that_a_line_by_hand_fails_anew(self):
        """A line that says that a right body was refused, at the sum that it has, is found out by --anew."""
        noted = self.top / "gate" / "refused.txt"
        before = noted.read_text()
        noted.write_text(before + f"guests/houses_by_another_way {self.sum('houses_by_another_way')} refused by hand\n")
        again, _ = self.trial()
        self.assertEqual(again.stdout.count("refused (noted)"), 5)
        self.assertIn("houses_by_another_way: refused (noted): by hand", again.stdout)
        ran, _ = self.trial("--anew")
        self.assertIn("houses_by_another_way: proved", ran.stdout)
        self.assertEqual(ran.returncode, 1)
        self.assertEqual(noted.read_text(), before)

    def sum(self, name):
        """The sum that a body has here."""
        script = "import sys; from pathlib import Path; sys.path.insert(0, sys.argv[1]); import toolchain, refused\n"
        script += "rt = toolchain.load(); crate = toolchain.crates(rt)['guests']\n"
        script += "edit = Path('crates/guests/wrong', sys.argv[2] + '.edit')\n"
        script += "print(toolchain.sum_of(rt, crate, {}, refused.READING, edit))"
        ran = subprocess.run([sys.executable, "-c", script, TRIAL.parent, name], cwd=self.top, stdout=subprocess.PIPE, text=True)
        return ran.stdout.strip()

    def check_that_another_definition_below_tries_anew(self):
        """A comment below changes no library, and no verdict; a definition does."""
        source = self.top / "crates" / "house" / "src" / "lib.rt"
        source.write_text(BELOW.replace("rooms of a house", "rooms of houses"))
        (self.top / "crates" / "guests" / "wrong" / "houses_by_another_way.edit").unlink()
        self.prove()
        self.assertEqual(self.trial()[0].stdout.count("refused (noted)"), 4)
        (self.top / "crates" / "house" / "specs" / "Most.antt").write_text(MOST.replace("99", "98"))
        source.write_text(BELOW.replace("99", "98"))
        self.prove()
        self.assertEqual(self.trial()[0].stdout.count("refused (noted)"), 0)


if __name__ == "__main__":
    tried = unittest.main(exit=False).result
    lost = len(tried.failures) + len(tried.errors)
    print(f"{tried.testsRun - lost} passed, {lost} failed")
    sys.exit(bool(lost))
