"""Tests of how wrong bodies are grouped, reports are read and changes are told, without the prover:

    python3 gate/test_reading.py
"""

import sys
import unittest
from importlib import machinery, util
from pathlib import Path

HERE = Path(__file__).resolve().parent
sys.dont_write_bytecode = True
sys.path.insert(0, str(HERE))
from bodies import TRIES, Body, head_of, module_of, name_of  # noqa: E402
from report import Report  # noqa: E402

SOURCE = """//! A table.
pub struct Table { room: usize }

const ROOM: usize = 8;

impl Table {
    /// Whether it is full.
    pub fn is_full(&self, len: usize) -> bool
        ensures { result ≡ (len ≡ ROOM) }
    {
        len == ROOM
    }
}

impl From<Fault> for Table {
    fn from(fault: Fault) -> Table {
        made(fault)
    }
}

pub(crate) fn made<T>(_fault: T) -> Table
where
    T: Copy,
{
    Table { room: 0 }
}
""".split("\n")
KNOWN = {"held::table::Table::is_full", "held::table::TableFromFault::from", "held::table::made"}

REFUSED = """note: src/table.rt:11:9: it is not proved that what it returns is so (`returns-clause-full`): no proof of it was found
fn held::table::Table::is_full: not proved
./proofs/table/made/Answers.antt:3:5: error: `returns-clause-room`: this goal is false
fn held::table::made: not proved
fn held::table::keep: not proved: it calls `held::table::made`, which is not proved
fn held::table::first: proved
"""


def at(words):
    return next(number for number, line in enumerate(SOURCE) if words in line)


def a_body(name, function):
    # (any other line for another function)
    place = ("src/table.rt", sum(function.encode()))
    return Body(name, places={place}, functions={f"held::table::{function}"})


class Places(unittest.TestCase):
    def test_a_line_of_a_body_stands_in_its_function(self):
        self.assertEqual(head_of(SOURCE, at("len == ROOM")), at("fn is_full"))
        self.assertEqual(head_of(SOURCE, at("Table { room: 0 }")), at("fn made"))

    def test_a_clause_a_constant_and_a_comment_stand_in_none(self):
        for words in ("ensures", "const ROOM", "Whether"):
            self.assertIsNone(head_of(SOURCE, at(words)), words)

    def test_a_function_has_the_name_that_reports_give_it(self):
        names = {
            "fn is_full": "held::table::Table::is_full",
            "fn from": "held::table::TableFromFault::from",
            "fn made": "held::table::made",
        }
        for words, name in names.items():
            self.assertEqual(name_of(SOURCE, at(words), module_of("held", "src/table.rt"), KNOWN), name)

    def test_a_file_has_its_module(self):
        paths = {"src/lib.rt": "held", "src/table.rt": "held::table", "src/deep/mod.rt": "held::deep"}
        for path, module in paths.items():
            self.assertEqual(module_of("held", path), module)


class Groups(unittest.TestCase):
    def test_no_function_has_two_wrong_bodies_in_a_group(self):
        self.assertFalse(a_body("one", "made").may_join([a_body("other", "made")]))
        self.assertTrue(a_body("one", "made").may_join([a_body("other", "keep")]))

    def test_a_body_is_not_tried_beside_one_that_it_waits_for(self):
        waiting = a_body("one", "keep")
        waiting.avoids = {"held::table::made"}
        self.assertFalse(waiting.may_join([a_body("other", "made")]))
        self.assertFalse(a_body("other", "made").may_join([waiting]))

    def test_a_body_that_was_tried_often_is_tried_alone(self):
        tired = a_body("one", "made")
        tired.tries = TRIES
        self.assertTrue(tired.may_join([]))
        self.assertFalse(tired.may_join([a_body("other", "keep")]))
        self.assertFalse(a_body("other", "keep").may_join([tired]))


class Reports(unittest.TestCase):
    def test_a_body_is_refused_by_an_open_goal_of_its_function(self):
        report = Report("held", 1, REFUSED)
        group = [a_body("one", "Table::is_full"), a_body("two", "made")]
        wanted = ["returns-clause-full of table::Table::is_full (search)", "returns-clause-room of table::made (false)"]
        self.assertEqual([report.read(it, group) for it in group], [("refused", it) for it in wanted])

    def test_a_body_that_waits_for_another_is_tried_again_without_it(self):
        report = Report("held", 1, REFUSED)
        group = [a_body("one", "keep"), a_body("two", "made")]
        self.assertEqual(report.read(group[0], group).kind, "again")
        self.assertFalse(group[0].may_join([group[1]]))

    def test_a_body_that_seems_proved_is_tried_alone_before_it_is_told(self):
        report = Report("held", 1, REFUSED)
        group = [a_body("one", "first"), a_body("two", "made")]
        self.assertEqual(report.read(group[0], group), ("again", "alone"))
        self.assertEqual(Report("held", 0, "").read(group[0], group[:1]).kind, "proved")

    def test_a_proof_that_names_what_is_gone_is_told_as_such(self):
        text = "proofs/table/made/Answers.antt:3:5: error: `keep` is not in scope\nfn held::table::made: not proved\n"
        body = a_body("one", "made")
        self.assertEqual(Report("held", 1, text).read(body, [body]).kind, "name-only")

    def test_a_body_that_does_not_compile_is_bad_and_spoils_no_other(self):
        text = "src/table.rt:25:5: error[types]: a number is wanted here\n"
        lone = a_body("one", "made")
        lone.stands = {("src/table.rt", at("Table { room: 0 }") + 1)}
        far = a_body("two", "is_full")
        far.stands = {("src/table.rt", at("len == ROOM") + 1)}
        self.assertEqual(Report("held", 1, text).read(lone, [lone]).kind, "bad")
        report = Report("held", 1, text)
        self.assertEqual(report.read(lone, [lone, far]), ("again", "alone"))
        self.assertEqual(report.read(far, [lone, far]), ("again", ""))

    def test_a_check_without_a_verdict_is_untold(self):
        body = a_body("one", "made")
        self.assertEqual(Report("held", 3, "").read(body, [body]).kind, "untold")

    def test_an_open_goal_where_no_body_stands_is_noticed(self):
        report = Report("held", 1, REFUSED)
        self.assertIn("made", report.stray([a_body("one", "Table::is_full")]))
        self.assertEqual(report.stray([a_body("one", "Table::is_full"), a_body("two", "made")]), "")


class Changes(unittest.TestCase):
    def setUp(self):
        loader = machinery.SourceFileLoader("changed", str(HERE / "changed"))
        self.changed = util.module_from_spec(util.spec_from_loader("changed", loader))
        loader.exec_module(self.changed)
        self.crates = self.changed.crates_in("low: std\nmid: low\nhigh: mid # the program\nother: std\n")

    def test_all_above_a_changed_library_is_proved_anew(self):
        self.assertEqual(self.changed.anew({"low": True}, self.crates), ["low", "mid", "high"])

    def test_comments_alone_have_one_crate_proved_anew(self):
        self.assertEqual(self.changed.anew({"mid": False}, self.crates), ["mid"])
        before, here = "// one\nfn a() {}\n", "// another\n\nfn a() {}\n"
        self.assertEqual(self.changed.without_comments(before), self.changed.without_comments(here))

    def test_the_longest_chain_is_a_bound(self):
        seconds = self.changed.seconds_of("low    60  0  0  0  0  60  0\nmid   120  5  0  0  0 125  0\n")
        self.assertEqual(self.changed.chain(["low", "mid"], seconds, self.crates), 180)


if __name__ == "__main__":
    unittest.main()
