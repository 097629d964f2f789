"""Tests of how a second wrong body of a function is set in, as a copy, without the prover: python3 gate/test_copies.py"""

import sys
import tempfile
import unittest
from pathlib import Path
from types import SimpleNamespace

HERE = Path(__file__).resolve().parent
sys.dont_write_bytecode = True
sys.path.insert(0, str(HERE))
from bodies import Body, head_of, law_of, note_place, texts_of, users_of  # noqa: E402
from copies import function_at, lines_of_copy, proofs_of_copy  # noqa: E402

SOURCE = """const ROOM: usize = 8;

/// Whether it is full.
#[inline]
pub fn is_full(len: usize) -> bool
    ensures { result ≡ (len ≡ ROOM) }
{
    len == ROOM
}

impl<A: Allocator + Copy> Table<A> {
    fn count(&self, from: usize) -> usize {
        if from < self.items.len() { 1 + self.count(from + 1) } else { 0 }
    }
}

impl From<Fault> for Table {
    fn from(fault: Fault) -> Table {
        made(fault)
    }
}

fn main() {
    run()
}
"""
LINES = SOURCE.split("\n")
PROOF = """use Rattle.held.proofs.table.Table.+count.Goals as goal

pub returns : goal.decreases-count
returns c = c.count.ensures
"""


LAWS = """ghost use Rattle.held.specs.Tables.{is_table};

/// A table stays one.
pub fn tables_stay_tables()
    ensures grown { (t : Table) → is_table t
        → is_table (grown t) }
{}

/// And so on.
pub fn the_next()
    ensures { true ≡ true }
{
    tables_stay_tables();
}
""".split("\n")


def at(words):
    return next(number for number, line in enumerate(LINES) if words in line)


def function(words):
    return function_at("src/table.rt", LINES, at(words))


class Held(unittest.TestCase):
    """A crate of one file, in a folder of its own."""

    def setUp(self):
        room = tempfile.TemporaryDirectory()
        self.addCleanup(room.cleanup)
        folder = Path(room.name)
        proof = folder / "proofs" / "table" / "Table" / "+count"
        proof.mkdir(parents=True)
        (proof / "Answers.antt").write_text(PROOF)
        (folder / "src").mkdir()
        (folder / "src" / "table.rt").write_text(SOURCE)
        self.crate = SimpleNamespace(folder=str(folder), name="held")

    def body(self, name, words, new):
        line = at(words)
        body = Body(name, lines={("src/table.rt", line): new})
        head = head_of(LINES, line)
        body.places, body.function = {("src/table.rt", head)}, function_at("src/table.rt", LINES, head)
        return body

    def test_a_function_has_its_lines_and_its_type(self):
        full = function("fn is_full")
        self.assertEqual((full.top, full.end, full.type, full.is_of_trait), (at("/// Whether"), at("len == ROOM") + 1, "", False))
        count = function("fn count")
        self.assertEqual((count.name, count.type, count.is_of_trait), ("count", "Table", False))

    def test_methods_of_traits_and_a_main_are_not_copied(self):
        copied = {it: function(f"fn {it}").can_be_copied() for it in ("is_full", "count", "from", "main")}
        self.assertEqual(copied, {"is_full": True, "count": True, "from": False, "main": False})

    def test_a_copy_has_the_attributes_the_contract_and_the_other_body(self):
        lines = lines_of_copy(function("fn is_full"), LINES, {at("len == ROOM"): "    true"}, "is_full_w2", False)
        wanted = ["", "#[inline]", "pub fn is_full_w2(len: usize) -> bool", "    ensures { result ≡ (len ≡ ROOM) }", "{"]
        self.assertEqual(lines, [*wanted, "    true", "}"])

    def test_a_copy_calls_itself_only_where_the_function_is_proved_so(self):
        for calls_itself, called in ((True, "self.count_w2("), (False, "self.count(")):
            text = "\n".join(lines_of_copy(function("fn count"), LINES, {}, "count_w2", calls_itself))
            self.assertIn("fn count_w2(&self", text)
            self.assertIn(called, text)

    def test_the_proof_of_a_copy_has_its_name(self):
        (place, text), = proofs_of_copy(self.crate, function("fn count"), "count_w2").items()
        self.assertEqual(place, "proofs/table/Table/+count_w2/Answers.antt")
        self.assertEqual(text, PROOF.replace("+count.", "+count_w2.").replace("-count", "-count_w2").replace("c.count", "c.count_w2"))

    def test_two_bodies_of_a_function_are_both_set_in(self):
        group = [self.body("one", "len == ROOM", "    true"), self.body("two", "len == ROOM", "    false")]
        self.assertTrue(group[1].may_join(group[:1]))
        self.assertEqual(group[1].copy, "is_full_w2")
        lines = texts_of(self.crate, group)["src/table.rt"].split("\n")
        self.assertEqual([lines.count(it) for it in ("    true", "    false", "    len == ROOM")], [1, 1, 0])
        for body, line in zip(group, ("    true", "    false")):
            self.assertIn(("src/table.rt", lines.index(line) + 1), body.stands)
        self.assertLess(lines.index("    true"), lines.index("    false"))

    def test_a_body_that_was_tried_before_is_no_copy(self):
        group = [self.body("one", "len == ROOM", "    true"), self.body("two", "len == ROOM", "    false")]
        group[1].tries = 1
        self.assertFalse(group[1].may_join(group[:1]))

    def test_a_constant_is_tried_by_those_that_use_it(self):
        self.assertEqual(users_of(self.crate, "const ROOM: usize = 9;"), {("src/table.rt", at("pub fn is_full"))})
        self.assertEqual(users_of(self.crate, "const OTHER: usize = 9;"), set())
        self.assertEqual(users_of(self.crate, "struct ROOM;"), set())

    def test_a_clause_of_a_law_stands_in_the_law(self):
        first, second = LAWS.index("pub fn tables_stay_tables()"), LAWS.index("pub fn the_next()")
        for words, head in (("ensures grown", first), ("(grown t)", first), ("true ≡ true", second), ("/// And so", None)):
            line = next(number for number, it in enumerate(LAWS) if words in it)
            self.assertEqual(law_of(LAWS, line), head, words)

    def test_a_wrong_law_is_tried_where_its_clause_stands_and_an_import_nowhere(self):
        body = Body("one")
        for line in (0, LAWS.index("        → is_table (grown t) }")):
            note_place(self.crate, body, "src/laws/tables.rt", LAWS, line)
        self.assertEqual(body.places, {("src/laws/tables.rt", LAWS.index("pub fn tables_stay_tables()"))})
        self.assertIsNone(body.function)
        note_place(self.crate, body, "src/table.rt", LINES, at("ensures"))
        self.assertIn(None, body.places)

    def test_no_copy_is_made_of_a_function_whose_constant_is_wrong(self):
        constant = Body("one", places={("src/table.rt", at("pub fn is_full"))}, is_constant=True)
        self.assertFalse(self.body("two", "len == ROOM", "    false").may_join([constant]))


if __name__ == "__main__":
    unittest.main()
