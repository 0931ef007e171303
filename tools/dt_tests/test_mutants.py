"""Tests of what `tools/dt mutants` plans and judges: no check is run, each output was recorded. `tools/dt mutants --self-test` runs some."""
import unittest

from dt_mutants import verdicts
from dt_mutants.edits import BadEdit, edits_of, made, pairs_of
from dt_mutants.functions import changed_functions, functions_of, owner_of
from dt_mutants.rounds import plan
from rooms import WithRoom, data

# A file of the kind that the recorded outputs speak of: the lines of its functions are those of the notes there.
SOURCE = data("mutants.txt")


def said(name):
    return data(f"said/{name}.txt")


class WithCrate(WithRoom):
    """Has a crate in a temporary folder, with one source file."""

    def edits(self, edits, file="src/lib.rt", source=SOURCE):
        """Returns the edits of a crate of this source, each given by its name as a list of old and new texts."""
        self.write(file, source)
        for name, pairs in edits.items():
            self.write(f"mutants/{name}.edit", "".join(f"file: {file}\nold: {old}\nnew: {new}\n" for old, new in pairs))
        return {it.name: it for it in edits_of("crate", self.room)}


class Functions(unittest.TestCase):
    def test_they_are_found_with_their_types_and_lines(self):
        found = [(it.label, it.first, it.last) for it in functions_of("src/lib.rt", SOURCE)]
        self.assertEqual(found, [("Number::get", 7, 14), ("Number::of", 16, 19), ("NumberSink::get", 25, 27), ("plain", 30, 30)])

    def test_an_impl_is_named_as_the_toolchain_names_it(self):
        named = {
            "impl From<AllocError> for ReadFault": "ReadFaultFromAllocError",
            "impl Play<(), View> for Drawing": "DrawingPlayUnitView",
            "impl<'a> From<Failure<'a>> for ReplayFailure<'a>": "ReplayFailureFromFailure",
            "impl<W: Write> Sink for Number<W>": "NumberSink",
        }
        self.assertEqual({it: owner_of(it) for it in named}, named)

    def test_a_changed_body_is_told_from_a_changed_head(self):
        change = lambda old, new: changed_functions("src/lib.rt", SOURCE, SOURCE.replace(old, new))
        self.assertEqual([it.label for it in change("self.number + LIMIT", "0")], ["NumberSink::get"])
        self.assertEqual([it.label for it in change("u32 { 1 }", "u32 { 2 }")], ["Number::of"])
        self.assertIsNone(change("LIMIT: u32 = 4", "LIMIT: u32 = 5"))
        self.assertIsNone(change("result ≡ self.now", "result ≡ 0"))
        self.assertIsNone(change("fn plain() {}", "fn plain() {} fn other() {}"))


class Planning(WithCrate):
    def rounds(self, edits):
        return [[it.name for it in one] for one in plan(list(self.edits(edits).values()))]

    def test_edits_of_one_function_are_in_different_rounds(self):
        found = self.rounds({"a": [("let brace = '{';", "let brace = '}';")],
                             "b": [("let brace = '{';", "let brace = 'x';")],
                             "c": [("self.number + LIMIT", "self.number")]})
        self.assertEqual(len(found), 2)
        self.assertTrue(all(not {"a", "b"} <= set(it) for it in found))
        self.assertEqual(sorted(sum(found, [])), ["a", "b", "c"])

    def test_rounds_are_of_about_one_size(self):
        bodies = "".join(f"fn f{at}() -> u32 {{\n    {at}00\n}}\n" for at in range(6))
        edits = {f"e{at}": [(f"{at}00", "7")] for at in range(6)}
        edits["other"] = [("000", "8")]
        found = plan(list(self.edits(edits, source=bodies).values()))
        self.assertEqual(sorted(map(len, found)), [3, 4])

    def test_an_edit_of_a_constant_is_alone(self):
        found = self.rounds({"a": [("LIMIT: u32 = 4", "LIMIT: u32 = 5")], "b": [("self.number + LIMIT", "0")], "c": [("inner() }", "2 }")]})
        self.assertIn(["a"], found)
        self.assertIn(["b", "c"], found)

    def test_edits_that_take_each_others_text_are_not_together(self):
        bodies = "fn f() -> u32 {\n    100\n}\nfn g() -> u32 {\n    200\n}\n"
        found = plan(list(self.edits({"a": [("    100", "    200")], "b": [("    200", "    300")]}, source=bodies).values()))
        self.assertEqual(len(found), 2)

    def test_an_edit_of_two_functions_keeps_out_those_of_each(self):
        found = self.rounds({"a": [("inner() }", "2 }"), ("self.number + LIMIT", "0")], "b": [("inner() }", "3 }")], "c": [("self.number + LIMIT", "1")]})
        self.assertEqual(sorted(map(len, found)), [1, 2])
        self.assertIn(["a"], found)


class Reading(WithCrate):
    def test_what_does_not_apply_is_told(self):
        found = self.edits({"a": [("not there", "x")], "b": [("self.number", "0")], "c": [("inner() }", "inner() }")]})
        self.assertIn("0 times", found["a"].why)
        self.assertIn("2 times", found["b"].why)
        self.assertIn("changes nothing", found["c"].why)

    def test_files_outside_the_crates_parts_are_refused(self):
        for path in ("out/x.rt", "src/../x.rt", "../x.rt"):
            with self.assertRaises(BadEdit):
                pairs_of(f"file: {path}\nold: a\nnew: b\n")

    def test_pairs_apply_one_after_the_other(self):
        edit = self.edits({"a": [("inner() }", "first() }"), ("first() }", "second() }")]})["a"]
        self.assertIn("second() }", made([edit])["src/lib.rt"])


KINDS = "impl CallKind {\n" + "\n" * 57 + "".join(
    "    /// One.\n    fn {}() -> u32 {{\n{}        {}00\n    }}\n".format(name, "\n" * lines, at)
    for at, (name, lines) in enumerate([("from_number", 2), ("number", 20), ("name", 18)], 1)
) + "}\n"


class Judging(WithCrate):
    def refused(self, text, status=1, source=KINDS):
        edits = self.edits({"a": [("100", "7")], "b": [("200", "7")], "c": [("300", "7")]}, "src/call_kind.rt", source)
        self.verdicts = verdicts.refused_by(list(edits.values()), text, status)
        return [it.edit.name for it in self.verdicts]

    def test_each_edit_is_judged_by_its_own_function(self):
        self.assertEqual(self.refused(said("four_functions")), ["a", "b", "c"])
        goals = [("CallKind::from_number", "returns-then-number-eq15"), ("CallKind::number", "returns-in-Write-clause-number"), ("CallKind::name", "returns-in-ThreadExit")]
        self.assertEqual([it[1:] for it in self.verdicts], goals)

    def test_an_edit_of_more_than_bodies_is_judged_by_the_first_function_with_a_goal(self):
        edit = self.edits({"a": [("impl CallKind", "impl Other")]}, "src/call_kind.rt", KINDS)["a"]
        self.assertEqual([it[1:] for it in verdicts.refused_alone(edit, said("four_functions"))], [("call_kind::CallKind::from_number", "returns-then-number-eq15")])
        self.assertEqual(verdicts.refused_alone(edit, "fn small::one: not proved\nlogic=not-proved\n"), [])

    def test_a_function_that_only_calls_what_is_not_proved_is_not_refused(self):
        text = said("four_functions").replace("`search` did not prove `returns-then-number-eq15`; ", "")
        text = "\n".join(it for it in text.split("\n") if "returns-then-number-eq15" not in it)
        self.assertEqual(self.refused(text), ["b", "c"])

    def test_two_functions_of_one_label_are_told_by_their_lines(self):
        self.write("src/other.rt", "impl CallKind {\n    fn name() -> u32 {\n        0\n    }\n}\n")
        self.assertEqual(self.refused(said("four_functions")), ["a", "b", "c"])
        text = said("four_functions").replace("src/call_kind.rt:93:5", "src/other.rt:2:5")
        self.assertEqual(self.refused(text), ["a", "b"])

    def test_the_note_of_a_clause_that_a_trait_declares_elsewhere_counts(self):
        text = said("four_functions").replace("src/call_kind.rt:93:5", "src/a_trait.rt:7:5")
        self.assertEqual(self.refused(text), ["a", "b", "c"])

    def test_without_a_verdict_nothing_is_refused(self):
        text = said("four_functions")
        self.assertEqual(self.refused(text, status=3), [])
        self.assertEqual(self.refused(text.replace("logic=not-proved", "rattle: no verdict: out of memory")), [])
        self.assertEqual(self.refused(said("proved"), status=0), [])

    def digits(self, text):
        source = "fn write_hexadecimal() -> u32 {\n    100\n}\nfn other() -> u32 {\n    200\n}\n"
        edits = self.edits({"a": [("100", "7")], "b": [("200", "7")]}, "src/digits.rt", source)
        self.verdicts = verdicts.refused_by(list(edits.values()), text, 1)
        return [it.edit.name for it in self.verdicts]

    def test_a_refusal_in_the_functions_own_proof_files_counts(self):
        self.assertEqual(self.digits(said("proof_file")), ["a"])
        self.assertEqual([it[1:] for it in self.verdicts], [("write_hexadecimal", "loop-place-preserved")])

    def test_a_proof_file_that_names_what_the_edit_took_away_does_not_count(self):
        for words in ("`c` has no field `place`", "`place` is not in scope", "`lemma` was not admitted"):
            text = said("proof_file").replace("`loop-place-preserved`: `search`: no proof of", words)
            self.assertEqual(self.digits(text), [])

    def test_an_error_of_the_front_end_is_blamed_on_its_edit(self):
        source = "\n" * 31 + "fn f() -> u32\n    requires { 1 }\n{\n    100\n}\nfn g() -> u32 {\n    200\n}\n"
        edits = list(self.edits({"a": [("100", "true")], "b": [("200", "7")]}, source=source).values())
        self.assertEqual([it.name for it in verdicts.blamed(edits, said("compiles_not"))], ["a"])
        self.assertEqual(verdicts.refused_by(edits, said("compiles_not"), 1), [])
