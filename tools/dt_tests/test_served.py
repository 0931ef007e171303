"""Tests of what a crate serves to those above it: which changes of its files count."""
import unittest

from dt_mutants import served
from rooms import data

SOURCE = data("served.txt")
SPECS = data("served-specs.txt")


def crate(source=SOURCE, specs=SPECS, lemmas="-- none\n", above=()):
    """Returns what a crate of these files serves, of which the crates above name these words."""
    files = {"src/lib.rt": source, "specs/Numbers.antt": specs, "proofs/Numbers.antt": lemmas, "proofs/half/Answers.antt": "half = ?"}
    return served.Crate({path: it.encode() for path, it in files.items()}, frozenset(above)).served()


class Sources(unittest.TestCase):
    def is_served(self, old, new, source=SOURCE):
        """Returns whether what the source serves differs once a text that it has once is another."""
        self.assertEqual(source.count(old), 1)
        return served.of_source("src/a.rt", source) != served.of_source("src/a.rt", source.replace(old, new))

    def test_what_other_crates_can_see_is_and_nothing_else(self):
        for what, wanted, changes in (
            ("a body", False, [("        self.value\n", "        self.value + 1\n"), ('"http://{"', '"}"')]),
            ("a comment, the layout, a tactic", False, [
                ("/// The most.", "/// The largest."), ("//! Numbers.", "//! Other numbers."),
                ("    value: u32,", "    // The value.\n    value:   u32,"), ("Numbers::numbers))", "Numbers::more), unfolding(a::b(c)))")]),
            ("a contract", True, [("result ≡ self.now.value", "result ≡ 0"), ("ensures value", "ensures number")]),
            ("a signature, a type, a constant", True, [
                ("value(&self)", "value(&mut self)"), ("    value: u32,", "    value: u64,"), ("= 7;", "= 8;"), ("pub struct", "struct")]),
            ("the body of a constant function", True, [("        MOST\n", "        MOST + 1\n")]),
            ("a function that no other crate calls", False, [
                ("half { IsHalf self.now.value result }", "half { result ≡ 0 }"), ("half(&self)", "half(&mut self)"),
                ("small { IsSmall number.now }", "large { IsLarge number.now }"), ("impl Number {", "impl Number {\n    fn none() {}\n")]),
            ("a function that other crates may call", True, [
                ("pub(crate) fn half", "pub fn half"), ("impl Number {", "impl Number {\n    pub fn none() {}\n")]),
            ("a method of a trait", True, [
                ("less self.now other.now", "less other.now self.now"), ("{ result ≡ most }", "{ result ≡ 7 }"), ("impl Ordered for Number", "impl Number")]),
            ("a name that only such a function imports", False, [("{IsHalf, most}", "{IsHalf, IsSmall, most}"), ("◌≡◌, ◌<◌", "◌≡◌")]),
            ("another name", True, [
                ("{IsHalf, most}", "{IsHalf}"), ("{◌≡◌, ◌<◌}", "{◌<◌}"), ("numbers.specs.Numbers", "numbers.specs.Others")]),
        ):
            for old, new in changes:
                with self.subTest(what, old=old, new=new):
                    self.assertEqual(self.is_served(old, new), wanted)
        self.assertTrue(self.is_served("        MOST\n", "        MOST + 1\n", SOURCE.replace("pub const fn", "const fn")))

    def test_a_function_that_is_exported_by_no_name_is_not(self):
        source = "pub fn half(of: u32) -> u32\n    ensures { result ≡ of / 2 }\n{\n    of / 2\n}\n"

        def is_served(top):
            first, second = (dict(served.Crate({"src/lib.rt": top.encode(), "src/halves.rt": it.encode()}).served()) for it in (source, source.replace("of / 2 }", "of }")))
            return first != second

        self.assertFalse(is_served("mod halves;\n"))
        self.assertFalse(is_served("mod halves;\n// pub mod halves;\npub use halves::whole;\n"))
        for top in ("pub mod halves;\n", "mod halves;\npub use halves::{half, whole};\n", "mod halves;\npub use halves::*;\n"):
            self.assertTrue(is_served(top))

    def test_a_source_with_macros_is_served_whole(self):
        self.assertTrue(self.is_served("        self.value\n", "        self.value + 1\n", SOURCE + "macro_rules! again {\n}\n"))


class Definitions(unittest.TestCase):
    def is_served(self, old, new, **given):
        self.assertEqual(SPECS.count(old), 1)
        return crate(**given) != crate(specs=SPECS.replace(old, new), **given)

    def test_those_that_something_served_names_are_and_no_others(self):
        lemmas = "of_none : size [] ≡ 0\n"
        for wanted, old, new, given in (
            (True, "most = limit", "most = 7", {}),
            (True, "limit = 7", "limit = 8", {}),
            (True, "Plus : Sign", "Minus : Sign", {}),
            (False, "half + half ≡ whole", "half ≡ whole", {}),
            (False, "pub record IsHalf", "pub record IsExactHalf", {}),
            (False, "size [] = 0", "size [] = 1", {}),
            (True, "half + half ≡ whole", "half ≡ whole", {"above": ["IsHalf"]}),
            (True, "size [] = 0", "size [] = 1", {"lemmas": lemmas, "above": ["Numbers", "of_none"]}),
            (False, "size [] = 0", "size [] = 1", {"lemmas": lemmas}),
            (False, "-- the most", "-- the largest", {}),
            (False, "use Rattle.std.specs.List.{length}\n", "", {}),
        ):
            with self.subTest(old, new=new):
                self.assertEqual(self.is_served(old, new, **given), wanted)


class Above(unittest.TestCase):
    """Which words of another crate's file may name something of the crate `numbers`."""

    def named(self, text):
        return served.named_in(text, "numbers")

    def test_names_that_it_imports(self):
        self.assertEqual(self.named("use Rattle.numbers.specs.Numbers.{IsHalf, size as length}\nmost = 1\n"), {"specs", "Numbers", "IsHalf", "size", "as", "length"})
        self.assertEqual(self.named("#[tactic(auto, using(numbers::proofs::Halves::half_of))]\n"), {"proofs", "Halves", "half_of"})

    def test_names_of_a_module_that_it_imports(self):
        text = "ghost use Rattle.numbers.specs.Numbers as all;\nensures { result ≡ all.most + less }\n"
        self.assertEqual(self.named(text), {"specs", "Numbers", "most"})
        self.assertEqual(self.named(text.replace(" as all", "").replace("all.", "Numbers.")), {"specs", "Numbers", "most"})

    def test_all_words_if_it_names_the_crate_in_another_form(self):
        self.assertIn("less", self.named("use Rattle.numbers.*\nensures { result ≡ less }\n"))

    def test_none_of_other_crates_and_comments(self):
        self.assertEqual(self.named("use Rattle.others.specs.Numbers.{IsHalf}\n-- as Rattle.numbers.specs\n"), set())
        self.assertEqual(self.named("use Rattle.more_numbers.specs.Numbers.{IsHalf}\n"), set())


class Files(unittest.TestCase):
    def test_the_proof_of_a_function_is_not_served(self):
        for name in served.OWN_PROOFS:
            self.assertTrue(served.is_own_proof(f"proofs/number/Number/value/{name}"))
        self.assertNotIn("proofs/half/Answers.antt", dict(crate()))

    def test_a_lemma_is_served_if_a_crate_above_names_it_and_its_module(self):
        for path in ("proofs/Lib.antt", "proofs/Values.antt", "proofs/number/Values.antt", "proofs/Answers.antt"):
            self.assertFalse(served.is_own_proof(path))
        lemmas = "pub small-is : IsSmall 1\nunfolding IsSmall\nsmall-is = refl\n\nhelp : ℕ\nhelp = 1\n"
        self.assertEqual(dict(crate(lemmas=lemmas, above=["Numbers", "small"]))["proofs/Numbers.antt"], lemmas.partition(" help")[0].partition("help")[0].replace("\n", " ").strip())
        for words in (["Numbers"], ["small"], []):
            self.assertNotIn("proofs/Numbers.antt", dict(crate(lemmas=lemmas, above=words)))

    def test_lemmas_that_such_lemmas_name_are_served(self):
        texts = {"proofs/A.antt": "use Rattle.numbers.proofs.B.{b}\n", "proofs/B.antt": "b", "proofs/C.antt": "c"}
        self.assertEqual(list(served.of_lemmas(texts, {"A"})), ["proofs/A.antt", "proofs/B.antt"])

    def test_the_line_that_declares_a_file_is_not_served(self):
        self.assertEqual(crate(specs=f"pub mod Others\n{SPECS}"), crate())

    def test_a_lemma_of_a_contract_has_the_sources_functions_served(self):
        given = {"lemmas": "use Rattle.numbers.specs.contracts.half\n", "above": ["Numbers"]}
        source = SOURCE.replace("half { IsHalf self.now.value result }", "half { result ≡ 0 }")
        self.assertNotEqual(crate(**given), crate(source=source, **given))
