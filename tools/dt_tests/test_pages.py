"""The pages: the walk over definitions, the order of the changes, links and sizes."""
import tempfile
import unittest

from dt_commands import c_page, changes, course, crate_pages, definitions, page_links, pages, uncontracted
from dt_commands.texts import write_file
from rooms import data


class Definitions(unittest.TestCase):
    def test_the_headline_needs_the_clauses_and_no_invariant(self):
        for carriers in (definitions.PROGRAM, definitions.LIBRARY):
            found = {(path[0], name) for path, name in definitions.needed(carriers, definitions.modules())[0]}
            for name in ["Follows", "IsLegal", "version"]:
                self.assertIn(("token", name), found)
            self.assertIn(("hart", "executed"), found)
        self.assertNotIn(("token", "Point"), found)
        self.assertNotIn(("command_run", "Concludes"), found)

    def test_a_label_of_a_field_is_no_name(self):
        items = {"count": (("one", "specs", "Counts"), "count")}
        self.assertEqual(definitions.used("record { count = 1; other = 2 }", items, {}, {}, None), set())
        self.assertEqual(definitions.used("record { other = count }", items, {}, {}, None), {items["count"]})

    def test_names_behind_an_alias(self):
        found = definitions.used("nat_le 1 limit.workers", {}, {"limit": ("abi", "specs", "Limits")}, {}, None)
        self.assertEqual(found, {(("abi", "specs", "Limits"), "workers")})


PAGE = """# One

```
above
$ echo one
old
$ echo two
$ echo three
more
```

Text.
"""


class Transcripts(unittest.TestCase):
    def test_what_commands_print_replaces_what_the_page_has(self):
        got = ["$ echo one", "one", "$ echo two", "two", "2", "$ echo three", "three"]
        wanted = PAGE.replace("old\n", "one\n").replace("two\n", "two\ntwo\n2\n").replace("more\n", "three\n")
        self.assertEqual(course.rewritten(PAGE, got), wanted)
        self.assertEqual(course.rewritten(wanted, c_page.shown_in(wanted)), wanted)


class Tables(unittest.TestCase):
    def test_numbers_are_written_for_readers(self):
        self.assertEqual(crate_pages.value("abi", "Limits", "input"), "16,777,216")
        self.assertEqual(crate_pages.value("abi", "Limits", "instructions"), "2^40")

    def test_each_change_is_named_once(self):
        names = changes.names()
        self.assertEqual(len(names), len(set(names)))

    def test_each_change_can_be_made(self):
        self.assertEqual([it.name for it in changes.listed()], changes.names())


class Sizes(unittest.TestCase):
    def test_a_page_that_is_too_long_is_told_with_its_size_and_its_limit(self):
        with tempfile.TemporaryDirectory() as top:
            for name, size in (("one", 1000), ("two", 1001)):
                write_file(f"{top}/{name}.md", "." * size)
            found = pages.too_long({"one.md": 1000, "two.md": 1000, "none.md": 1}, top)
        self.assertEqual(found, ["two.md: it has 1,001 bytes, and its limit is 1,000: 1 too many"])


SOURCE = data("uncontracted.txt")


class Uncontracted(unittest.TestCase):
    def test_public_functions_without_ensures_are_counted(self):
        self.assertEqual(uncontracted.counted("table.rt", SOURCE), (3, 2))

    def test_crates_without_such_functions_are_not_listed(self):
        self.assertIn("Of 8 public functions of the product 2 have no `ensures`: `one` (2).", uncontracted.told({"one": (5, 2), "two": (3, 0)}))
        self.assertIn("All 3 public functions", uncontracted.told({"two": (3, 0)}))


class Speed(unittest.TestCase):
    def test_a_number_that_no_measurement_has_is_told(self):
        readme = "# Name\n\n10 to 20\n\n## Speed\n\n- It takes 2.4 to 2.5 nanoseconds, and gains 3.4 to 3.7.\n\n## More\n\n5 to 6\n"
        self.assertEqual(pages.unmeasured(readme, "| one | 2.4 to 2.5 ns |\n| four | 3.6 to 3.8 |\n| 13.4 to 3.75 |"), ["README.md: docs/BENCH.md has no 3.4 to 3.7"])


class Toolchain(unittest.TestCase):
    def test_another_toolchain_than_the_releases_is_told(self):
        record = "# rt version: kit-2 logic abc\n0 file\n"
        self.assertEqual(pages.of_another_toolchain("Proved with `kit-2`, logic `abc`.", record), [])
        self.assertEqual(len(pages.of_another_toolchain("Proved with `kit-1`, logic `abc`.", record)), 1)


class Links(unittest.TestCase):
    def test_anchors_are_those_of_code_hosts(self):
        self.assertEqual(page_links.anchors("# A\n## `run`, and more!\n"), {"a", "run-and-more"})
