"""Tests of the check of layers, on small lists of crates."""
import unittest

from dt_commands import layer_picture, layers

HEADS = {name: f"# {name}: what it holds." for name in layers.SECTIONS}


def listed(**sections):
    """Returns a crates.txt whose sections have these lines."""
    lines = []
    for name, head in HEADS.items():
        lines += [head, *sections.get(name, [])]
    return "\n".join(lines)


def found(folders, **sections):
    return layers.complaints(listed(**sections), folders)


class Layers(unittest.TestCase):
    def test_a_list_in_order_is_well(self):
        self.assertEqual([], found(["abi", "hart", "test_hart"], ground=["abi:"], machine=["hart: abi std_like"], tests=["test_hart: hart"]))

    def test_a_dependency_on_a_later_line_is_told(self):
        self.assertEqual(["abi: hart is on no earlier line"], found(["abi", "hart"], ground=["abi: hart"], machine=["hart:"]))

    def test_the_product_uses_no_tests(self):
        self.assertIn("token: a crate of the product depends on data_rows", found(["token", "data_rows"], law=["token: data_rows"], data=["data_rows:"]))

    def test_prefixes_are_those_of_the_sections(self):
        self.assertEqual(["rows: its prefix is not that of the section tests"], found(["rows"], tests=["rows:"]))
        self.assertEqual(["test_bench: its prefix is not that of the section ground"], found(["test_bench"], ground=["test_bench:"]))

    def test_folders_and_lines_agree(self):
        self.assertEqual(["abi: it has no folder in crates/", "hart: it has no line in crates.txt"], found(["hart"], ground=["abi:"]))

    def test_the_sections_keep_their_order(self):
        self.assertEqual(1, len(layers.complaints("# law: one.\n# ground: two.", [])))


def picture(**sections):
    """Returns a page with a picture of the layers, whose sections have these lines."""
    lines = []
    for name in layers.PRODUCT[::-1]:
        lines += [f"{name}   what it is for", *(f"    {it}" for it in sections.get(name, []))]
    return "# Page\n\n```\n" + "\n".join(lines) + "\n```\n"


def told(page, **sections):
    return layer_picture.complaints(page, listed(**sections))


class Picture(unittest.TestCase):
    ROWS = {"machine": ["decoder:", "code: decoder", "hart: code decoder"], "ground": ["abi:"]}

    def test_one_that_shows_crates_txt_is_well(self):
        self.assertEqual([], told(picture(machine=["hart > code > decoder, hart", "hart > decoder"], ground=["abi"]), **self.ROWS))

    def test_a_crate_that_is_left_out_is_told(self):
        self.assertEqual(["machine: code is left out", "ground: abi is left out"], told(picture(machine=["hart > decoder"]), **self.ROWS))

    def test_a_crate_of_another_section_is_told(self):
        self.assertEqual(["machine: abi is not of this section"], told(picture(machine=["hart, code, decoder, abi"], ground=["abi"]), **self.ROWS))

    def test_an_arrow_without_a_dependency_is_told(self):
        self.assertEqual(["machine: decoder doesn't depend on code"], told(picture(machine=["hart, decoder > code"], ground=["abi"]), **self.ROWS))

    def test_a_section_that_is_left_out_is_told(self):
        self.assertEqual(1, len(told(picture().replace("debugging   what it is for\n", ""))))
