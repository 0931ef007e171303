"""Pictures of timelines: what is read of a run, and that each thing is drawn, once and within the picture."""
import argparse
import base64
import contextlib
import io
import json
import re
import subprocess
import unittest
import zlib
from unittest import mock
from xml.etree import ElementTree

from dt_commands import picture, picture_chunks, picture_legend, picture_marks, picture_program, picture_run, picture_svg, picture_tables, sample_pictures
from dt_commands.repository import TOP
from rooms import WithRoom, data

REPORT = "page=00020000 turns=2 bytes=3 threads=2 shared=1 clashes=1\npage=20000000 turns=1 bytes=1 threads=1 shared=0 clashes=0\n"
RACES = """race address=00018210 bytes=4 store thread=1 turn=3 pc=000100a4 load thread=2 turn=5 pc=0001009c object=counter+0 in=add+12 in=add+4
race address=00018210 bytes=4 store thread=1 turn=3 pc=000100a4 at=a b.c:13 store thread=2 turn=5 pc=000100a4 at=a b.c:13
race address=00018000 bytes=1 load thread=0 turn=4 pc=000100a4 store thread=2 turn=5 pc=000100a4
left out=7
"""
# One turn; thread 1 waits at condition 0, thread 2 behind it, and thread 0 wakes one by a signal, the other by a broadcast; thread 1 comes to a
# barrier, which thread 0 completes before and behind it, and both join each other.
ONE_TURN, CONDITIONS, BARRIERS = (data(f"{it}.timeline") for it in ("one-turn", "conditions", "barriers"))
SVG = "{http://www.w3.org/2000/svg}"


def drawn(timeline, **how):
    """Returns the picture of a timeline, read as XML."""
    return ElementTree.fromstring(picture_svg.Picture(picture_run.Run(timeline), "name", **how).drawn())


def numbers_of(critical):
    return {it for it in range(100) if it in critical}


def titles(tree):
    return [it.text.split("\n")[0] for it in tree.iter(f"{SVG}title")]


class Reading(unittest.TestCase):
    def test_the_critical_path_sums_up_to_its_length(self):
        for timeline, length in ((ONE_TURN, 3), (CONDITIONS, 137), (BARRIERS, 11)):
            run = picture_run.Run(timeline)
            self.assertEqual((run.length, sum(it.ran for it in run.turns if it.number in run.critical)), (length, length))

    def test_the_critical_path_of_conditions(self):
        self.assertEqual(numbers_of(picture_run.Run(CONDITIONS).critical), {1, 2, 5, 6, 7, 8, 9, 10, 12, 13, 14})

    def test_segments_of_keepers_are_told_apart(self):
        self.assertEqual([it.turn for it in picture_run.Run(CONDITIONS).slices if it.kind == "keeper"], [9, 13])

    def test_phases_have_their_counters(self):
        self.assertEqual(picture_run.Run(CONDITIONS).phases[4], picture_run.Phase(5, 23, 30, 2, 1))

    def test_a_part_of_a_run(self):
        run = picture_run.Run(CONDITIONS)
        run.within(3, 5)
        self.assertEqual((run.start, run.end, [it.number for it in run.turns]), (14, 30, [4, 5, 6, 7, 8, 9]))
        self.assertTrue(all(14 <= it.start < it.end <= 30 for it in run.slices))
        self.assertEqual(run.said(), "phases 3 to 5 of 14 turns in 7 phases by 3 threads")

    def test_races_of_the_same_turns_are_one_mark(self):
        races, others = picture_run.races_of(RACES)
        self.assertEqual([(it.turns, it.count) for it in races], [((3, 5), 2), ((4, 5), 1)])
        self.assertEqual(others, ["left out=7"])

    def test_races_may_tell_instructions(self):
        line = RACES.splitlines()[0].replace("turn=3", "turn=3+8").replace("turn=5", "turn=5+12")
        self.assertEqual([it.turns for it in picture_run.races_of(line)[0]], [(3, 5)])

    def test_a_file_may_have_other_lines(self):
        whole = json.dumps(json.loads(CONDITIONS))
        self.assertEqual(list(picture_run.Run(whole).slices), list(picture_run.Run(CONDITIONS).slices))
        with mock.patch.object(picture_run, "TOGETHER", 100):
            self.assertEqual(list(picture_run.Run(CONDITIONS).turns), list(picture_run.Run(whole).turns))

    def test_tracks_have_the_threads_of_their_names(self):
        later = re.sub(r'"tid":(\d+)', lambda it: f'"tid":{int(it[1]) + 1}', CONDITIONS)
        self.assertEqual(list(picture_run.Run(later).slices), list(picture_run.Run(CONDITIONS).slices))

    def test_the_outcome_in_a_sentence(self):
        wanted = {
            ONE_TURN: "exit 7: thread 0 ends the run in turn 1",
            CONDITIONS: "trap: thread 0 at 00010014 in turn 14, cause 3, value 00000000",
            BARRIERS: "deadlock: thread 0 waits in join since turn 5, thread 1 waits in join since turn 6, and no thread can run",
            BARRIERS.replace('"name":"join"', '"name":"thread_exit"'): "finished: the last thread ends in turn 6",
        }
        self.assertEqual({it: picture_run.Run(it).outcome for it in wanted}, wanted)

    def test_races_in_words(self):
        races, _ = picture_run.races_of(RACES)
        self.assertEqual([picture_legend.said(it) for it in races], [
            "race at counter (00018210): turn 3 stores to it, turn 5 loads it, and nothing orders the two, and 1 more line of the same turns",
            "race at 00018000: turn 4 loads it, turn 5 stores to it, and nothing orders the two",
        ])


class Drawing(unittest.TestCase):
    def test_each_slice_and_each_turn_has_its_title(self):
        found = titles(drawn(CONDITIONS))
        for it in picture_run.Run(CONDITIONS).turns:
            self.assertEqual(sum(one.startswith(f"turn {it.number}: thread {it.thread} at") for one in found), 1)
        self.assertEqual(sum(it.startswith("turn ") and ", phase" in it for it in found), 11)
        self.assertEqual([it for it in found if "waits" in it][0], "thread 1 waits for the token, before turn 3")

    def test_each_flow_has_an_arrow(self):
        self.assertEqual([it for it in titles(drawn(CONDITIONS)) if "leads to" in it], [
            "create: thread 0 leads to turn 3 of thread 1", "create: thread 0 leads to turn 5 of thread 2",
            "signal: thread 0 leads to turn 8 of thread 1", "signal: thread 0 leads to turn 12 of thread 2",
        ])

    def test_all_is_within_the_picture(self):
        for timeline in (ONE_TURN, CONDITIONS, BARRIERS):
            tree = drawn(timeline, report=picture_run.pages_of(REPORT), races=picture_run.races_of(RACES)[0])
            width, height = (float(tree.get(it)) for it in ("width", "height"))
            for it in tree.iter(f"{SVG}rect"):
                self.assertLessEqual(float(it.get("x") or 0) + float(it.get("width")), width)
                self.assertLessEqual(float(it.get("y") or 0) + float(it.get("height")), height)

    def test_races_and_pages_are_drawn(self):
        tree = drawn(CONDITIONS, report=picture_run.pages_of(REPORT), races=picture_run.races_of(RACES)[0])
        self.assertEqual(sum(it.startswith("race of turns 3 and 5") for it in titles(tree)), 2)
        self.assertIn("00020000: 3 bytes changed in 2 turns by 2 threads, shared in 1 phase, 1 byte changed by two threads at once", titles(tree))

    def test_many_pages_are_a_map_of_few_rows(self):
        report = "".join(f"page={it:08x} turns=1 bytes=1 threads=1 shared={it % 3} clashes=0\n" for it in range(0x20000000, 0x24000000, 0x10000))
        tree = drawn(ONE_TURN, report=picture_run.pages_of(report))
        self.assertEqual(sum(" bytes changed in " in it or " byte changed in " in it for it in titles(tree)), 1024)
        self.assertLess(float(tree.get("height")), 700)

    def test_a_long_run_is_drawn_in_columns(self):
        with mock.patch.object(picture_svg, "TURNS", 5):
            found = titles(drawn(CONDITIONS))
        self.assertFalse([it for it in found if it.startswith("turn ")])
        self.assertIn("phase 6, thread 1", found)
        self.assertIn("phase 6: 3 threads were ready", found)

    def test_a_picture_that_stands_alone_hides_nothing(self):
        text = picture_svg.Picture(picture_run.Run(CONDITIONS), "name").drawn()
        self.assertEqual((text.count("hidden"), text.count("<script"), re.findall(r"(?:href|src|url)=?\W+http", text)), (0, 0, []))

    def test_names_are_escaped(self):
        self.assertIn("a &lt;b&gt; &amp; c", picture_svg.Picture(picture_run.Run(ONE_TURN), "a <b> & c").drawn())


class Tables(unittest.TestCase):
    def test_rows_are_those_that_were_put_in(self):
        rows = [picture_run.Phase(it, it * 2, it * 3, it % 5, 1) for it in range(10_000)]
        table = picture_tables.Table(picture_run.Phase, (picture_tables.SMALL, picture_tables.LARGE, picture_tables.LARGE, picture_tables.SMALL, picture_tables.SMALL))
        for it in rows:
            table.append(*it)
        self.assertEqual((list(table), len(table), table[7], table[-1]), (rows, 10_000, rows[7], rows[-1]))
        self.assertEqual(list(table.where(lambda it: it.threads == 2, lambda it: it._replace(pages=3))), [it._replace(pages=3) for it in rows if it.threads == 2])

    def test_texts_are_kept_once(self):
        texts = picture_tables.Texts()
        texts.extend(("a", "b", "a"))
        self.assertEqual((list(texts), texts[2], texts.every), (["a", "b", "a"], "a", ["a", "b"]))


class Chunks(unittest.TestCase):
    """The turns of a long run, for a page that is zoomed."""

    def chunks(self):
        with mock.patch.object(picture_chunks, "TURNS", 3):
            picture_of = picture_svg.Picture(picture_run.Run(CONDITIONS), "name", zooms=True)
            found = json.loads(re.search(r">(.*)</script>", picture_chunks.script(picture_of))[1])
        return found, [json.loads(zlib.decompress(base64.b64decode(it))) for it in found["chunks"]]

    def test_each_turn_is_in_one(self):
        found, chunks = self.chunks()
        turns = [it["turns"][at : at + 5] for it in chunks for at in range(0, len(it["turns"]), 5)]
        self.assertEqual(sorted(it[0] for it in turns), list(range(1, 15)))
        self.assertEqual((sum(found["counts"]), found["threads"], len(found["starts"])), (14, [0, 1, 2], len(chunks)))

    def test_each_slice_is_where_it_has_a_part(self):
        found, chunks = self.chunks()
        bounds = list(zip(found["starts"], [*found["starts"][1:], 10**9]))
        for it in picture_run.Run(CONDITIONS).slices:
            for (start, end), chunk in zip(bounds, chunks):
                rows = [chunk["slices"][at : at + picture_chunks.SLICE] for at in range(0, len(chunk["slices"]), picture_chunks.SLICE)]
                is_there = any(row[2:5] == [it.start, it.end, it.turn] for row in rows)
                if it.start < end and it.end > start:
                    self.assertTrue(is_there, it)


class ByTheProgram(unittest.TestCase):
    def test_a_segment_is_looked_at_within(self):
        turn = picture_run.Run(CONDITIONS).turns[0]
        self.assertEqual(picture_program.looks(turn._replace(ran=0)), [])
        self.assertEqual(picture_program.looks(turn._replace(ran=3)), [0, 1, 2])
        self.assertEqual(picture_program.looks(turn._replace(ran=800)), [50, 150, 250, 350, 450, 550, 650, 750])

    def test_the_function_that_is_seen_most_is_told(self):
        lines = {1: ("main", " at a.c:1"), 2: ("add", " at a.c:5"), 3: ("add", " at a.c:6"), 4: ("strcpy", "")}
        self.assertEqual(picture_program.most_of([1, 2, 3, 3], lines), "mostly in add at a.c:6: 3 of 4 looks")
        self.assertEqual(picture_program.most_of([4, 4, 1], lines), "mostly in strcpy: 2 of 3 looks")


class Marks(unittest.TestCase):
    def test_marks_keep_their_distance_at_each_zoom(self):
        places, marks = picture_marks.Places(), [it * it / 50 for it in range(200)]
        zooms = [(x, places.zoom(0, x, 5)) for x in marks]
        for zoom in picture_marks.ZOOMS:
            seen = [x for x, it in zooms if it is not None and it <= zoom]
            self.assertTrue(all((other - one) * zoom >= 5 for one, other in zip(seen, seen[1:])))
        self.assertEqual(zooms[0], (0, 1))

    def test_scales_have_round_steps(self):
        self.assertEqual([picture_marks.step(it, 12) for it in (1, 20, 137, 2404242)], [1, 2, 20, 500000])

    def test_numbers_for_readers(self):
        self.assertEqual([picture_marks.shown(it) for it in (1.0, 0.126, 3, -2.5)], ["1", "0.13", "3", "-2.5"])
        self.assertEqual((picture_marks.count(1, "turn"), picture_marks.count(2000, "turn")), ("1 turn", "2,000 turns"))


class Command(WithRoom):
    def setUp(self):
        super().setUp()
        self.write("run.timeline", CONDITIONS)

    def ran(self, *words):
        options = {"timeline": f"{self.room}/run.timeline", "report": None, "races": None, "phases": None, "name": None, "svg": False}
        options.update(program=None, options=None)
        options.update(dict(zip(words[::2], words[1::2])))
        with contextlib.redirect_stdout(io.StringIO()) as out:
            picture.run(type("Options", (), options))
        return out.getvalue()

    def test_a_page_has_the_four_numbers_in_words_and_nothing_from_elsewhere(self):
        self.write("report", REPORT)
        self.write("races", RACES)
        page = self.ran("report", f"{self.room}/report", "races", f"{self.room}/races")
        self.assertIn("takes the time of 137 instructions", page)
        self.assertIn("execute 155. So the program could keep 1.13 processors at work. Its threads wait 98 instructions for the token, thread 1", page)
        self.assertIn("left out=7", page)
        self.assertFalse(re.search(r"(?:src|href)=|@import|url\((?!#)", page))

    def test_a_page_has_the_command_of_a_turn_and_the_outcome(self):
        page = self.ran("options", "--shuffle 4 --input 'a b'")
        self.assertIn("data-words=\"guest/dthreads-gdb run.elf --shuffle 4 --input 'a b'\"", page)
        self.assertIn('data-turn="14"', page)
        self.assertIn("<b>trap: thread 0 at 00010014 in turn 14, cause 3, value 00000000</b>", page)
        self.assertNotIn('data-turn="', self.ran("svg", True))

    def test_a_long_run_has_its_turns_for_the_script(self):
        self.assertNotIn('id="turns"', self.ran())
        with mock.patch.object(picture_svg, "TURNS", 5):
            self.assertIn('id="turns"', self.ran())

    def test_the_picture_has_the_name_of_its_file(self):
        self.assertIn(">run</text>", self.ran("svg", True))
        self.assertIn(">other</text>", self.ran("svg", True, "name", "other"))

    def test_what_cannot_be_drawn_is_told_in_a_line(self):
        self.write("none", "[]")
        wrong = [("timeline", f"{self.room}/none"), ("timeline", f"{self.room}/nowhere"), ("phases", "a"), ("phases", "8-9")]
        for words in (*wrong, ("report", f"{self.room}/none")):
            with self.subTest(words), self.assertRaises(SystemExit) as told:
                self.ran(*words)
            self.assertTrue(str(told.exception).startswith("tools/dt picture: "))


class Installed(unittest.TestCase):
    def test_its_help_has_each_option(self):
        ran = subprocess.run([f"{TOP}/guest/dthreads-picture", "--help"], stdout=subprocess.PIPE, universal_newlines=True)
        parser = argparse.ArgumentParser(add_help=False)
        picture.arguments(parser)
        for it in parser._actions:
            self.assertIn(f"    {it.option_strings[0]}" if it.option_strings else it.metavar, ran.stdout)


class OfTheSample(unittest.TestCase):
    def test_the_picture_in_the_pages_is_as_it_must_be(self):
        self.assertEqual(sample_pictures.found(), [])
