"""Tests of what is told of a timeline that isn't that of its run's trace and report."""
import copy
import json
import unittest

from dt_commands import timeline_files, trace_event_rules, written_guests
from rooms import data

TRACE, TIMELINE = data("conditions.trace"), data("conditions.timeline")
REPORT = "page=00020000 turns=2 bytes=3 threads=2 shared=0 clashes=0\n"
# Texts of the timeline, each with another one in its place.
CHANGES = [
    ('],"otherData"', ',"otherData"'), ('{"traceEvents":[', '{"traceEvents":'), ('"dur":10,', '"dur":11,'), ('"pages":1}},', '"pages":"1"}},'),
    ('"pages":1', '"pages":2'), ('"pages":1', '"page":1'), ('"args":{"turn":2,"text":', '"args":{"turn":3,"text":'), ('"text":"thread_exit', '"text":"exit'),
    ('"instructions":155', '"instructions":154'), ('"turns":14', '"turns":13'), ('"phase":4', '"phase":5'), ('"changed":2', '"changed":1'),
    ('"ph":"i","s":"t","pid":1,"tid":1', '"ph":"i","s":"t","pid":1,"tid":2'), ('"cat":"turn"', '"cat":"turns"'),
]


class Faults(unittest.TestCase):
    def faults(self, timeline, trace=TRACE):
        return list(timeline_files.faults(trace, REPORT, timeline))

    def test_that_of_the_trace_and_the_report_is_well(self):
        self.assertEqual(self.faults(TIMELINE), [])

    def test_each_change_is_told(self):
        for old, new in CHANGES:
            with self.subTest(old, new=new):
                self.assertIn(old, TIMELINE)
                self.assertNotEqual(self.faults(TIMELINE.replace(old, new, 1)), [])

    def test_a_turn_that_is_left_out_is_told(self):
        shorter = "".join(TRACE.splitlines(True)[:-1])
        self.assertIn("14 turns of 13", self.faults(TIMELINE, shorter)[0])


def changed(at, **fields):
    """Returns what changes fields of the event at a place; a field that is None is taken away."""

    def change(events):
        events[at].update(fields)
        events[at] = {key: it for key, it in events[at].items() if it is not None}

    return change


def first(events, **fields):
    """Returns where the first event with these fields is."""
    return next(at for at, it in enumerate(events) if all(it.get(key) == value for key, value in fields.items()))


class Rules(unittest.TestCase):
    """The rules of the Trace Event Format: each is broken by a change."""

    def broken(self, change, first_track=0):
        whole = copy.deepcopy(json.loads(TIMELINE))
        change(whole["traceEvents"])
        return trace_event_rules.broken(whole, first_track)

    def test_a_timeline_keeps_all(self):
        self.assertEqual(self.broken(lambda events: None), [])
        self.assertIn("tid is 0", self.broken(lambda events: None, 1)[0])

    def test_events_have_their_fields(self):
        for fields in ({"ph": "Q"}, {"name": None}, {"tid": None}, {"ts": -1}, {"dur": None}, {"dur": "3"}, {"tid": True}):
            self.assertEqual(len(self.broken(changed(1, **fields))), 1, fields)
        events = json.loads(TIMELINE)["traceEvents"]
        for kind, fields in (("i", {"s": "x"}), ("C", {"args": {"threads": "1"}}), ("M", {"args": {}}), ("f", {"bp": None})):
            self.assertEqual(len(self.broken(changed(first(events, ph=kind), **fields))), 1, kind)

    def test_slices_of_a_track_do_not_overlap(self):
        self.assertIn("begins at", self.broken(changed(1, dur=1000))[0])

    def test_flows_have_two_ends_that_are_bound(self):
        events = json.loads(TIMELINE)["traceEvents"]
        start, end = first(events, ph="s"), first(events, ph="f")
        self.assertIn("its ends are", self.broken(lambda it: it.pop(end))[0])
        self.assertIn("its ends are", self.broken(lambda it: it.append(it[start]))[0])
        self.assertIn("it ends before", self.broken(changed(start, ts=10_000))[0])
        self.assertIn("no slice at", self.broken(changed(end, ts=10_000))[0])

    def test_begins_and_ends_are_pairs(self):
        for kind, told in (("B", "begins without an end"), ("E", "an end without a begin")):
            self.assertIn(told, self.broken(lambda it, kind=kind: it.append({"ph": kind, "pid": 1, "tid": 1, "ts": 1, "name": "n"}))[0])

    def test_each_track_has_one_name(self):
        self.assertIn("has no name", self.broken(lambda it: it.pop(0))[0])
        self.assertIn("has 2 names", self.broken(lambda it: it.append(it[0]))[0])

    def test_what_is_no_timeline_is_told(self):
        for it in ([], {}, {"traceEvents": {}}):
            self.assertEqual(len(trace_event_rules.broken(it)), 1)


class Guests(unittest.TestCase):
    def test_the_samples_are_made_of_their_texts(self):
        for name in written_guests.names():
            sample = written_guests.contents(f"{written_guests.DATA}/{name}.elf")
            with self.subTest(name):
                self.assertIn(sample, (None, written_guests.elf(name)))

    def test_runs_have_their_options_and_their_input(self):
        first, bound, quantum = written_guests.runs("race")[:3]
        self.assertEqual((first.words, bound.words, quantum.words), ([], ["--bound", "3"], ["--quantum", "2"]))
        self.assertEqual(written_guests.runs("echo")[0].given, b"ab")
