"""What a picture shows of a run: threads, slices, turns, flows and phases of a timeline, pages of a report, and races of a list."""
import json
import re
from collections import namedtuple

from dt_commands.picture_marks import count
from dt_commands.picture_tables import LARGE, SMALL, TEXT, Table

# What a thread does from one time to another: a kind of KINDS, the turn it leads to or comes from, and the name of what it waits for.
Slice = namedtuple("Slice", "kind thread start end turn name")
KINDS = ("segment", "keeper", "token", "phase", "wait")
# A turn: `begin` is when its segment begins, `ran` its instructions, and `time` when its place in the order has come.
Turn = namedtuple("Turn", "number phase thread begin ran time name text changed pages")
# A thread's beginning or the end of its wait, with the turn that led to it, by its place and that turn's.
Flow = namedtuple("Flow", "name thread start to_thread end turn")
Phase = namedtuple("Phase", "number start end threads pages")
Thread = namedtuple("Thread", "number instructions token")
Page = namedtuple("Page", "address turns bytes threads shared clashes")
# Races of two turns: their numbers, how many lines of the list they have, and the first of these, as it is.
Race = namedtuple("Race", "turns count line")

# (a line of source, which guest/dthreads-lines adds, may have blanks in its file's name)
RACE = re.compile(
    r"race address=\S+ bytes=\d (?:atomic-)?(?:load|store) thread=\d+ turn=(\d+)(?:\+\d+)? \S+(?: at=\S.*?)? "
    r"(?:atomic-)?(?:load|store) thread=\d+ turn=(\d+)(?:\+\d+)? .*")
# The line with which a file's events begin, and how many bytes of lines are read together.
FIRST, TOGETHER = '{"traceEvents":[', 1 << 20


def batches_of(lines):
    """Yields the events of a timeline, whose file has one a line, many together; and at last what is behind them."""
    head, end = next(lines, ""), ""
    if head.rstrip("\n") != FIRST:
        whole = json.loads(head + "".join(lines))
        yield whole["traceEvents"]
        yield whole["otherData"]
        return
    while not end:
        some, size = [], 0
        for it in lines:
            if it.startswith("]"):
                end = it
                break
            some.append(it)
            size += len(it)
            if size > TOGETHER:
                break
        if not some and not end:
            raise ValueError("no end")
        yield json.loads(f"[{''.join(some).rstrip().rstrip(',')}]")
    yield json.loads(f"{{{end.partition(',')[2]}{''.join(lines)}")["otherData"]


class Run:
    """A run, as its timeline tells it."""

    def __init__(self, lines):
        lines = iter(lines.splitlines(True)) if isinstance(lines, str) else lines
        self.turns = Table(Turn, (SMALL, SMALL, SMALL, LARGE, LARGE, LARGE, TEXT, TEXT, SMALL, SMALL))
        self.slices, self.flows = Table(Slice, (TEXT, SMALL, LARGE, LARGE, SMALL, TEXT)), Table(Flow, (TEXT, SMALL, LARGE, SMALL, LARGE, SMALL))
        self.phases, self.number, self.starts = Table(Phase, (SMALL, LARGE, LARGE, SMALL, SMALL)), {}, {}
        self.segment, self.keeper = None, None
        self.other = self.read(batches_of(lines))
        self.length, self.instructions = self.other["critical_path"], self.other["instructions"]
        self.processors = f"{self.other['processors']:.2f}"
        self.threads = [Thread(*it.values()) for it in self.other["threads"]]
        self.first = self.turns[0].number if self.turns else 1
        self.critical = Critical(self.turns)
        self.outcome, self.told = outcome_of(self), None

    def read(self, batches):
        """Takes the events one by one: a turn's segment and waits come before its instant. Returns what is behind them."""
        takes = {"X": self.add_slice, "i": self.add_turn, "s": self.add_start, "f": self.add_flow, "C": self.count, "M": self.add_name}
        for some in batches:
            if isinstance(some, dict):
                return some
            for it in some:
                takes[it["ph"]](it)

    def add_name(self, it):
        """Takes the name of a track: it has the thread's number."""
        self.number[it["tid"]] = int(it["args"]["name"].rpartition(" ")[2])

    def add_slice(self, it):
        name, start, thread = it["name"], it["ts"], self.number[it["tid"]]
        kind = name if name in ("segment", "token", "phase") else "wait"
        if name == "segment":
            self.segment = it
            # (a thread that kept the token after the turn before has another one in the same phase)
            kind = "keeper" if self.keeper == (thread, it["args"]["phase"]) else kind
        self.slices.append(kind, thread, start, start + it["dur"], it["args"]["turn"], name)

    def add_turn(self, it):
        told, segment, thread, time = it["args"], self.segment, self.number[it["tid"]], it["ts"]
        begin, ran, changed, pages = time, 0, 0, 0
        if segment:
            begin, ran, changed, pages = segment["ts"], segment["dur"], segment["args"]["changed"], segment["args"]["pages"]
        phase = self.phases.count + 1
        self.keeper, self.segment = (thread, phase), None
        self.turns.append(told["turn"], phase, thread, begin, ran, time, it["name"], told["text"], changed, pages)

    def add_start(self, it):
        self.starts[it["id"]] = it

    def add_flow(self, it):
        start = self.starts.pop(it["id"])
        self.flows.append(it["name"], self.number[start["tid"]], start["ts"], self.number[it["tid"]], it["ts"], it["id"])

    def count(self, it):
        """Takes a counter: two of them end a phase."""
        if it["name"] == "ready threads":
            self.ready = (it["ts"], it["args"]["threads"])
        else:
            self.phases.append(self.phases.count + 1, self.ready[0], it["ts"], self.ready[1], it["args"]["pages"])

    def turn(self, number):
        """Returns the turn of a number, None if it isn't drawn."""
        at = number - self.first
        return self.turns[at] if 0 <= at < len(self.turns) else None

    def within(self, first, last):
        """Keeps the phases from the first to the last of these alone."""
        self.phases = self.phases.where(lambda it: first <= it.number <= last)
        if not self.phases:
            raise SystemExit(f"tools/dt picture: the run has no phase from {first} to {last}")
        self.turns = self.turns.where(lambda it: first <= it.phase <= last)
        self.first = self.turns[0].number if self.turns else 1
        start, end = self.start, self.end
        cut = lambda it: it._replace(start=max(it.start, start), end=min(it.end, end))
        self.slices = self.slices.where(lambda it: it.end > start and it.start < end, cut)
        self.flows = self.flows.where(lambda it: start <= it.start and it.end <= end)
        seen = {*self.slices.column("thread"), *self.turns.column("thread")}
        self.threads = [it for it in self.threads if it.number in seen]

    @property
    def token(self):
        return sum(it.token for it in self.threads)

    def numbers(self):
        """Returns the four numbers of the run, each with what it is."""
        return [
            (f"{self.length:,}", "length of the critical path"), (f"{self.instructions:,}", "instructions of all threads"),
            (self.processors, "processors it could use"), (f"{self.token:,}", "spent waiting for the token"),
        ]

    def said(self):
        """Returns in words how large the run is, and which part of it is kept."""
        other = self.other
        whole = f"{count(other['turns'], 'turn')} in {count(other['phases'], 'phase')} by {count(len(other['threads']), 'thread')}"
        is_whole = len(self.phases) == other["phases"]
        return whole if is_whole else f"phases {self.phases[0].number} to {self.phases[-1].number} of {whole}"

    @property
    def start(self):
        return self.phases[0].start if self.phases else 0

    @property
    def end(self):
        return self.phases[-1].end if self.phases else 0


class Critical:
    """The numbers of the turns whose segments make up the critical path: from the last turn back, each time from the turn that a turn had to
    wait for. Their instructions sum up to its length."""

    def __init__(self, turns):
        self.first, self.flags = turns[0].number if turns else 1, bytearray(len(turns))
        begin, ran, time = (turns.column(it) for it in ("begin", "ran", "time"))
        at = len(turns) - 1
        while at >= 0:
            since = time[at]
            if since == begin[at] + ran[at]:
                self.flags[at] = 1
                since = begin[at]
            # (of the turns before it, the nearest one is the one that is waited for, if it was at that time)
            at -= 1
            while at >= 0 and time[at] > since:
                at -= 1

    def __contains__(self, number):
        return 0 <= number - self.first < len(self.flags) and self.flags[number - self.first] == 1

    def __eq__(self, numbers):
        return {at + self.first for at, it in enumerate(self.flags) if it} == set(numbers)


def outcome_of(run):
    """Returns in a sentence how a run ended, by its last turn, and by what its threads wait for at its end."""
    if not run.turns:
        return "the run ends before its first turn"
    last = run.turns[-1]
    if last.name == "exit":
        return f"exit {int(last.text.split()[1], 16)}: thread {last.thread} ends the run in turn {last.number}"
    if last.name == "trap":
        _, cause, pc, value = last.text.split()
        return f"trap: thread {last.thread} at {pc} in turn {last.number}, cause {cause}, value {value}"
    final, at = {}, len(run.turns)
    while at > 0 and len(final) < len(run.threads):
        at -= 1
        final.setdefault(run.turns.column("thread")[at], run.turns[at])
    left = [it for _, it in sorted(final.items()) if it.name != "thread_exit"]
    if not left:
        return f"finished: the last thread ends in turn {last.number}"
    waits = ", ".join(f"thread {it.thread} waits in {it.name} since turn {it.number}" for it in left)
    return f"deadlock: {waits}, and no thread can run"


def pages_of(report):
    """Returns the pages of a report."""
    found = []
    for line in report.splitlines():
        told = dict(part.split("=") for part in line.split())
        found.append(Page(int(told["page"], 16), *(int(told[it]) for it in Page._fields[1:])))
    return found


def races_of(text):
    """Returns the races of a list, and the lines that are none."""
    found, others = {}, []
    for line in text.splitlines():
        told = RACE.fullmatch(line)
        if told:
            found.setdefault((int(told[1]), int(told[2])), []).append(line)
        else:
            others.append(line)
    return [Race(turns, len(lines), lines[0]) for turns, lines in found.items()], others
