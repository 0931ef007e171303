"""The turns of a long run, in chunks: a page draws those that are seen when it is zoomed in far enough.

The page has them as JSON, each chunk packed by zlib and as base64: a list of slices, with a number in KINDS, a row, start and end, turn and
a number in the chunk's texts; and a list of turns, with number, row, time, and the numbers of their name and text there.
"""
import base64
import bisect
import json
import zlib
from array import array

from dt_commands.picture_marks import COLOURS
from dt_commands.picture_run import KINDS, Slice

# How many turns a chunk has, and how many are drawn at most.
TURNS, DRAWN = 1000, 2000
# How many numbers a slice has in a chunk.
SLICE = 6


class Chunk:
    """The slices and turns of some time."""

    def __init__(self):
        self.slices, self.turns, self.texts = array("q"), array("q"), {}

    def number(self, text):
        return self.texts.setdefault(text, len(self.texts))

    def packed(self):
        told = json.dumps({"slices": self.slices.tolist(), "turns": self.turns.tolist(), "texts": list(self.texts)}, separators=(",", ":"))
        return base64.b64encode(zlib.compress(told.encode(), 3)).decode()


def chunks(picture):
    """Returns when each chunk begins, and the chunks."""
    run = picture.run
    times = run.turns.column("time")
    starts = [run.start] + sorted({times[at] for at in range(TURNS, len(times), TURNS)} - {run.start})
    found = [Chunk() for _ in starts]
    numbers = {it: at for at, it in enumerate(KINDS)}
    for kind, thread, start, end, turn, name in run.slices.values(*Slice._fields):
        at = max(0, bisect.bisect_right(starts, start) - 1)
        # (a long slice is in each chunk whose time it has a part of)
        while at < len(starts) and (starts[at] < end or starts[at] == start):
            it = found[at]
            it.slices.extend((numbers[kind], picture.row[thread], start, end, turn, it.number(name)))
            at += 1
    for number, thread, time, name, text in run.turns.values("number", "thread", "time", "name", "text"):
        chunk = found[max(0, bisect.bisect_right(starts, time) - 1)]
        chunk.turns.extend((number, picture.row[thread], time, chunk.number(name), chunk.number(text)))
    return starts, found


def script(picture):
    """Returns the element of the page that has the chunks, and what its script wants for them."""
    starts, found = chunks(picture)
    counts = [len(it.turns) // 5 for it in found]
    told = {
        "starts": starts, "counts": counts, "most": DRAWN, "kinds": KINDS, "colours": COLOURS, "bar": picture.bar,
        "threads": [it.number for it in picture.run.threads], "rows": [picture.y(it.number) for it in picture.run.threads],
        "chunks": [it.packed() for it in found],
    }
    return f'<script type="application/json" id="turns">{json.dumps(told, separators=(",", ":"))}</script>\n'
