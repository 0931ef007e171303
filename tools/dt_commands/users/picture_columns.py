"""A long run, column by column: each column is one phase or some, and shows how its time is used by each thread."""
import bisect
from collections import defaultdict, namedtuple

from dt_commands.picture_marks import COLOURS, Places, count, element, title, width_of, words

# How many cells there are at most, and how wide a column is at least.
CELLS, LEAST = 6000, 3
# What a cell shows from below, with its words.
SHOWN = (("keeper", "executes, keeping the token"), ("segment", "executes"), ("token", "waits for the token"))
Column = namedtuple("Column", "start end phases")


def columns(picture):
    """Returns the columns, each of phases that follow each other."""
    from_to = picture.run.end - picture.run.start
    least = max(LEAST / picture.scale, from_to * len(picture.run.threads) / CELLS)
    found, group = [], []
    for it in picture.run.phases:
        group.append(it)
        if it.end - group[0].start >= least:
            found.append(Column(group[0].start, it.end, group))
            group = []
    return found + ([Column(group[0].start, group[-1].end, group)] if group else [])


def use(picture, every):
    """Returns for each thread and column how many instructions of its time go into each kind of slice, and into the critical path."""
    starts, found = [it.start for it in every], defaultdict(lambda: defaultdict(int))
    for kind, thread, start, end, turn in picture.run.slices.values("kind", "thread", "start", "end", "turn"):
        on_path = kind in ("segment", "keeper") and turn in picture.run.critical
        at = max(0, bisect.bisect(starts, start) - 1)
        while at < len(every) and every[at].start < end:
            part = min(end, every[at].end) - max(start, every[at].start)
            if part > 0:
                cell_of = found[thread, at]
                cell_of[kind] += part
                cell_of["critical"] += part if on_path else 0
            at += 1
    return found


def drawn(picture):
    """Returns the columns of each thread, and the strips below them."""
    every = columns(picture)
    cells = "".join(cell(picture, thread, every[at], kinds) for (thread, at), kinds in use(picture, every).items())
    strips = [(it.start, it.end, named(it), max(one.threads for one in it.phases), sum(one.pages for one in it.phases)) for it in every]
    return numbers(picture, every) + cells + "\n" + picture.strip_of(strips)


def numbers(picture, every):
    """Returns the numbers of the phases with which columns begin, if there is room for them."""
    places, found = Places(), ""
    for it in every:
        x, number = picture.x(it.start), it.phases[0].number
        wide = width_of(number, 11) + 12
        mark = element("line", y1=picture.top - 20, y2=picture.top - 6, stroke="#d3d8df") + words(number, 4, picture.top - 9, "s")
        if picture.x(picture.run.end) - x >= wide:
            found += picture.upright(x, mark, places.zoom(0, x, max(60, wide)))
    return found + "\n"


def named(column):
    first, last = column.phases[0].number, column.phases[-1].number
    return f"phase {first}" if first == last else f"phases {first} to {last}"


def cell(picture, thread, column, kinds):
    """Returns a cell: its parts one above the other, and a line below it if the thread has most of the critical path there."""
    x, width, span = picture.x(column.start), (column.end - column.start) * picture.scale, max(1, column.end - column.start)
    y, parts = picture.y(thread) + picture.bar, ""
    for kind, _ in SHOWN:
        height = picture.bar * kinds[kind] / span
        y -= height
        if height:
            parts += element("rect", x=x, y=y, width=width, height=height, fill=COLOURS[kind])
    if 2 * kinds["critical"] >= span:
        parts += element("rect", x=x, y=picture.y(thread) + picture.bar, width=width, height=2.5, fill=COLOURS["critical"])
    # (the part above the others is transparent, so that the whole cell tells what it is)
    parts += element("rect", x=x, y=picture.y(thread), width=width, height=picture.bar, fill="#fff", fill_opacity=0)
    told = [f"{text}: {count(kinds[kind], 'instruction')}" for kind, text in SHOWN if kinds[kind]]
    waits = kinds["phase"] + kinds["wait"]
    told += [f"waits otherwise: {count(waits, 'instruction')}"] if waits else []
    return element("g", title(f"{named(column)}, thread {thread}", *told) + parts, shape_rendering="crispEdges")
