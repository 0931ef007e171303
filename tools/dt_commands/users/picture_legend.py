"""What is below the plot of a picture: the pages of a report as a map, the races in words, and what the colours mean."""
from collections import defaultdict

from dt_commands.picture_marks import COLOURS, PAGES, count, element, shade, title, width_of, words

LEFT = 112
# A row of the map has so many cells, and there are so many rows at most.
CELLS, ROWS, SIZE = 64, 16, 13
RACES = 4
# So few pages are told in words.
FEW = 4
SWATCHES = (
    ("segment", "executes a segment"), ("keeper", "executes, keeping the token"), ("token", "waits for the token"),
    ("phase", "waits for the phase's end"), ("wait", "waits in a call"),
)
HATCHED = ("token", "phase", "wait")


def drawn(picture, y):
    """Returns what is drawn from a height on, and the height at which the picture ends."""
    text = ""
    if picture.pages:
        part, y = page_lines(picture.pages, y + 8) if len(picture.pages) <= FEW else page_map(picture.pages, y + 12)
        text += part
    if picture.races:
        part, y = race_lines(picture, y + 14)
        text += part
    part, y = swatches(picture, y + 14)
    return text + part, y + 12


def race_lines(picture, y):
    """Returns a line for each of the first races."""
    text = ""
    for race in picture.races[:RACES]:
        text += diamond(LEFT + 6, y - 4) + words(said(race), LEFT + 20, y)
        y += 17
    if len(picture.races) > RACES:
        text += words(f"and races of {len(picture.races) - RACES:,} more pairs of turns", LEFT + 20, y, "s")
        y += 17
    return text, y - 10


def said(race):
    """Returns a race in words."""
    told = dict(part.split("=", 1) for part in race.line.split() if "=" in part)
    kinds = [it for it in race.line.split() if it in ("load", "store")]
    where = f"{told['object'].rpartition('+')[0]} ({told['address']})" if "object" in told else told["address"]
    does = [{"load": "loads it", "store": "stores to it"}[it] for it in kinds]
    more = f", and {count(race.count - 1, 'more line')} of the same turns" if race.count > 1 else ""
    return f"race at {where}: turn {race.turns[0]} {does[0]}, turn {race.turns[1]} {does[1]}, and nothing orders the two{more}"


def diamond(x, y):
    return element("path", d=f"M{x} {y - 6}l6 6l-6 6l-6 -6z", fill=COLOURS["race"])


def swatches(picture, y):
    """Returns what the colours and marks of the picture mean, as many in a line as there is room for."""
    kinds = {it.kind for it in picture.run.slices if it.end > it.start}
    if picture.is_detailed:
        items = [(square(f"url(#{it})" if it in HATCHED else COLOURS[it]), text) for it, text in SWATCHES if it in kinds]
    else:
        items = [(square(COLOURS[it]), text) for it, text in SWATCHES if it in kinds and it not in ("phase", "wait")]
    if not picture.is_detailed:
        items.append((square("#e9ebef"), "waits otherwise"))
    items.append((lambda x, y: element("rect", x=x, y=y - 3, width=18, height=3, fill=COLOURS["critical"]), "on the critical path"))
    if picture.is_detailed:
        items.append((mark_of_turn, "a turn, with its number"))
    if picture.is_detailed and picture.run.flows:
        items.append((arrow, "creates, wakes or completes"))
    text, x = "", LEFT
    for mark, caption in items:
        wide = 26 + width_of(caption, 11) + 16
        if x + wide > picture.width:
            x, y = LEFT, y + 18
        text += mark(x, y) + words(caption, x + 26, y)
        x += wide
    return text, y


def mark_of_turn(x, y):
    return element("line", x1=x + 9, x2=x + 9, y1=y - 11, y2=y + 2, stroke="#111827", stroke_width=1.4)


def square(fill):
    return lambda x, y: element("rect", x=x, y=y - 10, width=18, height=12, fill=fill)


def arrow(x, y):
    line = element("path", d=f"M{x} {y - 4}h13", stroke=COLOURS["flow"], stroke_width=1.4, fill="none")
    return line + element("path", d=f"M{x + 19} {y - 4}l-7 -3.6v7.2z", fill=COLOURS["flow"])


def page_lines(pages, y):
    """Returns a line for each of a few pages."""
    text, most = "", max(it.shared for it in pages)
    for at, it in enumerate(pages):
        text += "" if at else words("pages", LEFT - 12, y + 11, "s r")
        text += page_cell([it], LEFT, y + 1, most) + words(of_page(it), LEFT + 20, y + 11)
        y += 17
    return text + "\n", y - 2


def of_page(it):
    """Returns a page in words."""
    shared = f", shared in {count(it.shared, 'phase')}" if it.shared else ", never shared in a phase"
    clashes = f", {count(it.clashes, 'byte')} changed by two threads at once" if it.clashes else ""
    return f"{it.address:08x}: {count(it.bytes, 'byte')} changed in {count(it.turns, 'turn')} by {count(it.threads, 'thread')}{shared}{clashes}"


def page_map(pages, y):
    """Returns the pages that turns changed as a map, a cell for each, or for some if there are too many rows."""
    each = 1
    while len({it.address // 4096 // each // CELLS for it in pages}) > ROWS:
        each *= 2
    cells, rows = defaultdict(list), defaultdict(set)
    for it in pages:
        at = it.address // 4096 // each
        cells[at].append(it)
        rows[at // CELLS].add(at)
    most = max(it.shared for it in pages)
    text = words("pages", LEFT - 12, y + 11, "s r") + scale(most, y, each)
    y += 22
    for row in sorted(rows):
        text += words(f"{row * CELLS * each * 4096:08x}", LEFT - 12, y + 10, "s r")
        text += element("rect", x=LEFT, y=y, width=CELLS * SIZE, height=SIZE - 1, fill="#f4f5f7")
        for at in sorted(rows[row]):
            text += page_cell(cells[at], LEFT + (at % CELLS) * SIZE, y, most)
        y += SIZE + 3
    return text + "\n", y


def page_cell(pages, x, y, most):
    """Returns the cell of some pages: its shade says in how many phases at least two threads changed it, a dot that they changed one byte."""
    shared, clashes = max(it.shared for it in pages), sum(it.clashes for it in pages)
    lines = [of_page(it) for it in pages[:8]]
    return element("g", title(*lines) + square_of(x, y, shared, most) + (dot(x + SIZE / 2 - 0.5, y + SIZE / 2 - 0.5) if clashes else ""))


def square_of(x, y, shared, most):
    fill = shade(PAGES, shared, most)
    return element("rect", x=x, y=y, width=SIZE - 1, height=SIZE - 1, fill=fill, stroke="#451c82", stroke_width=0.5)


def dot(x, y):
    return element("circle", cx=x, cy=y, r=2.4, fill="#fff", stroke="#111827", stroke_width=1)


def scale(most, y, each):
    """Returns what the shades of the map mean."""
    kib = f"a cell is {count(each, 'page')} of 4 KiB"
    steps = sorted({0, 1, most}) if most else [0]
    x, text = LEFT, ""
    for value in steps:
        caption = {0: "changed, by one thread a phase"}.get(value, f"shared in {count(value, 'phase')}")
        text += square_of(x, y + 1, value, most) + words(caption, x + 18, y + 11, "s")
        x += 18 + width_of(caption, 11) + 16
    return text + dot(x + 6, y + 7) + words(f"threads changed the same byte; {kib}", x + 18, y + 11, "s")
