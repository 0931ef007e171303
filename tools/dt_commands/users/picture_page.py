"""The page of a picture: one HTML file with nothing from elsewhere, which is complete without its script; the script zooms."""
import os
from collections import Counter
from xml.sax.saxutils import escape, quoteattr

from dt_commands import picture_chunks, picture_svg
from dt_commands.picture_legend import of_page, said
from dt_commands.picture_marks import FONT, count

# How many rows a table has at most.
ROWS = 40
# The buttons that move the picture: the key that does the same, the text, and what the button does.
BUTTONS = (
    ("ArrowLeft", "&larr;", "to the left (left arrow)"), ("ArrowRight", "&rarr;", "to the right (right arrow)"), ("-", "&minus;", "zooms out (-)"),
    ("+", "+", "zooms in (+, a double click, or the wheel with Ctrl or Shift)"), ("0", "all", "shows all (0)"),
)

READING = """<p>A row is a thread, and time runs to the right, in instructions, as if each thread had a processor of its own. The threads of a
phase begin together, each on its own copy of memory. A turn is a mark: there the thread's changes are merged, and its call is made. Turns
come in one fixed order, so a thread may wait for the token that the turn before it holds. The dark line below slices is the critical path:
no number of processors makes the run shorter. Point at anything to see what it is.</p>"""


def beside(name):
    """Returns the text of a file beside this one."""
    with open(os.path.join(os.path.dirname(__file__), name), encoding="utf-8") as it:
        return it.read()


def table(heads, rows):
    """Returns a table; its cells are texts."""
    head = "".join(f"<th>{escape(it)}</th>" for it in heads)
    body = "".join("<tr>" + "".join(f"<td>{escape(str(it))}</td>" for it in row) + "</tr>\n" for row in rows)
    return f"<table><tr>{head}</tr>\n{body}</table>\n"


def numbers(run):
    """Returns the four numbers, as tiles and in words."""
    drawn = "".join(f"<div><b>{number}</b><span>{caption}</span></div>" for number, caption in run.numbers())
    return f'<div class="tiles">{drawn}</div>\n<p>{in_words(run)}</p>\n'


def in_words(run):
    """Returns the four numbers in sentences."""
    most = max(run.threads, key=lambda it: it.token) if run.token else None
    waits = "No thread waits for the token." if not run.token else (
        f"Its threads wait {count(run.token, 'instruction')} for the token, thread {most.number} the longest: {most.token:,}.")
    return (
        f"With a processor for each thread, the run takes the time of {count(run.length, 'instruction')}: its critical path. "
        f"All threads together execute {run.instructions:,}. So the program could keep {run.processors} processors at work. {waits}"
    )


def end_of(run):
    """Returns how the run ended, and where its threads are then."""
    places = run.told.at_end if run.told else []
    rows = "".join(f"<li>{escape(it)}</li>\n" for it in places)
    return f"<p><b>{escape(run.outcome)}</b></p>\n" + (f"<ul>{rows}</ul>\n" if rows else "")


def threads(run):
    """Returns the table of the threads."""
    spent, turns, on_path = Counter(), Counter(), Counter()
    for kind, thread, start, end, turn in run.slices.values("kind", "thread", "start", "end", "turn"):
        spent[thread, kind] += end - start
        if kind in ("segment", "keeper") and turn in run.critical:
            on_path[thread] += end - start
    turns.update(run.turns.column("thread"))
    rows = []
    for it in run.threads:
        waits = (spent[it.number, kind] for kind in ("phase", "wait"))
        numbers_of = (turns[it.number], it.instructions, on_path[it.number], it.token, *waits)
        rows.append([f"thread {it.number}", *(f"{one:,}" for one in numbers_of)])
    heads = ["", "turns", "instructions", "on the critical path", "waits for the token", "waits for the phase", "waits in calls"]
    return "<h2>Threads</h2>\n" + table(heads, rows)


def races(found, others):
    """Returns the races in words, with the list's line."""
    if not found:
        return "<h2>Races</h2>\n<p>The list of races is empty.</p>\n"
    lines = "".join(f"<p>{escape(said(it))}.<br><code>{escape(it.line)}</code></p>\n" for it in found[:ROWS])
    more = [f"{len(found) - ROWS:,} more pairs of turns race"] if len(found) > ROWS else []
    return "<h2>Races</h2>\n" + lines + "".join(f"<p>{escape(it)}</p>\n" for it in more + others)


def pages(found):
    """Returns the pages that were shared most, in words."""
    first = sorted(found, key=lambda it: (-it.clashes, -it.shared, it.address))[:ROWS]
    head = f"the {len(first)} with the most clashes of {len(found):,}" if len(first) < len(found) else "by clashes"
    rows = "".join(f"<li>{escape(of_page(it))}</li>\n" for it in first)
    return f"<h2>Pages, {head}</h2>\n<ul>{rows}</ul>\n"


def page(run, name, report, list_of_races, others, words):
    """Returns the page of a run: with its report and its races, if they are not None, and the words of the command that debugs it."""
    picture = picture_svg.Picture(run, name, report, list_of_races or (), zooms=True, has_head=False)
    data = f'data-start="{run.start}" data-end="{run.end}" data-left="{picture_svg.LEFT}"'
    buttons = "".join(f'<button data-key="{key}" title="{told}">{text}</button>' for key, text, told in BUTTONS)
    command = f'<p class="command" data-words={quoteattr(words)} hidden>This turn in gdb: <code></code><button>copy</button></p>\n'
    parts = [
        f'<h1>{escape(name)}</h1>\n<p class="quiet">{run.said()}</p>\n', end_of(run), numbers(run),
        f'<div class="zoom">{buttons}</div>\n',
        "<figure style=\"margin:0;clear:both\">" + picture.drawn().replace("<svg ", f"<svg {data} ", 1) + "</figure>\n",
        command, READING, threads(run),
        races(list_of_races, others) if list_of_races is not None else "", pages(report) if report else "",
        "" if picture.is_detailed else picture_chunks.script(picture),
    ]
    head = f'<meta charset="utf-8"><meta name="viewport" content="width=device-width"><title>{escape(name)}: timeline</title>'
    style, script = beside("picture_page.css").replace("FONT", FONT), beside("picture_page.js")
    return f'<!doctype html>\n<html lang="en"><head>{head}<style>\n{style}</style></head>\n<body>\n{"".join(parts)}<script>\n{script}</script>\n</body></html>\n'
