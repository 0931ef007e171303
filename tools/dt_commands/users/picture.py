"""Draws a timeline as a page or as a picture.

The page, one HTML file with nothing from elsewhere, goes to standard output: threads as rows, instructions as time, turns, waits, an arrow
for each thing that one thread did for another, and the critical path, with its numbers in words. A run with more than 2,000 turns is drawn
in columns, each of some phases; --phases draws a part of it turn by turn.
"""
import gc
import os
import shlex
import sys

from dt_commands import picture_page, picture_program, picture_run, picture_svg

# What the user called: this command of the tools, or the installed program of this name.
INSTALLED = "dthreads-picture"
CALLED = INSTALLED if os.path.basename(sys.argv[0]) == INSTALLED else "tools/dt picture"


def arguments(parser):
    parser.add_argument("timeline", metavar="TIMELINE", help="what `dthreads run --timeline` wrote")
    parser.add_argument("--report", metavar="FILE", help="the run's report: also draws the pages that turns changed")
    parser.add_argument("--races", "--check", metavar="FILE", help="the run's list of races: also marks these")
    parser.add_argument("--program", metavar="FILE", help="the program: also tells functions, lines and what threads wait for, by gdb")
    parser.add_argument("--options", metavar="WORDS", help="the run's options, in one word: '--input in.txt --shuffle 4'")
    parser.add_argument("--phases", metavar="A-B", help="the phases from A to B alone, both included")
    parser.add_argument("--name", metavar="NAME", help="the picture's name (default: that of the timeline's file)")
    parser.add_argument("--svg", action="store_true", help="the picture alone, as SVG")


def read(file):
    try:
        with open(file, encoding="utf-8") as it:
            return it.read()
    except OSError as why:
        raise SystemExit(f"{CALLED}: cannot read {file}: {why.strerror}") from None


def told(file, what, of):
    """Returns what a file tells; `of` takes its lines."""
    try:
        with open(file, encoding="utf-8") as lines:
            return of(lines)
    except OSError as why:
        raise SystemExit(f"{CALLED}: cannot read {file}: {why.strerror}") from None
    except (ValueError, KeyError, TypeError, AttributeError, IndexError):
        raise SystemExit(f"{CALLED}: {file} is no {what}") from None


def run_of(options):
    """Reads the timeline."""
    run = told(options.timeline, "timeline", picture_run.Run)
    if options.phases:
        first, _, last = options.phases.partition("-")
        if not (first.isdecimal() and (last or first).isdecimal()):
            raise SystemExit(f"{CALLED}: --phases takes two numbers, as in 10-20, and not {options.phases}")
        run.within(int(first), int(last or first))
    if options.program:
        run.told = picture_program.Told(run, options.program, shlex.split(options.options or ""))
    return run


def command_of(options, name):
    """Returns the command that debugs the run, but for the turn."""
    gdb = "dthreads-gdb" if CALLED == INSTALLED else "guest/dthreads-gdb"
    return shlex.join([gdb, options.program or f"{name}.elf", *shlex.split(options.options or "")])


def drawn(options):
    """Returns the text of the page, or of the picture alone."""
    run, name = run_of(options), options.name or os.path.basename(options.timeline).rpartition(".")[0] or os.path.basename(options.timeline)
    report = told(options.report, "report", lambda lines: picture_run.pages_of(lines.read())) if options.report else None
    races, others = picture_run.races_of(read(options.races)) if options.races else (None, [])
    if options.svg:
        return picture_svg.Picture(run, name, report, races or ()).drawn()
    return picture_page.page(run, name, report, races, others, command_of(options, name))


def run(options):
    # (a run's objects refer to nothing in circles)
    gc.disable()
    sys.stdout.write(drawn(options))
    return 0
