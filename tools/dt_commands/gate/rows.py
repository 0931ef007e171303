"""Rows that the built program alone answers: command lines; runs, calls, replays, listings and races of guest programs; sessions of gdb.

DTHREADS names the program, or else ./dthreads.
"""
import tempfile

from dt_commands import command_rows, guest_runs, lanes, run_rows, session_rows


def arguments(parser):
    parser.add_argument("rows", nargs="*", metavar="WORDS", help="the rows whose names begin with these words (default: all)")
    parser.add_argument("--lanes", type=int, metavar="N", help=lanes.HELP)


def is_chosen(name, chosen):
    """Returns whether a name has the first words of one that is chosen; each has if none is."""
    return not chosen or any(f"{name} ".startswith(f"{it} ") for it in chosen)


def every(room):
    """Returns each row's name with a call that returns what of it isn't as wanted; the longest come first."""
    return [*session_rows.tasks(run_rows.kept_programs()[0]), *run_rows.tasks(), *command_rows.tasks(room)]


def test(options):
    """Runs the built program by the rows of its data: outputs, texts and statuses must be as expected."""
    tally = guest_runs.Tally()
    with tempfile.TemporaryDirectory(prefix="rows-") as room:
        tasks = [it for it in every(room) if is_chosen(it[0], options.rows)]

        def ended(name, texts):
            tally.tried += 1
            if texts:
                tally.fail(f"{name}: {'; '.join(texts)}")
            return []

        lanes.tasks_in_lanes(lanes.count(options.lanes), tasks, ended)
    return tally.status("rows", ": as expected")
