"""Tries many cases of one kind, by hand and for minutes: refused memory, changed definitions, operands of floating point.

Without a part it does all three, each as if it were called without further words.
"""
import argparse

from dt_commands import sweep_changes, sweep_floats, sweep_memory

PARTS = {"memory": "sweep_memory", "changes": "sweep_changes", "floats": "sweep_floats"}


def run(options):
    return max(it.sweep(defaults(it)) for it in (sweep_memory, sweep_changes, sweep_floats))


def defaults(part):
    """Returns the options of a part that is called without words."""
    parser = argparse.ArgumentParser()
    part.arguments(parser)
    return parser.parse_args([])
