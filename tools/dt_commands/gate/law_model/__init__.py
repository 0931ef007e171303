"""Runs of guest programs by the words of docs/GUEST.md and docs/LAW.md alone: a second implementation, for short runs.

It shares nothing with the program's sources and definitions. `instructions` has the 48 instructions, `memory` files and copies, `calls` the
call table, `runs` phases and turns, and `shown` the texts of a run. What a number draws is in `dt_commands.shuffles`.
"""
