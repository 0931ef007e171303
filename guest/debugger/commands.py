"""Commands of gdb for a run of `dthreads debug`: dthreads, races, race, origin, diff, ends and tls, and the names of threads.

guest/dthreads-gdb loads this file; any other gdb does by `source`, and has the commands of dthreads.gdb by it, too. What a command has to
look at elsewhere in the run it looks at in a second `dthreads debug` of the same words, so gdb stays where it is.
"""
import os
import sys

import gdb

HERE = os.path.dirname(os.path.realpath(os.path.expanduser(__file__)))
# (the kit's folder may be one that others look at)
sys.dont_write_bytecode = True
sys.path.insert(0, HERE)

from connection import Dthreads
from diff import Diff
from origin import Origin
from races import Race, Races
from session import end_session
from threads import Ends, Tls, hook_back, name_threads, note_stop

gdb.execute(f"source {os.path.dirname(HERE)}/dthreads.gdb")
for command in (Dthreads, Races, Race, Origin, Diff, Ends, Tls):
    command(command.__name__.lower())
hook_back()
gdb.events.exited.connect(end_session)
gdb.events.stop.connect(note_stop)
gdb.events.before_prompt.connect(name_threads)
