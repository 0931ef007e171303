"""Where guest threads are at other positions of a run, as another gdb tells it. It touches nothing but its own process."""
import os
import re
import shlex
import subprocess

HERE = os.path.dirname(os.path.realpath(__file__))
# What that gdb is told first.
SETTINGS = ("set confirm off", "set width 0", "set style enabled off", "set debuginfod enabled off", "set remotetimeout 30")
PLACE = re.compile(r"^place: (\S+) (.*)$", re.M)
# How many positions one gdb is asked for: they come by its environment.
TOGETHER = 4000


def places(gdb, file, command, wanted):
    """Returns pairs of positions and places. `command` is that of the run's `dthreads debug`; `wanted` has positions
    `turn:instructions:thread`, or `end` for all threads at the run's end."""
    settings = [word for it in SETTINGS for word in ("-iex", it)]
    target = ["-ex", f"target remote | {' '.join(map(shlex.quote, command))}", "-x", f"{HERE}/places.py"]
    how = {"stdin": subprocess.DEVNULL, "stdout": subprocess.PIPE, "stderr": subprocess.STDOUT, "start_new_session": True}
    found = []
    for first in range(0, len(wanted), TOGETHER):
        environment = {**os.environ, "DTHREADS_PLACES": " ".join(wanted[first : first + TOGETHER])}
        ran = subprocess.run([gdb, "-q", "-nx", "-batch", *settings, file, *target], env=environment, **how)
        found += PLACE.findall(ran.stdout.decode(errors="replace"))
    return found
