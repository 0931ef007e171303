"""What dthreads-exec --explore prints of an exploration. It is a module of its own since no other call needs what it imports."""
import re
import shlex

# How a run of an exploration ended, and the schedule of the command that shows it.
SHOWN = re.compile(r"(.*): dthreads run .* --shuffle (\d[\d:/-]*)")


def as_called(request, line):
    """Returns a line of an exploration, whose commands are those of dthreads-exec: the files of the run are gone at the end."""
    shown = SHOWN.match(line)
    if not shown:
        return line
    ended, shuffle = shown.groups()
    arguments = ["--"] + request.arguments if request.arguments else []
    words = ["dthreads-exec", request.program] + request.of_run + ["--shuffle", shuffle] + arguments
    return "%s: %s\n" % (ended, " ".join(map(shlex.quote, words)))
