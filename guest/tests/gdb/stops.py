"""For gdb: continues to the end of the run, and counts the stops at breakpoints and watchpoints on the way."""
import gdb

STOPS = []


def note(event):
    if isinstance(event, gdb.BreakpointEvent):
        STOPS.append(event)


def walk():
    """Continues until it stops for something else."""
    while True:
        count = len(STOPS)
        gdb.execute("continue", to_string=True)
        if len(STOPS) == count:
            return


gdb.execute("set suppress-cli-notifications on")
gdb.events.stop.connect(note)
walk()
print(f"{len(STOPS)} stops")
