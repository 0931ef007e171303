"""What `tools/dt mutants` prints while it goes on."""
import resource
import threading
import time

from dt_commands.progress import minutes


class Progress:
    """Counts the rounds, and prints a line as each ends. Several threads call it."""

    def __init__(self):
        self.total, self.done, self.alone, self.started = 0, 0, 0, time.time()
        self.lock = threading.Lock()

    def plan(self, count):
        self.total += count

    def say(self, text):
        with self.lock:
            print(text, flush=True)

    def ended(self, crate, edits, what, again, took):
        """Tells what came of a round that ended, and counts those that it makes needed."""
        with self.lock:
            self.done, self.total, self.alone = self.done + 1, self.total + len(again), self.alone + (len(edits) == 1)
            more = f", {sum(map(len, again))} to try again" if again else ""
            print(f"{self.done} of {self.total} rounds: {crate}, {what}{more}, {took:.0f} s ({self.so_far()} so far)", flush=True)

    def so_far(self):
        return minutes(time.time() - self.started)


def processor_seconds():
    """Returns the processor seconds of all commands that this process has waited for."""
    used = resource.getrusage(resource.RUSAGE_CHILDREN)
    return used.ru_utime + used.ru_stime
