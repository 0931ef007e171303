"""How far a command is: the time so far, and a line on standard error in every ten seconds."""
import sys
import threading
import time

EVERY = 10


def minutes(seconds):
    """Returns a time as minutes and seconds, as 3:10."""
    return f"{int(seconds) // 60}:{int(seconds) % 60:02}"


class Progress:
    """Says in every ten seconds how many of some things are done, and which is at work."""

    def __init__(self, what, total=None):
        self.what, self.total, self.done, self.at, self.begun = what, total, 0, "", time.time()
        self.over = threading.Event()

    def __enter__(self):
        threading.Thread(target=self.tick, daemon=True).start()
        return self

    def __exit__(self, *_):
        self.over.set()

    def tick(self):
        while not self.over.wait(EVERY):
            print(self.line(), file=sys.stderr, flush=True)

    def line(self):
        count = f"{self.done} of {self.total} {self.what}" if self.total else f"{self.done} {self.what}"
        at = f", at work on {self.at}" if self.at else ""
        return f"{count}{at} ({minutes(time.time() - self.begun)} so far)"

    def each(self, things, name=str):
        """Gives one thing after the other, and counts each as done when the next one is asked for."""
        for it in things:
            self.at = name(it)
            yield it
            self.done += 1
