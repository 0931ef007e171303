"""A run in `dthreads debug`, by the packets of gdb's remote protocol: what gdb itself would ask, without gdb's own time."""
import os
import re
import subprocess
import time

from dt_commands import guest_runs
from dt_commands.texts import read_text

PACKET = re.compile(rb"\$([^#]*)#..")
# How a stop begins at which a thread was created.
CREATED = "T05create:"


def framed(packet):
    """Returns a packet in its frame."""
    return b"$" + packet + b"#" + f"{sum(packet) % 256:02x}".encode()


class Debugged:
    """A program in the debugger, run with these words. `printed` is what the last packet had it say to the user."""

    def __init__(self, file, *words):
        command = [guest_runs.program(), "debug", file, *words]
        self.process = subprocess.Popen(command, stdin=subprocess.PIPE, stdout=subprocess.PIPE, stderr=subprocess.DEVNULL, bufsize=0)
        self.heard, self.printed = b"", ""
        self.ask("QStartNoAckMode")

    def answer(self):
        while not PACKET.search(self.heard):
            more = self.process.stdout.read(65536)
            if not more:
                raise SystemExit("tools/dt: the debugger ended")
            self.heard += more
        found = PACKET.search(self.heard)
        self.heard = self.heard[found.end():]
        return found[1].decode()

    def ask(self, text):
        """Sends a packet, and returns the answer to it."""
        self.process.stdin.write(framed(text.encode()))
        self.printed = ""
        while True:
            said = self.answer()
            if said == "OK" or not said.startswith("O"):
                return said
            self.printed += bytes.fromhex(said[1:]).decode(errors="replace")

    def monitor(self, command):
        """Returns what a command of the user's says."""
        said = self.ask(f"qRcmd,{command.encode().hex()}")
        return self.printed if said == "OK" else bytes.fromhex(said).decode(errors="replace")

    def go(self, text):
        """Resumes up to a stop that isn't the creation of a thread, and returns the seconds that it took."""
        begun = time.time()
        while self.ask(text).startswith(CREATED):
            pass
        return time.time() - begun

    def processor_seconds(self):
        """Returns how much processor time it took so far."""
        fields = read_text(f"/proc/{self.process.pid}/stat").rpartition(")")[2].split()
        return (int(fields[11]) + int(fields[12])) / os.sysconf("SC_CLK_TCK")

    def __enter__(self):
        return self

    def __exit__(self, *_):
        self.process.kill()
        self.process.wait()
