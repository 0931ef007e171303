"""Rows of sessions of gdb's remote protocol: the files of guest/tests/rows/sessions, and streams that a seed picks.

A session has a line `program NAME`, and `quantum N` if there is one. A line `> TEXT` is a packet that gdb sends, `> ` and a sign of `+`, `-`
or `^C` these bytes alone, and a line `< TEXT` is the packet of an answer. The debugger is asked over standard input and standard output.
It must give these answers, to each prefix of a session a prefix of them, and come to its end with any byte changed, and with any stream of
packets and bytes.
"""
import random
import subprocess
import tempfile

from dt_commands import guest_runs, written_guests
from dt_commands.gdb_packets import framed
from dt_commands.repository import TOP
from dt_commands.texts import write_file
from dt_commands.row_texts import Differences, listed, split, text_at

FOLDER = f"{TOP}/guest/tests/rows/sessions"
SIGNS = {"+": b"+", "-": b"-", "^C": b"\x03"}
BOUND, INPUT, SECONDS = 20_000, b"abc", 120
# How many streams are tried over each program, how many pieces a stream has, and how many prefixes or changes are a task.
STREAMS, PIECES, CHUNK = 20, 40, 400
# Packets, and beginnings of packets.
PACKETS = [
    "?", "g", "G00", "m10000,40", "m20000,4", "mfffffffe,8", "M20000,1:00", "X20000,0:", "p20", "p21", "P1=00000000", "qC", "qfThreadInfo",
    "qsThreadInfo", "qThreadExtraInfo,1", "qXfer:threads:read::0,100", "qXfer:features:read:target.xml:10,ffffffffffffffffff",
    "qXfer:features:read:x:0,1", "qSupported:swbreak+;hwbreak+", "QStartNoAckMode", "T1", "T2", "Hg1", "Hg2", "Hc1", "Hc2", "Hc-1", "Hg0",
    "Z0,10008,4", "z0,10008,4", "Z2,20000,4", "z2,20000,4", "Z3,20000,1", "Z4,20000,fffffff", "vCont;c", "vCont;s:1;c", "vCont;s:2;c",
    "vCont;s:1", "vCont;c:2", "vCont;r10000,10020:1;c", "bs", "bc", "qRcmd,7768657265", "qRcmd,7475726e2032", "qRcmd,676f2033",
    "qRcmd,6c6f636b73", "vKill;1", "D",
]


class Session:
    """A session as it is written: the program, its options, what gdb sends, and what it is answered."""

    def __init__(self, text):
        self.program, self.words, self.sent, self.answered = "", [], b"", b""
        for line in text.splitlines():
            head, rest = split(line)
            if head == ">":
                self.sent += SIGNS.get(rest) or framed(rest.encode())
            elif head == "<":
                self.answered += SIGNS.get(rest) or framed(rest.encode())
            elif head == "program":
                self.program = rest
            elif head == "quantum":
                self.words = ["--quantum", str(int(rest))]
            else:
                raise SystemExit(f"no line of a session: {line}")


def answers(program, words, stream):
    """Returns how a session over a program ended to which these bytes were sent: its status, its answers and its message."""
    with tempfile.TemporaryDirectory(prefix="row-") as room:
        for name, data in (("a.elf", written_guests.elf(program)), ("input", INPUT)):
            write_file(f"{room}/{name}", data)
        command = [guest_runs.program(), "debug", "a.elf", "--input", "input", "--bound", str(BOUND), *words]
        try:
            ran = subprocess.run(command, input=stream, stdout=subprocess.PIPE, stderr=subprocess.PIPE, cwd=room, timeout=SECONDS)
        except subprocess.TimeoutExpired:
            return None, b"", b"no end"
        return ran.returncode, ran.stdout, ran.stderr


def compare_whole(session):
    """Compares the answers of a session with the wanted ones."""
    found = Differences()
    found.expect(answers(session.program, session.words, session.sent), (0, session.answered, b""), "status, answers and message")
    return found.texts


def compare_prefixes(session, lengths):
    """Notes each prefix of a session whose answers are no prefix of the session's."""
    texts = []
    for length in lengths:
        status, given, said = answers(session.program, session.words, session.sent[:length])
        if (status, said) != (0, b"") or not session.answered.startswith(given):
            texts.append(f"the prefix of {length} bytes: status {status}, {given[-80:]}")
    return texts


def compare_changes(session, places):
    """Notes each byte with whose change a session doesn't come to its end."""
    texts = []
    for place in places:
        stream = session.sent[:place] + bytes([session.sent[place] ^ 1]) + session.sent[place + 1 :]
        status, _, said = answers(session.program, session.words, stream)
        if (status, said) != (0, b""):
            texts.append(f"byte {place} changed: status {status}, {said[:80]}")
    return texts


def stream_of(seed):
    """Returns a stream: packets, packets with a byte changed, beginnings of packets, and bytes."""
    dice, stream = random.Random(seed), b""
    for _ in range(PIECES):
        packet = bytearray(dice.choice(PACKETS).encode())
        kind = dice.randrange(12)
        if kind == 3:
            packet[dice.randrange(len(packet))] = dice.randrange(256)
        other = {0: bytes([dice.randrange(256)]), 1: bytes(packet), 2: b"\x03"}
        stream += other.get(kind) or framed(bytes(packet))
    return stream


def compare_streams(program):
    """Notes each stream over a program that doesn't come to its end."""
    texts = []
    for seed in range(STREAMS):
        status, _, said = answers(program, [], stream_of(seed))
        if (status, said) != (0, b""):
            texts.append(f"stream {seed}: status {status}, {said[:80]}")
    return texts


def tasks(programs):
    """Yields each row's name with a call that returns what of it isn't as wanted; streams go over these programs."""
    for name in listed(FOLDER):
        session = Session(text_at(f"{FOLDER}/{name}.session"))
        yield f"session {name}", lambda session=session: compare_whole(session)
        for first in range(0, len(session.sent), CHUNK):
            some = range(first, min(first + CHUNK, len(session.sent)))
            yield f"prefixes of session {name} from {first}", lambda session=session, some=some: compare_prefixes(session, some)
            yield f"changes of session {name} from {first}", lambda session=session, some=some: compare_changes(session, some)
    for name in programs:
        yield f"streams over {name}", lambda name=name: compare_streams(name)
