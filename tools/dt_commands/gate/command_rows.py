"""Rows of command lines: the files of guest/tests/rows/commands, whose `list` says what a row has.

A command line is performed by the built program, in a folder of the row's own. Streams and files that fail are those of tools/failing.c.
"""
import os
import shutil
import struct
import subprocess
import tempfile

from dt_commands import guest_runs, written_guests
from dt_commands.repository import TOP
from dt_commands.row_texts import Differences, bytes_of, lined_rows, listed, split, text_at
from dt_commands.texts import contents, write_file

FOLDER = f"{TOP}/guest/tests/rows/commands"
PROGRAM, SCHEDULE = "a.elf", "schedule"
WRITTEN = ["trace", "timeline", "report", "findings", "core", "digest"]
OLD = b"x" * 1000
# What no file can have more of, so that each takes all, and its writes are interrupted all the same.
ALL = str(2**40)
# What a path that has a file without an end is a link to.
ENDLESS = "/dev/zero"
SECONDS = 120
STREAMS = {
    "input-fails": {"INPUT_FAILS": "1"}, "input-endless": {"INPUT_ENDLESS": "1"}, "output-fails": {"OUTPUT_WRITES": "0"},
    "errors-fail": {"ERRORS_FAIL": "1"},
}


class WrongRow(Exception):
    """A line that no row has."""


def put(data, place, piece):
    """Returns bytes with those from a place on changed, all of which are there."""
    if place + len(piece) > len(data):
        raise WrongRow(f"no place: {place}")
    return data[:place] + piece + data[place + len(piece) :]


class Scene:
    """What the command lines of a row are performed on: a folder of files, an input, and how streams and files fail."""

    def __init__(self, folder, library):
        self.folder, self.library, self.settings = folder, library, {"ROOM": ALL}
        self.given, self.output, self.errors, self.status, self.late = b"", b"", b"", 0, None
        for name in (PROGRAM, SCHEDULE, *WRITTEN):
            self.write(name, b"")
        os.symlink(WRITTEN[0], f"{folder}/twin")
        for name in ("blocked.part", "temporary"):
            os.mkdir(f"{folder}/{name}")
        self.names = self.present()

    def present(self):
        """Returns the names of all that the folder has, and of what is left among the temporary files."""
        return {*os.listdir(self.folder), *os.listdir(f"{self.folder}/temporary")}

    def take_left(self):
        """Takes away what the last command line left, and returns its names. A text that can't take its file's place stays in its part."""
        left = self.present() - self.names
        stays = self.errors.decode().rpartition(" ")[2].strip() + ".part" if "ENDS" in self.settings else ""
        if stays in left:
            os.remove(f"{self.folder}/{stays}")
        return sorted(left - {stays})

    def write(self, name, data):
        write_file(f"{self.folder}/{name}", data)

    def read(self, name):
        return contents(f"{self.folder}/{name}")

    def perform(self, words):
        """Performs a command line, in which "" is an empty word. Standard output is added to what it was."""
        words = ["" if it == '""' else it for it in words]
        late = {} if self.late is None else {"INPUT_LATE": str(len(self.given) - self.late)}
        how = {"LD_PRELOAD": self.library, "TMPDIR": f"{self.folder}/temporary", **self.settings, **late}
        ran = subprocess.run(
            words, executable=guest_runs.program(), input=self.given, stdout=subprocess.PIPE, stderr=subprocess.PIPE, cwd=self.folder,
            env={**os.environ, **how}, timeout=SECONDS,
        )
        self.status, self.output, self.errors = ran.returncode, self.output + ran.stdout, ran.stderr

    def bytes_of(self, name):
        """Returns the bytes of standard output, of standard error, or of the file at a path, or None if there is no such file."""
        return {"stdout": self.output, "stderr": self.errors}.get(name) if name in ("stdout", "stderr") else self.read(name)

    def take(self, name, rest):
        """Takes what is given to the next command line."""
        if not (self.take_program(name, rest) or self.take_file(name, rest) or self.take_stream(name, rest)):
            raise WrongRow(f"no field: {name} {rest}")

    def take_program(self, name, rest):
        """Takes a field of the program, if it is one."""
        data = self.read(PROGRAM)
        at, digits = split(rest)
        made = {
            "program": lambda: written_guests.elf(rest),
            "words": lambda: written_guests.file_of([int(it, 16) for it in rest.split()]),
            "cut": lambda: put(data, 0, b"")[: int(rest)] if int(rest) <= len(data) else put(data, int(rest), b""),
            "byte": lambda: put(data, int(at), bytes.fromhex(digits)),
            "word": lambda: put(data, int(at), struct.pack("<I", int(digits, 16))),
        }.get(name)
        if made:
            self.write(PROGRAM, made())
        return bool(made)

    def take_file(self, name, rest):
        """Takes a field of the files besides the program, if it is one."""
        if name == "schedule-text":
            self.write(SCHEDULE, bytes_of(rest))
        elif name == "schedule-more":
            count, text = split(rest)
            self.write(SCHEDULE, self.read(SCHEDULE) + int(count) * bytes_of(text))
        elif name == "old":
            for file in WRITTEN:
                self.write(file, OLD)
        elif name == "endless":
            self.make_endless()
        elif name in ("room", "good-ends"):
            self.settings[{"room": "ROOM", "good-ends": "ENDS"}[name]] = str(int(rest))
        else:
            return False
        return True

    def make_endless(self):
        """Has each path that a row reads lead to a file without an end."""
        for name in (PROGRAM, SCHEDULE, "a", "b"):
            if os.path.exists(f"{self.folder}/{name}"):
                os.remove(f"{self.folder}/{name}")
            os.symlink(ENDLESS, f"{self.folder}/{name}")
        self.names = self.present()

    def take_stream(self, name, rest):
        """Takes a field of the streams, if it is one."""
        if name == "input":
            self.given = bytes_of(rest)
        elif name == "input-late":
            self.late = int(rest)
        elif name == "output":
            writes, most = rest.split()
            self.output, self.settings["OUTPUT_WRITES"], self.settings["OUTPUT_MOST"] = b"", str(int(writes)), str(int(most))
        elif name in STREAMS:
            self.settings.update(STREAMS[name])
        else:
            return False
        return True

    def compare(self, line, how, found):
        """Compares what a line wants, if it is one that does."""
        name, rest = split(line)
        if name == "status":
            found.expect(self.status, int(rest), f"{how}status")
        elif name == "files-old":
            for file in WRITTEN:
                found.expect(self.read(file), OLD, f"{how}{file}")
        elif name in ("stdout", "stderr", PROGRAM, SCHEDULE, *WRITTEN):
            relation, value = split(rest)
            self.compare_bytes(self.bytes_of(name), relation, value, f"{how}{name} {relation}", found)
        else:
            return False
        return True

    def compare_bytes(self, data, relation, value, what, found):
        """Compares bytes with what a line wants of them."""
        if relation == "length":
            found.expect(len(data), int(value), what)
        elif relation == "word":
            at, digits = split(value)
            found.expect(data[int(at) :][:4], struct.pack("<I", int(digits, 16)), f"{what} {at}")
        elif relation == "old":
            found.expect(data, OLD, what)
        elif relation == "joins":
            found.expect(data, b"".join(self.read(it) for it in value.split()), what)
        else:
            wanted = contents(f"{FOLDER}/{value[1:]}") if value.startswith("@") else bytes_of(value)
            part = {"is": data, "begins": data[: len(wanted)], "ends": data[len(data) - len(wanted) :]}
            if relation not in part:
                raise WrongRow(f"no relation: {relation}")
            found.expect(part[relation], wanted, what)


def compare_once(lines, how, library, found):
    """Takes the lines of a row one by one, in a new folder, and notes what isn't as wanted."""
    with tempfile.TemporaryDirectory(prefix="row-") as folder:
        scene = Scene(folder, library)
        for line in lines:
            name, rest = split(line)
            if name == "do":
                scene.perform(rest.split())
                found.expect(scene.take_left(), [], f"{how}what is left")
            elif not scene.compare(line, how, found):
                scene.take(name, rest)


def compare(row, library):
    """Makes a row for each of its values, and returns what isn't as wanted."""
    found = Differences()
    for value, lines in row.each():
        try:
            compare_once(lines, f"at {value}: " if value else "", library, found)
        except (WrongRow, subprocess.TimeoutExpired) as error:
            found.texts.append(str(error))
    return found.texts


def built(room):
    """Builds the library of failing streams and files in a folder, and returns its path."""
    if not shutil.which("gcc"):
        raise SystemExit("tools/dt test rows: it needs gcc")
    library = f"{room}/failing.so"
    subprocess.run(["gcc", "-O2", "-shared", "-fPIC", "-o", library, f"{TOP}/tools/failing.c"], check=True)
    return library


def rows():
    """Returns the rows of all files of the list, in its order."""
    return [row for file in listed(FOLDER) for row in lined_rows(text_at(f"{FOLDER}/{file}"))]


def tasks(room):
    """Returns each row's name with a call that returns what of it isn't as wanted."""
    library = built(room)
    return [(row.name, lambda row=row: compare(row, library)) for row in rows()]
