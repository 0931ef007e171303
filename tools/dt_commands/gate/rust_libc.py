"""The crate libc of the kit for Rust: guest/rust/libc.rs has the numbers and layouts that the headers have.

A program in C and one in Rust print each constant, and the size, the alignment and the places of the fields of each structure that
guest/rust/libc.rs defines. Both are run, and must print the same. What the headers lack is left out. It needs guest/build-rust.
"""
import re
import subprocess
import sys
import tempfile

from dt_commands import guest_runs, rust_tests
from dt_commands.texts import read_text, write_file

MODULE = f"{guest_runs.KIT}/rust/libc.rs"
HEADERS = """dirent dlfcn errno fcntl limits locale netdb poll pthread pwd semaphore signal stdio stdlib termios time unistd arpa/inet
net/if netinet/in netinet/tcp sys/ioctl sys/mman sys/resource sys/socket sys/stat sys/statvfs sys/time sys/types sys/uio sys/un
sys/utsname""".split()
CONSTANT = re.compile(r"^pub const ([A-Z]\w*): (?:i32|u32|i16|u16|c_int|c_uint|usize|clockid_t|\w+_t) = [^{;]*;", re.M)
STRUCTURE = re.compile(r"^    pub struct (\w+) \{\n(.*?)^    \}", re.M | re.S)
FIELD = re.compile(r"^        pub (\w+):", re.M)
TYPE = re.compile(r"^pub type (\w+) =", re.M)
# Structures that a program in C has in another form: Rust calls the C library's own functions, which know no more fields.
OWN = ("tm",)
# A number that no call of the kit answers stands for an error that its headers lack.
ABSENT_ERRORS = 1000


class Module:
    """What guest/rust/libc.rs defines: constants, types, and structures with their fields."""

    def __init__(self, text):
        self.constants, self.types = CONSTANT.findall(text), TYPE.findall(text)
        self.structures = [(name, FIELD.findall(body)) for name, body in STRUCTURE.findall(text) if name not in OWN]


def c_name(name):
    return name if name.endswith("_t") or name in ("DIR", "fd_set") else f"struct {name}"


HEAD = "#define _GNU_SOURCE\n#include <stddef.h>\n" + "".join(
    f"#if __has_include(<{it}.h>)\n#include <{it}.h>\n#endif\n" for it in HEADERS)


def candidates(module):
    """Yields what both programs may print: a text, and its expressions in C and in Rust."""
    for name in module.constants:
        yield name, f"(long){name}", f"libc::{name} as i32"
    for name in module.types:
        yield f"size of {name}", f"(long)sizeof({c_name(name)})", f"size_of::<libc::{name}>()"
    for name, fields in module.structures:
        yield f"size of {name}", f"(long)sizeof({c_name(name)})", f"size_of::<libc::{name}>()"
        yield f"alignment of {name}", f"(long)_Alignof({c_name(name)})", f"align_of::<libc::{name}>()"
        for field in fields:
            yield f"{name}.{field}", f"(long)offsetof({c_name(name)}, {field})", f"std::mem::offset_of!(libc::{name}, {field})"


def is_constant(text):
    return re.fullmatch(r"[A-Z]\w*", text)


def known_to_c(lines, room):
    """Returns the lines whose expressions the kit's compiler of C knows, and the constants."""
    tried = "".join(f"long at_{at} = {'0' if is_constant(text) else of_c};\n" for at, (text, of_c, _) in enumerate(lines))
    write_file(f"{room}/try.c", HEAD + tried)
    how = {"stdout": subprocess.PIPE, "stderr": subprocess.STDOUT, "text": True}
    said = subprocess.run([f"{guest_runs.KIT}/dthreads-cc", "-fsyntax-only", "-fmax-errors=0", "-c", f"{room}/try.c"], **how).stdout
    first = HEAD.count("\n") + 1
    wrong = {int(it) - first for it in re.findall(r"try\.c:(\d+):\d+: error", said)}
    return [it for at, it in enumerate(lines) if at not in wrong]


def in_c(lines):
    calls = []
    for text, of_c, _ in lines:
        call = f'    printf("{text} %ld\\n", {of_c});\n'
        calls.append(f"#ifdef {text}\n{call}#endif\n" if is_constant(text) else call)
    return f"{HEAD}int main(void)\n{{\n{''.join(calls)}    return 0;\n}}\n"


def in_rust(lines):
    calls = "".join(f'    println!("{text} {{}}", {of_rust});\n' for text, _, of_rust in lines)
    return f"#![feature(rustc_private)]\nextern crate libc;\nuse std::mem::{{align_of, size_of}};\n\nfn main() {{\n{calls}}}\n"


def printed(room, name, text, does):
    """Builds and runs a program; returns what it printed, by the text of each line."""
    write_file(f"{room}/{name}", text)
    said = does(f"{room}/{name}", f"{room}/{name}.elf")
    if said is not None:
        raise SystemExit(f"{said}{name}: doesn't build")
    command = [f"{guest_runs.KIT}/dthreads-exec", f"{room}/{name}.elf"]
    ran = subprocess.run(command, stdin=subprocess.DEVNULL, stdout=subprocess.PIPE, text=True, env=rust_tests.environment(), check=True)
    return dict(line.rsplit(" ", 1) for line in ran.stdout.splitlines())


def differing(of_c, of_rust):
    """Yields what the two programs printed differently. An error that C lacks must have a number that none has."""
    for text, value in of_rust.items():
        if text in of_c and of_c[text] != value:
            yield f"{text}: {value} in guest/rust/libc.rs, {of_c[text]} in the headers"
        if text not in of_c and re.fullmatch(r"E[A-Z0-9]+", text) and int(value) < ABSENT_ERRORS and text != "EDEADLOCK":
            yield f"{text}: {value} in guest/rust/libc.rs, and no number in the headers"


def check(options):
    """Compares the crate libc of the kit for Rust with the headers, by a program in C and one in Rust."""
    if not rust_tests.has_rust():
        print(f"the crate libc: left out, {rust_tests.why_not()}")
        return 1
    module = Module(read_text(MODULE))
    with tempfile.TemporaryDirectory() as room:
        lines = known_to_c(list(candidates(module)), room)
        of_c = printed(room, "values.c", in_c(lines), lambda source, out: guest_runs.compiled([source], out, room))
        of_rust = printed(room, "values.rs", in_rust(lines), lambda source, out: rust_tests.compiled(["--edition=2021", source], out, room))
    wrong = list(differing(of_c, of_rust))
    for it in wrong:
        print(it, file=sys.stderr)
    print(f"{len(of_rust)} numbers and layouts of the crate libc, {len(of_c)} of them in the headers: {len(wrong)} differ")
    return 1 if wrong else 0
