"""The copy of the repository in which changes are tried: without proofs, and with a switch that says which change is on.

Each replaced place asks the switch. A change of a test gets a test of its own, which puts it on and then does what its row's test does;
a program reads which change is on.
"""
import re
import shutil
import subprocess

from dt_commands.changes import FOLDER, PROGRAMS
from dt_commands.repository import TOP
from dt_commands.texts import read_text, write_file

# The crate of the switch, whose sources are the files switch.text and switch.c of tools/changes.
SWITCH = "tried_change"
# What a program of the copy does first: the number of the change is its standard input.
SET_BY_INPUT = f"""    for line in rt.lines(rt.alloc()) {{
        {SWITCH}::set(test_guest_rows::decimal(line?.as_str()) as u32);
    }}
"""

# The places that are no expression and no statements: the heads of an `if` or a `while`, arms, fields, and bindings. Of each what is
# before its expression, the expression, and what is behind it; the first is the same in the changed text.
PLACES = [re.compile(it, re.S) for it in (r"((?:if|while) )(.*)( \{)", r"(.*? => )(.*)(,)", r"(\w+: )(.*)(,)", r"()(.*)(,)")]
BOUND = re.compile(r"let (mut )?(\w+|\([\w, ]+\)) = .*;", re.S)


def guarded(number, is_statement, old, new):
    """Returns a text that is the new one if this change is tried, and else the old one."""
    asked, bound = f"if {SWITCH}::is({number})", BOUND.fullmatch(old)
    for place in () if is_statement else PLACES:
        was, now = place.fullmatch(old), place.fullmatch(new)
        if was and now and was[1] == now[1]:
            return f"{was[1]}({asked} {{ {now[2]} }} else {{ {was[2]} }}){was[3]}"
    if bound:
        return f"let {bound[1] or ''}{bound[2]} = {asked} {{ {new} {bound[2]} }} else {{ {old} {bound[2]} }};"
    return f"{asked} {{ {new} }} else {{ {old} }}" if is_statement else f"({asked} {{ {new} }} else {{ {old} }})"


def with_guards(text, places):
    """Returns the text of a source with the places of some changes guarded; one place may lie in another."""
    places = sorted(places, key=lambda it: (it[0], -it[1]))
    made, end = "", 0
    while places:
        start, stop, number, new = places.pop(0)
        inner = [it for it in places if it[0] < stop]
        places = [it for it in places if it[0] >= stop]
        if any(it[1] > stop for it in inner):
            raise SystemExit(f"change {number} and another one share a part of a place")
        shifted = [(it[0] - start, it[1] - start, *it[2:]) for it in inner]
        old = with_guards(text[start:stop], shifted)
        made += text[end:start] + guarded(number, text[start:stop].endswith(";"), old, new)
        end = stop
    return made + text[end:]


def function_of(text, name):
    """Returns the parameters, the result and the body of a test."""
    found = re.search(rf"#\[test\]\nfn {name}(\(rt: HostRuntime\)[^{{]*)\{{\n(.*?)\n\}}\n", text, re.S)
    if not found:
        raise SystemExit(f"no test {name}")
    return found[1], found[2]


def copy(found, folder):
    """Makes the copy: sources without proofs, the switch, guarded places, and a test for each change."""
    shutil.copytree(f"{TOP}/crates", f"{folder}/crates", ignore=shutil.ignore_patterns("out", "must-fail", "mutants"))
    shutil.copy(f"{TOP}/HANDLES", folder)
    subprocess.run(["git", "init", "-q", folder], check=True)
    listed = re.sub(r"^(\w+:)", rf"\1 {SWITCH}", read_text(f"{TOP}/crates.txt"), flags=re.M)
    write_file(f"{folder}/crates.txt", f"{SWITCH}:\n{listed}")
    write_file(f"{folder}/crates/{SWITCH}/src/lib.rt", read_text(f"{FOLDER}/switch.text"))
    write_file(f"{folder}/crates/{SWITCH}/c/{SWITCH}.c", read_text(f"{FOLDER}/switch.c"))
    places, tests = {}, {}
    for number, change in enumerate(found, 1):
        for file, old, new in change.edits:
            if file.endswith(".rt"):
                start = read_text(f"{TOP}/{file}").index(old)
                places.setdefault(file, []).append((start, start + len(old), number, new))
        if change.program_row()[0]:
            continue
        file, test = change.test()
        head, body = function_of(read_text(f"{TOP}/{file}"), test)
        tests.setdefault(file, []).append(
            f"\n#[test]\nfn change_{number}{head}{{\n    {SWITCH}::set({number});\n{body}\n}}\n"
        )
    for file, those in places.items():
        write_file(f"{folder}/{file}", with_guards(read_text(f"{TOP}/{file}"), those))
    for file, those in tests.items():
        write_file(f"{folder}/{file}", read_text(f"{folder}/{file}") + "".join(those))
    head = "fn main(rt: HostRuntime) -> Result<()> {\n"
    for main in (f"{folder}/crates/{it}/src/main.rt" for it in PROGRAMS):
        write_file(main, read_text(main).replace(head, head + SET_BY_INPUT))
