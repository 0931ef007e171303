"""The sources of the crates: which there are, which of them are the product's, and what of their text is code."""
import os
import re

from . import layers
from .repository import TOP
from .texts import read_text

# What holds no code: comments, texts, imports, attributes, contracts and what else is for proofs, and the declarations of types.
NO_CODE = re.compile(
    r"""//[^\n]*|"(?:[^"\\]|\\.)*"|^ *(?:pub )?(?:ghost )?use [^;]*;|#!?\[[^\]]*\]|^ *(?:requires|ensures)\*? ?\w* ?\{.*?\}$|^ *ghost .*?;$"""
    r"""|^(?P<indent> *)(?:pub(?:\(\w+\))? )?(?:enum|struct) \w[^\n;]*\{\n.*?^(?P=indent)\}""", re.M | re.S)


def code_of(text):
    """Returns a source with spaces in place of all that is no code, so that lines and columns stay."""
    return NO_CODE.sub(lambda it: re.sub(r"[^\n]", " ", it[0]), text)


def below(folder, ending):
    """Yields the files below a folder whose names end so, but for those of builds."""
    for at, _, names in sorted(os.walk(folder)):
        if "/out/" not in f"{at}/":
            yield from (f"{at}/{it}" for it in sorted(names) if it.endswith(ending))


def files_of(top):
    """Yields the source files of all crates."""
    for crate in sorted(os.listdir(f"{top}/crates")):
        yield from below(f"{top}/crates/{crate}/src", ".rt")


def for_tests(files):
    """Returns those of these files that are there for tests alone."""
    found = set()
    for file in files:
        base = os.path.dirname(file) if re.search(r"/(lib|main)\.rt$", file) else file[:-3]
        for name in re.findall(r"#\[cfg\(test\)\]\s*(?:pub\(\w+\) )?mod (\w+);", read_text(file)):
            found |= {it for it in files if it == f"{base}/{name}.rt" or it.startswith(f"{base}/{name}/")}
    return found


def product():
    """Returns the crates of the product, in the order of crates.txt."""
    return [name for section, name, _ in layers.rows_of(read_text(f"{TOP}/crates.txt")) if section in layers.PRODUCT]


def of_product(folder, ending):
    """Yields the files of the product in this folder of each crate, from the top on, with their texts. Those for tests alone are none."""
    for crate in product():
        files = list(below(f"{TOP}/crates/{crate}/{folder}", ending))
        tests = for_tests(files)
        yield from ((os.path.relpath(it, TOP), read_text(it)) for it in files if it not in tests)


def crate_of(file):
    return file.split("/")[1]
