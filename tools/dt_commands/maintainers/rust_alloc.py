"""The tests of Rust's crate alloc: those beside its sources, and those of what it gives to others.

The first are in the package rust-web-src; a crate of guest/tests/rust/alloc builds their modules anew. The others lie in a folder that no
package of Rust 1.96 has. The last one of Debian 12 that has it is rust-web-src 1.85: DTHREADS_ALLOC_TESTS names its folder
library/alloc/tests. They are made over today's library, with what has another name in it.
"""
import os
import re
import shutil

from dt_commands import guest_runs
from dt_commands.texts import read_text, write_file

SOURCES = "/usr/lib/rustlib/src/rust/library/alloc/src"
# The crate of the tests beside the sources.
BESIDE = f"{guest_runs.KIT}/tests/rust/alloc/lib.rs"
# What alloc itself has without a feature, or its tests ask for.
FEATURES = ("prelude_import", "test", "try_reserve_kind", "const_alloc_error")
VARIABLE = "DTHREADS_ALLOC_TESTS"
HOW = ("apt-get download rust-web-src=1.85.0+dfsg3-1~deb12u3, dpkg-deb -x it into a folder, and name its library/alloc/tests by "
       f"{VARIABLE}")
# What the tests of 1.85 say in another way than 1.96: the file, a pattern, and what comes in its place.
EDITS = [
    ("lib.rs", r"^mod (sort|autotraits);\n", ""),
    ("borrow.rs", r"COW\.(is_\w+)\(\)", r"Cow::\1(&COW)"),
    ("boxed.rs", r"layout\.dangling\(\)", "layout.dangling_ptr()"),
    *[(it, r"::assert_matches::assert_matches", "::assert_matches") for it in ("c_str2.rs", "str.rs", "string.rs", "vec.rs", "vec_deque.rs")],
]
# What is left out of them, and why.
LEFT_OUT = {
    "test_weak_count_locked": "it locks a count a million times while another thread reads it",
    **dict.fromkeys(["index_fail", "index_mut_fail", "test_slice_fail_truncated"], "1.96 panics with other words"),
    "c_str2::formatted": "1.96 prints such a text in another way",
    "test_extend_from_within_spec": "1.96 clones what 1.85 copied",
}


def of_crate(name):
    """Returns the word of rustc that lets the crate use a feature."""
    return f"-Zcrate-attr=feature({name})"


def words_beside():
    """Returns the words of rustc for the tests beside the sources: the features of alloc's own crate."""
    own = re.findall(r"^#!\[feature\((\w+)\)\]", read_text(f"{SOURCES}/lib.rs"), re.M)
    return [of_crate(it) for it in dict.fromkeys([*own, *FEATURES])]


def older(room):
    """Returns the first file of the tests of 1.85, a copy with the edits, or None if they aren't there."""
    folder = os.environ.get(VARIABLE, "")
    if not os.path.exists(f"{folder}/lib.rs"):
        return None
    where = f"{room}/older"
    shutil.copytree(folder, where)
    for file, pattern, new in EDITS:
        text = read_text(f"{where}/{file}")
        changed = re.sub(pattern, new, text, flags=re.M)
        if changed == text:
            raise SystemExit(f"{folder}/{file}: it has no {pattern}, so it isn't of 1.85")
        write_file(f"{where}/{file}", changed)
    return f"{where}/lib.rs"
