"""Checks what needs no proof and no program: sources, clauses, calls, layers, pages, samples, pictures and what numbers draw.

Without a part it checks these, as the gate does; the parts on C and Rust need the compiler of guest programs.
"""
from dt_commands import catch_alls, clauses, layers, made_up_errors, pages, sample_pictures, samples, shuffles, uncalled

PARTS = {
    "sources": "made_up_errors", "clauses": "clauses", "catch-alls": "catch_alls", "uncalled": "uncalled", "layers": "layers", "pages": "pages",
    "samples": "samples", "pictures": "sample_pictures", "shuffles": "shuffles", "c-samples": "c_samples", "c-functions": "c_functions",
    "rust-libc": "rust_libc",
}


def run(options):
    return max(it.check(options) for it in (made_up_errors, clauses, catch_alls, uncalled, layers, pages, samples, sample_pictures, shuffles))
