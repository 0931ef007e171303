"""Writes what is made from other files of the repository: parts of pages, samples, and a picture. `tools/dt check` compares the same."""

PARTS = {
    "pages": "pages", "samples": "samples", "pictures": "sample_pictures", "c-samples": "c_samples", "c-functions": "c_functions",
    "hints": "hints", "checks": "check_lists", "gdb": "gdb_sessions", "editors": "editor_sessions", "shuffles": "shuffles", "course": "course",
}
