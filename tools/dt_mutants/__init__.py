"""What `tools/dt mutants` is made of: edits, the functions they change, rounds, verdicts, trials and the lock."""
