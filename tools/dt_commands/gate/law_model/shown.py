"""The texts of a run by CLI.md: trace and digest; and a written schedule of it."""
import hashlib
import itertools

from dt_commands.law_model.memory import PAGE


def trace(run):
    """Returns a line for each turn."""
    lines = (f"{it.phase} {it.thread} {it.text} changed={len(it.changed)} ran={it.ran}\n" for it in run.turns)
    return "".join(lines).encode()


def digest_of(outcome, output, pages, turns):
    """Returns the outcome, and the sums of output, memory and trace."""
    memory = b"".join(b"%08x" % (PAGE * number) + bytes([permits]) + data for number, (permits, data) in sorted(pages.items()))
    sums = (f"{name} {hashlib.sha256(data).hexdigest()}\n" for name, data in (("output", output), ("memory", memory), ("trace", turns)))
    return "".join([f"outcome {outcome}\n", *sums]).encode()


def digest(run):
    return digest_of(run.outcome.text, run.output, run.state.memory.pages, trace(run))


def events_of(turns, workers):
    """Returns the events of a phase: its jobs are done by the workers in turn, and then its turns are taken."""
    jobs = [it for it in turns if it.steps and not it.is_keeper]
    for at, job in enumerate(jobs):
        worker = at % workers
        yield from [f"draw {worker}", *[f"step {worker}"] * job.steps, f"post {worker}"]
    for it in turns:
        yield from [*["hold"] * (it.steps if it.is_keeper else 0), "turn"]


def schedule(run, workers):
    """Returns a schedule of the whole run, for `replay` with so many workers."""
    phases = (list(turns) for _, turns in itertools.groupby(run.turns, lambda it: it.phase))
    return "".join(f"{it}\n" for turns in phases for it in events_of(turns, workers)).encode()
