"""Runs a measuring program, which is built first where it is missing, and tells its processor time."""

import pathlib
import resource
import subprocess

TOP = pathlib.Path(__file__).resolve().parent.parent


def built(crate, *words):
    """The program of a crate. Where it is missing it is built, with its proofs, and run with these words."""
    program = TOP / "crates" / crate / "out" / crate
    if not program.exists():
        subprocess.run(["rt", "run", "--", *words], cwd=TOP / "crates" / crate, check=True,
                       stdin=subprocess.DEVNULL, stdout=subprocess.DEVNULL, stderr=subprocess.DEVNULL)
    return program


def spent():
    """Seconds of processor time of the runs so far."""
    usage = resource.getrusage(resource.RUSAGE_CHILDREN)
    return usage.ru_utime + usage.ru_stime


def seconds(program, work, count, runs):
    """Seconds of processor time of one kind of work, so many times, the best of some runs."""
    best = float("inf")
    for _ in range(runs):
        before = spent()
        subprocess.run([program, work, str(count)], check=True, stdout=subprocess.DEVNULL)
        best = min(best, spent() - before)
    return best
