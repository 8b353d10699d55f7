#!/usr/bin/env python3
"""Times the program with one thread and with several, beside cryptominisat5 where that is on the path.

Run it from anywhere, with Python 3:

    tools/threads.py              the families of tools/families.py that are named in NAMES
    tools/threads.py WORD..       all families whose names have one of the words

Each formula goes to ./torimbava with one thread and with four, and to cryptominisat5 with four. For
each it prints how many formulas were decided, the median and the greatest seconds of waiting, and the
processor seconds together. A run has a minute; one that takes longer is told and left out. Verdicts
that differ end it with status 1. The proofs and the tests need none of this.
"""

import resource
import shutil
import statistics
import subprocess
import sys
import time

from families import families, with_header
from speed import PROGRAM, SATISFIABLE, UNSATISFIABLE, build, fail, text_of

THREADS = 4
SECONDS = 60
NAMES = ["uniform, 150", "uniform, 200", "8 pigeons", "9 pigeons", "adders", "counters of 10 bits"]
OTHER = "cryptominisat5"


def run(command, text):
    """The status, the seconds of waiting and the processor seconds; None for a status in a minute."""
    before, start = resource.getrusage(resource.RUSAGE_CHILDREN), time.perf_counter()
    try:
        done = subprocess.run(
            command, input=text, stdout=subprocess.DEVNULL, stderr=subprocess.DEVNULL, text=True, timeout=SECONDS
        )
        status = done.returncode
    except subprocess.TimeoutExpired:
        status = None
    waited, after = time.perf_counter() - start, resource.getrusage(resource.RUSAGE_CHILDREN)
    return status, waited, after.ru_utime + after.ru_stime - before.ru_utime - before.ru_stime


def solvers():
    """What is run: a name, the command, and whether its text has a header."""
    yield "torimbava, 1 thread", [str(PROGRAM), "--threads", "1"], False
    yield f"torimbava, {THREADS} threads", [str(PROGRAM), "--threads", str(THREADS)], False
    if shutil.which(OTHER):
        yield f"{OTHER}, {THREADS} threads", [OTHER, "-t", str(THREADS), "--verb=0"], True


def summary(name, runs):
    waits = [waited for status, waited, _ in runs if status is not None]
    if not waits:
        return f"  {name}: none decided"
    processor = sum(seconds for status, _, seconds in runs if status is not None)
    return (
        f"  {name}: {len(waits)} of {len(runs)} decided, seconds of waiting: median "
        f"{statistics.median(waits):.3f}, greatest {max(waits):.2f}; of processors: {processor:.2f}"
    )


def main():
    build()
    words = sys.argv[1:] or NAMES
    for name, formulas in families():
        if not any(word in name for word in words):
            continue
        rows = {solver: [] for solver, _, _ in solvers()}
        for clauses in formulas:
            verdicts = set()
            for solver, command, has_header in solvers():
                result = run(command, with_header(clauses) if has_header else text_of(clauses))
                if result[0] not in (None, SATISFIABLE, UNSATISFIABLE):
                    fail(f"{name}: status {result[0]} of {solver}")
                rows[solver].append(result)
                verdicts.add(result[0])
            if len(verdicts - {None}) > 1:
                fail(f"{name}: verdicts differ")
        print(name)
        for solver, runs in rows.items():
            print(summary(solver, runs))
        sys.stdout.flush()


if __name__ == "__main__":
    main()
