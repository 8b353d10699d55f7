#!/usr/bin/env python3
"""Times the program on random formulas, so that a change that makes it slower is seen.

Run it from anywhere, with Python 3 and no arguments:

    tools/speed.py

It makes uniform random formulas of clauses of three different variables with random signs, from a
fixed seed, so that each run has the same ones. Each goes to ./torimbava, which is built before the
first. For each size it prints the median and the greatest time in milliseconds, how many formulas
were satisfiable, and the median and the greatest number of conflicts: the least conflict limit at
which the formula is decided, found by doubling and halving --maxconfl. A model that does not
satisfy the formula ends it with status 1. From 128 conflicts on the limit is found to within one
part of 64, since the last halvings would take most of the time. Where minisat or cryptominisat5 is
on the path, the verdicts on the small formulas are compared with it. A run has a minute; one that
takes longer is told, and left out of the medians. The proofs and the tests need none of this.
"""

import random
import shutil
import statistics
import subprocess
import sys
import time
from pathlib import Path

PROGRAM = Path(__file__).resolve().parent.parent / "torimbava"
SEED = 20240229
SIZES = [(60, 255), (100, 430), (150, 645)]
INSTANCES = 10
SECONDS = 60
EXACTNESS = 64
COMPARED_VARIABLES = 60
OTHER_SOLVERS = ["minisat", "cryptominisat5"]
SATISFIABLE, UNSATISFIABLE, SPENT = 10, 20, 15


def random_clause(draws, variables):
    numbers = draws.sample(range(1, variables + 1), 3)
    return [number if draws.random() < 0.5 else -number for number in numbers]


def random_formula(variables, count, instance):
    draws = random.Random(f"{SEED} {variables} {count} {instance}")
    return [random_clause(draws, variables) for _ in range(count)]


def text_of(clauses):
    return "".join(" ".join(map(str, clause)) + " 0\n" for clause in clauses)


def fail(message):
    print(f"speed: {message}", file=sys.stderr)
    sys.exit(1)


def run(text, words):
    """The status, the output and the seconds; a status of None where the time was not enough."""
    start = time.perf_counter()
    try:
        done = subprocess.run(
            [str(PROGRAM), *words], input=text, capture_output=True, text=True, timeout=SECONDS
        )
    except subprocess.TimeoutExpired:
        return None, "", time.perf_counter() - start
    return done.returncode, done.stdout, time.perf_counter() - start


def check_model(clauses, variables, output):
    """Each variable up to the greatest that the clauses name stands once, in order."""
    lines = output.splitlines()
    words = lines[1].split() if len(lines) == 2 else []
    if lines[:1] != ["s SATISFIABLE"] or words[:1] != ["v"] or words[-1] != "0":
        fail(f"not the lines of a model: {output!r}")
    literals = [int(word) for word in words[1:-1]]
    named = max(abs(literal) for clause in clauses for literal in clause)
    if [abs(literal) for literal in literals] != list(range(1, named + 1)):
        fail(f"not each of {variables} variables once, in order: {output!r}")
    true = set(literals)
    for clause in clauses:
        if not true.intersection(clause):
            fail(f"the clause {clause} is not satisfied: {output!r}")


def check_answer(clauses, variables, status, output):
    if status == SATISFIABLE:
        check_model(clauses, variables, output)
    elif status != UNSATISFIABLE or output != "s UNSATISFIABLE\nc failed 0\n":
        fail(f"no verdict: status {status}, output {output!r}")


def is_decided(text, limit):
    """Whether the formula is decided at this conflict limit; None where the time was not enough."""
    status, output, _ = run(text, ["--maxconfl", str(limit)])
    if status is None:
        return None
    if status == SPENT and output != f"s INDETERMINATE\nc limit {limit}\n":
        fail(f"not the lines of the limit {limit}: {output!r}")
    if status not in (SATISFIABLE, UNSATISFIABLE, SPENT):
        fail(f"status {status} at the limit {limit}")
    return status != SPENT


def least_limit(text):
    """The least limit at which the formula is decided, or up to one part of 64 more.

    None comes where the time was not enough.
    """
    below, limit = -1, 1
    while not (decided := is_decided(text, limit)):
        if decided is None:
            return None
        below, limit = limit, 2 * limit
    while below + max(1, limit // EXACTNESS) < limit:
        middle = (below + limit) // 2
        decided = is_decided(text, middle)
        if decided is None:
            return None
        below, limit = (below, middle) if decided else (middle, limit)
    return limit


def other_status(name, variables, clauses):
    """What another solver answers, by its status, which is as the program's own."""
    header = f"p cnf {variables} {len(clauses)}\n"
    done = subprocess.run([name], input=header + text_of(clauses), capture_output=True, text=True)
    return done.returncode


def measure(variables, count, instance, other):
    """The milliseconds, the status and the conflicts; None where the time was not enough."""
    clauses = random_formula(variables, count, instance)
    text = text_of(clauses)
    status, output, seconds = run(text, [])
    if status is None:
        print(f"instance {instance} of {variables} variables: over {SECONDS} seconds", flush=True)
        return None
    check_answer(clauses, variables, status, output)
    if other and variables <= COMPARED_VARIABLES:
        wanted = other_status(other, variables, clauses)
        if wanted != status:
            fail(f"status {status} where {other} has {wanted}:\n{text}")
    limit = least_limit(text)
    if limit is None:
        print(f"instance {instance} of {variables} variables: conflicts not counted", flush=True)
    return 1000 * seconds, status, limit


def middle_and_most(numbers):
    if not numbers:
        return "none"
    return f"median {statistics.median(numbers):.0f}, greatest {max(numbers):.0f}"


def report(variables, count, results):
    done = [result for result in results if result is not None]
    satisfiable = sum(1 for _, status, _ in done if status == SATISFIABLE)
    conflicts = [limit for _, _, limit in done if limit is not None]
    print(f"{variables} variables, {count} clauses: {len(done)} of {len(results)} decided")
    print(f"  milliseconds: {middle_and_most([result[0] for result in done])}")
    print(f"  satisfiable: {satisfiable}")
    print(f"  conflicts: {middle_and_most(conflicts)}", flush=True)


def build():
    """Runs the program on the empty text, which builds it first, however long that takes."""
    done = subprocess.run([str(PROGRAM)], input="", stdout=subprocess.PIPE, text=True)
    if (done.returncode, done.stdout) != (SATISFIABLE, "s SATISFIABLE\nv 0\n"):
        fail(f"the program could not be built: status {done.returncode}, {done.stdout!r}")


def main():
    build()
    other = next((name for name in OTHER_SOLVERS if shutil.which(name)), None)
    for variables, count in SIZES:
        results = [measure(variables, count, instance, other) for instance in range(INSTANCES)]
        report(variables, count, results)
    compared = f"{COMPARED_VARIABLES} variables and fewer compared with {other}"
    print(f"verdicts: {compared if other else 'compared with no other solver, as none is there'}")


if __name__ == "__main__":
    main()
