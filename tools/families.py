#!/usr/bin/env python3
"""Times the program on families of formulas, beside minisat where that is on the path.

Run it from anywhere, with Python 3:

    tools/families.py             all families
    tools/families.py WORD..      those whose names have one of the words

It makes uniform random formulas of clauses of three different variables at 4.26 clauses a variable,
ten for each number of variables; 8 pigeons in 7 holes and 9 in 8; random formulas that a planted
assignment satisfies; two adders of 24 bits, and of 64, that shall differ and cannot; counters that
shall reach a number in too few steps, or in enough; a chain of 100000 clauses of two literals that a
clause of one literal sets off, and one of a million; a random formula of 500000 clauses over 300000
variables; and planted formulas a tenth or a third of whose clauses have one literal. Each comes from
a fixed seed, so that each run has the same ones, and goes to ./torimbava, which is built before
the first. For each family it prints the processor seconds of the program, and of minisat in the same
run: the sum, the median and the greatest. A run has a minute of waiting; one that takes longer is
told and left out. Verdicts that differ end it with status 1. The proofs and the tests need none of
this.
"""

import random
import resource
import shutil
import statistics
import subprocess
import sys

from circuits import adders, counter
from speed import PROGRAM, SATISFIABLE, UNSATISFIABLE, build, fail, random_clause, text_of

SEED = 20240229
SECONDS = 60
INSTANCES = 10
MINISAT = "minisat"


def uniform(variables, count, instance):
    draws = random.Random(f"{SEED} {variables} {count} {instance}")
    return [random_clause(draws, variables) for _ in range(count)]


def pigeons(count, holes):
    """Each pigeon has a hole, and no two have the same one."""
    place = lambda pigeon, hole: pigeon * holes + hole + 1
    housed = [[place(pigeon, hole) for hole in range(holes)] for pigeon in range(count)]
    apart = [
        [-place(first, hole), -place(second, hole)]
        for hole in range(holes)
        for first in range(count)
        for second in range(first)
    ]
    return housed + apart


def planted(variables, count):
    """Random clauses, but for those that one random assignment makes false."""
    draws = random.Random(f"{SEED} planted {variables} {count}")
    values = [draws.random() < 0.5 for _ in range(variables + 1)]
    clauses = []
    while len(clauses) < count:
        clause = random_clause(draws, variables)
        if any(values[abs(literal)] == (literal > 0) for literal in clause):
            clauses.append(clause)
    return clauses


def with_units(variables, count, units):
    """The values of some variables of a planted assignment, and random clauses that it satisfies."""
    draws = random.Random(f"{SEED} units {variables} {count} {units}")
    values = [draws.random() < 0.5 for _ in range(variables + 1)]
    known = draws.sample(range(1, variables + 1), units)
    clauses = [[variable if values[variable] else -variable] for variable in known]
    while len(clauses) < count:
        clause = random_clause(draws, variables)
        if any(values[abs(literal)] == (literal > 0) for literal in clause):
            clauses.append(clause)
    draws.shuffle(clauses)
    return clauses


def chain(count):
    """The first variable is true, and each makes the next one true."""
    return [[1]] + [[-variable, variable + 1] for variable in range(1, count + 1)]


def families():
    """The name of each family, and its formulas one after another."""
    for variables in (150, 200, 250):
        count = round(4.26 * variables)
        formulas = (uniform(variables, count, instance) for instance in range(INSTANCES))
        yield f"uniform, {variables} variables, {count} clauses", formulas
    yield "8 pigeons in 7 holes", iter([pigeons(8, 7)])
    yield "9 pigeons in 8 holes", iter([pigeons(9, 8)])
    yield "planted, 5000 variables, 18000 clauses", iter([planted(5000, 18000)])
    yield "planted, 10000 variables, 38000 clauses", iter([planted(10000, 38000)])
    yield "two adders, 24 and 64 bits", iter([adders(24, 4), adders(24, 6), adders(64, 8)])
    yield "counters of 8 to 12 bits, too few steps", iter(
        [counter(8, 200, 201), counter(10, 200, 201), counter(12, 300, 301)]
    )
    yield "counters of 10 bits, enough steps", iter([counter(10, 100, 77), counter(10, 200, 150)])
    yield "chain of 100000 clauses", iter([chain(100000)])
    yield "chain of 1000000 clauses", (chain(1000000) for _ in range(1))
    yield "300000 variables, 500000 clauses", (uniform(300000, 500000, i) for i in range(1))
    yield "33333 variables, 100000 clauses, 33333 units", iter([with_units(33333, 100000, 33333)])
    yield "300000 variables, 1000000 clauses, 100000 units", (
        with_units(300000, 1000000, 100000) for _ in range(1)
    )


def seconds_of(command, text):
    """The status and the processor seconds; a status of None where the time was not enough."""
    before = resource.getrusage(resource.RUSAGE_CHILDREN)
    try:
        done = subprocess.run(
            command, input=text, stdout=subprocess.DEVNULL, text=True, timeout=SECONDS
        )
        status = done.returncode
    except subprocess.TimeoutExpired:
        status = None
    after = resource.getrusage(resource.RUSAGE_CHILDREN)
    return status, after.ru_utime + after.ru_stime - before.ru_utime - before.ru_stime


def with_header(clauses):
    variables = max(abs(literal) for clause in clauses for literal in clause)
    return f"p cnf {variables} {len(clauses)}\n" + text_of(clauses)


def measure(name, clauses, other):
    """The seconds of the program and of the other solver, each None where its time was over."""
    status, seconds = seconds_of([str(PROGRAM)], text_of(clauses))
    if status not in (None, SATISFIABLE, UNSATISFIABLE):
        fail(f"{name}: status {status}")
    other_status, other_seconds = None, None
    if other:
        other_status, other_seconds = seconds_of([other, "-verb=0"], with_header(clauses))
    if None not in (status, other_status) and status != other_status:
        fail(f"{name}: status {status} where {other} has {other_status}")
    return seconds if status else None, other_seconds if other_status else None


def summary(solver, seconds):
    done = [each for each in seconds if each is not None]
    if not done:
        return f"  {solver}: none decided"
    middle, most = statistics.median(done), max(done)
    return (
        f"  {solver}: {len(done)} of {len(seconds)} decided, seconds: "
        f"sum {sum(done):.2f}, median {middle:.3f}, greatest {most:.2f}"
    )


def main():
    build()
    other = MINISAT if shutil.which(MINISAT) else None
    words = sys.argv[1:]
    for name, formulas in families():
        if words and not any(word in name for word in words):
            continue
        results = [measure(name, clauses, other) for clauses in formulas]
        print(name)
        print(summary("torimbava", [seconds for seconds, _ in results]))
        if other:
            print(summary(other, [seconds for _, seconds in results]))
        sys.stdout.flush()


if __name__ == "__main__":
    main()
