#!/usr/bin/env python3
"""Times the program on one text with many questions, each with a clause more and two assumptions.

Run it from anywhere, with Python 3:

    tools/incremental.py              1000 questions about 10000 variables and 30000 clauses
    tools/incremental.py 100          as many questions as the word says

The clauses are random ones of three different variables, from a fixed seed, that one planted
assignment satisfies, and so are those that come with the questions; the assumptions are two literals
of the assignment. So each question has a model, and every verdict is known. Variables that were
eliminated for one question come back for another that names them. It prints the processor seconds,
also for a question. A verdict other than satisfiable ends it with status 1. The proofs and the tests
need none of this.
"""

import random
import resource
import subprocess
import sys

from speed import PROGRAM, build, fail, random_clause, text_of

SEED = 20240229
VARIABLES, CLAUSES, QUESTIONS = 10000, 30000, 1000
SATISFIABLE_LINE = "s SATISFIABLE"


def satisfied_clause(draws, values):
    while True:
        clause = random_clause(draws, VARIABLES)
        if any(values[abs(literal)] == (literal > 0) for literal in clause):
            return clause


def question(draws, values):
    """A clause, and the command that asks under two literals of the assignment."""
    assumed = draws.sample(range(1, VARIABLES + 1), 2)
    literals = " ".join(str(number if values[number] else -number) for number in assumed)
    return text_of([satisfied_clause(draws, values)]) + f"c Solver::solve( {literals} )\n"


def text(questions):
    draws = random.Random(SEED)
    values = [draws.random() < 0.5 for _ in range(VARIABLES + 1)]
    clauses = [satisfied_clause(draws, values) for _ in range(CLAUSES)]
    return text_of(clauses) + "".join(question(draws, values) for _ in range(questions))


def main():
    questions = int(sys.argv[1]) if len(sys.argv) > 1 else QUESTIONS
    build()
    before = resource.getrusage(resource.RUSAGE_CHILDREN)
    done = subprocess.run([str(PROGRAM)], input=text(questions), stdout=subprocess.PIPE, text=True)
    after = resource.getrusage(resource.RUSAGE_CHILDREN)
    verdicts = [line for line in done.stdout.splitlines() if line.startswith("s ")]
    # The end of the text asks once more.
    if len(verdicts) < questions or any(line != SATISFIABLE_LINE for line in verdicts):
        fail(f"{len(verdicts)} verdicts, not all of them as planted")
    seconds = after.ru_utime + after.ru_stime - before.ru_utime - before.ru_stime
    print(f"{questions} questions: {seconds:.2f} seconds, {1000 * seconds / questions:.1f} ms each")


if __name__ == "__main__":
    main()
