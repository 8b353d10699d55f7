#!/usr/bin/env python3
"""Asks the program random incremental texts, and checks each answer by trying all assignments.

Run it from anywhere, with Python 3:

    tools/fuzz.py [TEXTS [THREADS]]

Each of the TEXTS (10000 where no number is given) is made from its own fixed seed: clauses, parities,
questions under assumptions and new variables, at random, over at most nine variables. So variables
are fixed, replaced and eliminated at a question, and named again by what follows. Each text goes to
./torimbava with so many threads (1 where no number is given), which is built before the first. A
model must satisfy all that was read up to its question, and the assumptions; failed assumptions must
stand among those of the question, at rising places, and contradict what was read; and each question
must have one answer. The first text with a wrong answer is printed, and ends it with status 1. The
proofs and the tests need none of this.
"""

import itertools
import random
import subprocess
import sys

from speed import PROGRAM, SATISFIABLE, UNSATISFIABLE, build

SEED = 20240229
TEXTS = 10_000
MOST_VARIABLES = 9


def random_literals(draws, variables, most):
    count = draws.randint(1, most)
    return [draws.choice([-1, 1]) * draws.randint(1, variables) for _ in range(count)]


def random_steps(instance):
    """Steps of a text: a clause, a parity, new variables, or a question."""
    draws = random.Random(f"{SEED} {instance}")
    variables = draws.randint(2, MOST_VARIABLES - 2)
    steps = []
    for _ in range(draws.randint(3, 30)):
        kind = draws.random()
        if kind < 0.6:
            steps.append(("clause", random_literals(draws, variables, 3)))
        elif kind < 0.68:
            steps.append(("parity", random_literals(draws, variables, 6)))
        elif kind < 0.71 and variables < MOST_VARIABLES:
            variables += 1
            steps.append(("grow", 1))
        else:
            steps.append(("ask", random_literals(draws, variables, 3)[draws.randint(0, 1) :]))
    steps.append(("ask", []))
    return steps


def text_of(steps):
    lines = []
    for kind, what in steps[:-1]:
        if kind == "clause":
            lines.append(" ".join(map(str, what)) + " 0")
        elif kind == "parity":
            lines.append("x" + " ".join(map(str, what)) + " 0")
        elif kind == "grow":
            lines.append(f"c Solver::new_vars( {what} )")
        else:
            lines.append("c Solver::solve( " + "".join(f"{lit} " for lit in what) + ")")
    return "".join(line + "\n" for line in lines)


def is_true(values, lit):
    return values[abs(lit) - 1] == (lit > 0)


def satisfies(values, items):
    for kind, lits in items:
        count = sum(is_true(values, lit) for lit in lits)
        if (count == 0) if kind == "clause" else (count % 2 == 0):
            return False
    return True


def has_model(variables, items, assumptions):
    units = [("clause", [lit]) for lit in assumptions]
    return any(
        satisfies(values, items + units)
        for values in itertools.product([False, True], repeat=variables)
    )


def stand_in(failed, assumptions):
    """Whether the failed literals stand among the assumptions, at rising places."""
    rest = iter(assumptions)
    return all(any(lit == other for other in rest) for lit in failed)


def wrong_with_model(line, variables, items, assumptions):
    numbers = [int(word) for word in line.split()[1:]]
    if [abs(number) for number in numbers] != list(range(1, variables + 1)) + [0]:
        return "the model does not name each variable once"
    values = [number > 0 for number in numbers[:-1]]
    if not satisfies(values, items + [("clause", [lit]) for lit in assumptions]):
        return "the model does not satisfy what was read"
    return None


def wrong_with_failed(line, variables, items, assumptions):
    failed = [int(word) for word in line.split()[2:-1]]
    if not stand_in(failed, assumptions):
        return "the failed literals are not among the assumptions"
    if has_model(variables, items, failed):
        return "the failed assumptions have a model"
    return None


def wrong_answer(lines, variables, items, assumptions):
    """What is wrong with the next answer, which is taken off the lines."""
    if len(lines) < 2:
        return "a question has no answer"
    verdict, told = lines.pop(0), lines.pop(0)
    if verdict == "s SATISFIABLE" and told.startswith("v "):
        return wrong_with_model(told, variables, items, assumptions)
    if verdict == "s UNSATISFIABLE" and told.startswith("c failed "):
        return wrong_with_failed(told, variables, items, assumptions)
    return "an answer is none that is expected"


def wrong_text(steps, output, status):
    lines = output.splitlines()
    variables, items, verdict = 0, [], None
    for kind, what in steps:
        if kind == "grow":
            variables += what
            continue
        variables = max([variables] + [abs(lit) for lit in what])
        if kind == "ask":
            verdict = lines[0] if lines else None
            wrong = wrong_answer(lines, variables, items, what)
            if wrong:
                return wrong
        else:
            items.append((kind, what))
    if lines:
        return "there are more answers than questions"
    if status != (SATISFIABLE if verdict == "s SATISFIABLE" else UNSATISFIABLE):
        return f"the status is {status}"
    return None


def main():
    texts = int(sys.argv[1]) if len(sys.argv) > 1 else TEXTS
    threads = sys.argv[2] if len(sys.argv) > 2 else "1"
    build()
    questions = 0
    for instance in range(texts):
        steps = random_steps(instance)
        text = text_of(steps)
        command = [str(PROGRAM), "--threads", threads]
        done = subprocess.run(command, input=text, capture_output=True, text=True)
        wrong = wrong_text(steps, done.stdout, done.returncode)
        if wrong:
            sys.exit(f"fuzz: text {instance}: {wrong}\n{text}answered:\n{done.stdout}")
        questions += sum(kind == "ask" for kind, _ in steps)
    print(f"{texts} texts, {questions} questions, no wrong answer")


if __name__ == "__main__":
    main()
