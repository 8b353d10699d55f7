#!/usr/bin/env python3
"""Checks the expected output of the library's tour by trying all assignments.

Run it from anywhere, with Python 3 and no arguments:

    tools/check_tour.py

crates/library_tour/stdout was written by hand, and the gate compares it with what the tour prints.
This script reads it line by line as calls and answers, keeps the clauses and parities that were
taken, and says of each answer whether it is right: a refusal by the rule that it names, an answer
by a trial of all assignments, or by the number of pigeons and holes, and one by the alarm only as
often as the alarm asks for a stop. It ends with status 1 at the first wrong line.
The proofs and the tests need none of this.
"""

import itertools
import re
import sys
from pathlib import Path

EXPECTED = Path(__file__).resolve().parent.parent / "crates" / "library_tour" / "stdout"
GREATEST_VARS = 16777215
GREATEST_LITS = 33554432
OWN_LIMITS = re.compile(r"# At most (\d+) variables and (\d+) literals")
COUNT = re.compile(r"models of x(\[.*\]) (true|false) with (\[.*\]) over (\d+) variables")
LITERAL = re.compile(r"Lit { var: Var\((\d+)\), negative: (true|false) }")


class Solver:
    """The variables and clauses that a topic's solver took, and what its latest call left."""

    def __init__(self, most_vars=GREATEST_VARS, most_lits=GREATEST_LITS):
        self.most_vars, self.most_lits = most_vars, most_lits
        self.vars, self.clauses, self.parities, self.lits = 0, [], [], 0
        self.pigeons = None
        self.okay = True
        self.raises = 0
        self.assumptions = []
        self.model = self.conflict = "None"

    def forget(self):
        self.model = self.conflict = "None"

    def interrupt(self):
        """Whether a poll is left at which the alarm asks for a stop."""
        self.forget()
        self.raises -= 1
        return self.raises >= 0

    def new_vars(self, by):
        if self.vars + by > self.most_vars:
            return "Err(TooManyVars)"
        self.vars += by
        self.forget()
        return "Ok(())"

    def add(self, clause, count):
        if refusal := self.refusal(clause):
            return refusal
        if self.lits + count > self.most_lits:
            return "Err(TooManyLits)"
        self.clauses.append(clause)
        self.lits += count
        self.forget()
        return "Ok(())"

    def add_parity(self, variables, rhs):
        if refusal := self.refusal(variables):
            return refusal
        if self.lits + len(variables) > self.most_lits:
            return "Err(TooManyLits)"
        self.parities.append((variables, rhs))
        self.lits += len(variables)
        self.forget()
        return "Ok(())"

    def refusal(self, lits):
        unknown = [abs(lit) - 1 for lit in lits if abs(lit) > self.vars]
        return f"Err(NoSuchVar {{ var: {unknown[0]} }})" if unknown else None

    def solve(self, assumptions):
        if refusal := self.refusal(assumptions):
            return refusal
        self.assumptions = assumptions
        holds = self.is_satisfiable(assumptions)
        self.model, self.conflict = ("some", "None") if holds else ("None", "some")
        self.okay = self.okay and (holds or self.is_satisfiable([]))
        return "Sat" if holds else "Unsat"

    def satisfies(self, values, assumptions):
        clauses = self.clauses + [[lit] for lit in assumptions]
        return all(
            any(values[abs(lit) - 1] == (lit > 0) for lit in clause) for clause in clauses
        ) and all(is_satisfied(values, *parity) for parity in self.parities)

    def is_satisfiable(self, assumptions):
        if self.pigeons:
            return self.pigeons[0] <= self.pigeons[1]
        every = itertools.product([False, True], repeat=self.vars)
        return any(self.satisfies(values, assumptions) for values in every)

    def is_right_model(self, text):
        values = [word == "true" for word in re.findall("true|false", text)]
        return len(values) == self.vars and self.satisfies(values, self.assumptions)

    def is_right_conflict(self, text):
        """Negated, its literals are assumptions in their order, and alone contradict the clauses."""
        failed = [
            (int(var) + 1) * (1 if negative == "true" else -1)
            for var, negative in LITERAL.findall(text)
        ]
        places = iter(self.assumptions)
        return all(lit in places for lit in failed) and not self.is_satisfiable(failed)


def is_satisfied(values, variables, rhs):
    """Whether an odd number of the variables, each as often as it stands, is true just if rhs."""
    return (sum(values[variable - 1] for variable in variables) % 2 == 1) == rhs


def is_right_count(match, answer):
    variables, rhs, fixed = numbers(match[1]), match[2] == "true", numbers(match[3])
    every = itertools.product([False, True], repeat=int(match[4]))
    count = sum(
        all(values[abs(lit) - 1] == (lit > 0) for lit in fixed)
        and is_satisfied(values, variables, rhs)
        for values in every
    )
    return int(answer) == count


def numbers(text):
    return [int(number) for number in re.findall(r"-?\d+", text)]


def is_right(solver, line):
    """Whether a line says what the call that it names answers."""
    call, _, answer = line.partition(": ")
    if call.startswith("new_vars"):
        return answer == solver.new_vars(numbers(call)[0])
    if call.startswith("add_clause of"):
        return answer == solver.add([1], numbers(call)[0])
    if match := re.fullmatch(r"add_xor_clause (\[.*\]) (true|false)", call):
        return answer == solver.add_parity(numbers(match[1]), match[2] == "true")
    if match := COUNT.fullmatch(call):
        return is_right_count(match, answer)
    if call.startswith("add_clause"):
        clause = numbers(call)
        return answer == solver.add(clause, len(clause))
    if call == "solve" and answer == "Unknown, by the alarm":
        return solver.interrupt()
    if call == "solve" and answer.startswith("Unknown"):
        solver.forget()
        return answer == "Unknown, at [0] conflicts"
    if call.startswith("solve"):
        return answer == solver.solve(numbers(call))
    if call == "okay":
        return answer == str(solver.okay).lower()
    if call == "get_model" and solver.model == "some":
        return answer.startswith("Some") and solver.is_right_model(answer)
    if call == "get_model":
        return answer == "None"
    if call == "get_conflict" and solver.conflict == "some":
        return answer.startswith("Some") and solver.is_right_conflict(answer)
    if call == "get_conflict":
        return answer == "None"
    if call == "n_vars":
        return int(answer) == solver.vars
    if call == "true values in the model":
        return answer == f"Some({solver.pigeons[0]})"
    if match := re.fullmatch(r"(\d+) pigeons in (\d+) holes", line):
        solver.pigeons = int(match[1]), int(match[2])
        return True
    if line.startswith("an alarm at polls"):
        solver.raises = len(numbers(line))
        return True
    known = (
        "the second variable is never false",
        "with a clause more: Some([false, true])",
        "conflicts above 100: true",
        "set_max_confl Some(0)",
        "set_max_confl None",
    )
    return line in known


def main():
    solver = Solver()
    lines = EXPECTED.read_text().splitlines()
    for place, line in enumerate(lines, 1):
        if match := OWN_LIMITS.fullmatch(line):
            solver = Solver(int(match[1]), int(match[2]))
        elif line.startswith("# "):
            solver = Solver()
        elif not is_right(solver, line):
            sys.exit(f"{EXPECTED.name}, line {place}: not right: {line}")
    print(f"{len(lines)} lines are right")


if __name__ == "__main__":
    main()
