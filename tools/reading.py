#!/usr/bin/env python3
"""Times how long the program takes to read a text of 25 MB.

Run it from anywhere, with Python 3 and no arguments:

    tools/reading.py

It makes a text of random clauses of three literals over 300000 variables, from a fixed seed. Behind
the last clause stands a token that is none, so that ./torimbava, which is built first, reads and
keeps every clause and then refuses the text without a question. It prints the least processor time
of three runs, in seconds. Where cadical is on the path, it reads the same clauses without that
token and is stopped before its first conflict; beside its own word on the time that it took to
parse, the processor time of its whole run is printed. The proofs and the tests need none of this.
"""

import random
import re
import resource
import shutil
import subprocess
import sys
import tempfile
from pathlib import Path

PROGRAM = Path(__file__).resolve().parent.parent / "torimbava"
SEED = 20240229
VARIABLES = 300_000
BYTES = 25_000_000
RUNS = 3
REFUSED = 2


def clauses():
    draws = random.Random(SEED)
    lines = []
    size = 0
    while size < BYTES:
        numbers = draws.sample(range(1, VARIABLES + 1), 3)
        line = " ".join(str(n if draws.random() < 0.5 else -n) for n in numbers) + " 0\n"
        lines.append(line)
        size += len(line)
    return lines


def processor_seconds(command, source):
    """What the command printed, its status, and its processor time."""
    before = resource.getrusage(resource.RUSAGE_CHILDREN)
    done = subprocess.run(command, stdin=source, capture_output=True, text=True)
    after = resource.getrusage(resource.RUSAGE_CHILDREN)
    taken = after.ru_utime + after.ru_stime - before.ru_utime - before.ru_stime
    return done.stdout, done.returncode, taken


def least_of_ours(path):
    times = []
    for _ in range(RUNS):
        with open(path) as source:
            output, status, taken = processor_seconds([str(PROGRAM)], source)
        if status != REFUSED:
            sys.exit(f"reading: status {status} in place of {REFUSED}: {output[:80]}")
        times.append(taken)
    return min(times)


def least_of_cadical(path):
    told, whole = [], []
    for _ in range(RUNS):
        output, _, taken = processor_seconds(["cadical", "-c", "0", path], None)
        found = re.search(r"parsed \d+ clauses in ([0-9.]+) seconds", output)
        if not found:
            sys.exit("reading: cadical does not tell its time")
        told.append(float(found.group(1)))
        whole.append(taken)
    return min(told), min(whole)


def main():
    subprocess.run([str(PROGRAM)], stdin=subprocess.DEVNULL, capture_output=True)
    lines = clauses()
    with tempfile.TemporaryDirectory() as folder:
        refused = Path(folder) / "refused.cnf"
        refused.write_text("".join(lines) + "a\n")
        print(f"{len(lines)} clauses, {refused.stat().st_size} bytes")
        print(f"ours: {least_of_ours(refused):.2f}")
        if shutil.which("cadical"):
            plain = Path(folder) / "plain.cnf"
            plain.write_text(f"p cnf {VARIABLES} {len(lines)}\n" + "".join(lines))
            told, whole = least_of_cadical(str(plain))
            print(f"cadical: {told:.2f} to parse, {whole:.2f} in all")


if __name__ == "__main__":
    main()
