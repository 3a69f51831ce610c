#!/usr/bin/env python3
"""Runs the program `plan` on every stored case and on the inputs at the edges of its own limits.

    scripts/run_plan.py crates/plan/out/plan      where `rt ci`, or `rt run` in crates/plan, puts it

What it prints must be the text of reference.py.
"""

import subprocess
import sys

import reference
from logs import case_file, extended, tube
from make_cases import CONTENT, LARGEST


def edges():
    """Inputs by name: too short, and at the largest length and above it."""
    whole = case_file(0, 2, tube())
    inputs = {"first_%d_bytes" % length: whole[:length] for length in range(9)}
    for length in (LARGEST - 1, LARGEST, LARGEST + 1, 2 * LARGEST):
        inputs["tube_log_in_%d_bytes" % length] = case_file(0, 2, extended(tube(), length - len(whole)))
    return inputs


def main(program):
    inputs = {**CONTENT, **edges()}
    wrong = 0
    for name, content in inputs.items():
        printed = subprocess.run([program], input=content, stdout=subprocess.PIPE, check=True).stdout.decode()
        if printed != reference.printed(content):
            print("%s: printed\n%sexpected\n%s" % (name, printed, reference.printed(content)))
            wrong += 1
    print("plan: %d inputs, %d with other text than the reference's" % (len(inputs), wrong))
    return 1 if wrong else 0


if __name__ == "__main__":
    if len(sys.argv) != 2:
        sys.exit(__doc__)
    sys.exit(main(sys.argv[1]))
