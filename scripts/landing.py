#!/usr/bin/env python3
"""The figures of a landing note, as Markdown.

    scripts/landing.py BASE                lines added and removed by HEAD against the commit BASE
    scripts/landing.py BASE --gate FILE    and what a run of the gate on HEAD took and said

FILE is the saved output of a run: { time .ci/run; } > FILE 2>&1. The gate's time before is that of the last note of docs/landings, and
is named so.
A file that moved is compared with what it was where git knows it again, and its lines count for the crate that it is in now.
The seconds are those that `time` wrote, and are left out where it did not. A run takes from earlier ones on the same machine what has not changed
since, so only a run with nothing kept has the time of the whole.
"""

import argparse
import os
import re
import subprocess
import sys

NOTES = os.path.join(os.path.dirname(os.path.abspath(__file__)), "..", "docs", "landings")
PARTS = ("specs", "src", "proofs")
EDITS = re.compile(r"^\d+ edits, \d+ of them refused.*$", re.M)
VERDICT = re.compile(r"^\d+ passed, \d+ failed$", re.M)
WHOLE = re.compile(r"^real\s+(\d+)m([\d.]+)s$", re.M)


def git(*words):
    return subprocess.run(("git",) + words, stdout=subprocess.PIPE, check=True, text=True).stdout


def table(head, rows):
    print("| %s |" % " | ".join(head))
    print("|%s" % ("---|" * len(head)))
    for row in rows:
        print("| %s |" % " | ".join(str(cell) for cell in row))
    print()


def in_order(names):
    """The crates in the order of crates.txt; those that are no longer there come last."""
    listed = re.findall(r"^(\w+)(?: staticlib)?:", git("show", "HEAD:crates.txt"), re.M)
    return [name for name in listed if name in names] + sorted(set(names) - set(listed))


def changes(base):
    """By crate and part, the lines added and removed."""
    found = {}
    words = iter(git("diff", "--numstat", "--find-renames", "-z", base, "HEAD", "--", ":/crates").split("\0")[:-1])
    for word in words:
        added, removed, path = word.split("\t")
        # of a file that moved the path before and the path now come next
        path = path or (next(words), next(words))[1]
        crate, part = (path.split("/") + [""])[1:3]
        if part in PARTS:
            lines = found.setdefault(crate, {}).setdefault(part, [0, 0])
            lines[0] += int(added)
            lines[1] += int(removed)
    return found


def lines_table(found):
    total = {part: [sum(parts.get(part, [0, 0])[k] for parts in found.values()) for k in (0, 1)] for part in PARTS}
    rows = [(crate, found[crate]) for crate in in_order(found)] + [("all", total)]
    table(("crate",) + PARTS, [
        ["`%s`" % crate if crate != "all" else crate] + ["+%d -%d" % tuple(parts[part]) if part in parts else "" for part in PARTS]
        for crate, parts in rows])


def last_note():
    """The last landing note, and the line of it that has the gate's time."""
    notes = sorted(name for name in os.listdir(NOTES) if name[:2].isdigit())
    with open(os.path.join(NOTES, notes[-1]), encoding="utf-8") as file:
        return notes[-1], next((line.strip() for line in file if line.lower().startswith(("the gate", "gate"))), "no time of the gate")


def gate_text(path):
    """Of a saved run: its seconds, how many edits there are, and the verdict."""
    with open(path, encoding="utf-8", errors="replace") as file:
        text = file.read()
    whole = WHOLE.search(text)
    seconds = "%d s, " % round(60 * int(whole.group(1)) + float(whole.group(2))) if whole else ""
    ended = VERDICT.search("\n".join(text[:whole.start() if whole else None].rstrip().splitlines()[-1:]))
    tried = EDITS.findall(text)
    print("gate: %s%s%s" % (seconds, tried[-1] + "; " if tried else "", ended.group(0) if ended else "no verdict at its end"))
    print("gate before, by %s: %s" % last_note())


if __name__ == "__main__":
    words = argparse.ArgumentParser(description=__doc__, formatter_class=argparse.RawDescriptionHelpFormatter)
    words.add_argument("base")
    words.add_argument("--gate", metavar="FILE")
    given = words.parse_args()
    if git("status", "--porcelain", "--", ":/crates"):
        print("what is not committed below crates/ is not counted", file=sys.stderr)
    lines_table(changes(given.base))
    if given.gate:
        gate_text(given.gate)
