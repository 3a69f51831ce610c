#!/usr/bin/env python3
"""Shows a stored case: how it is made, its log, and the expected lines beside those that the calls give.

    scripts/show.py          the names of the cases
    scripts/show.py NAME     one case, on 120 columns

The expected lines are those of expected.py. The others are what crates/cases/out/cases, as `rt ci` or `rt run` built it last,
prints for the case as make_cases.py has it now; it need not be stored yet. Each call of a line stands on a row of its own, after its label,
with the words that it changes and what it returns; expected.py says how. A row that differs begins with `!`, and then the exit
status is 1.
"""

import ast
import inspect
import itertools
import os
import re
import signal
import subprocess
import sys
import tempfile
import textwrap

import logs
import make_cases
import reference
from calls import LINE, NAMES, case_of, labelled, listed
from expected import case_lines

PROGRAM = os.path.abspath(os.path.join(make_cases.CRATE, "out", "cases"))

# The columns of a row, of one of its two sides, and the events of a worker that are shown.
WIDTH = 118
SIDE = 57
EVENTS = 12


def wrapped(text, width=WIDTH, indent="    "):
    return textwrap.wrap(text, width, subsequent_indent=indent)


# ---- How the case is made


def comments_from(lines, first):
    return list(itertools.takewhile(lambda line: line.startswith("#"), lines[first:]))


def made_by(name):
    """The part of make_cases.py that makes the case: its heading, the comment on it, the statement, the functions in it."""
    source = inspect.getsource(make_cases)
    lines = source.split("\n")
    body = ast.parse(source).body
    statement = next(s for s in body if s.lineno <= make_cases.LINE[name] <= s.end_lineno)
    first, end = statement.lineno - 1, statement.end_lineno
    heading = max((k for k in range(first) if lines[k].startswith("# ----")), default=first)
    while lines[first - 1].startswith("#") and first - 1 > heading:
        first -= 1
    shown = comments_from(lines, heading) + lines[first:end]
    for called in sorted({node.id for node in ast.walk(statement) if isinstance(node, ast.Name)}):
        function = getattr(make_cases, called, None)
        if inspect.isfunction(function) and function.__doc__ and not called.endswith("case"):
            shown.append("# %s: %s" % (called, function.__doc__.split("\n")[0]))
    return shown


def event_text(x, event):
    kind = {number: kind for kind, number in logs.KINDS.items()}[event.kind]
    return "%d %s %s at %d" % (x, kind, "to %d" % event.peer if kind == "send" else "%d/%d" % (event.peer, event.send), event.stamp)


def checkpoint_text(checkpoint):
    return "%d %d%s" % (checkpoint.index, checkpoint.identifier, " withdrawn" if checkpoint.withdrawn else "")


def log_rows(data):
    """An accepted log, worker by worker; a receive names its send by worker and event."""
    if reference.refusal(data):
        return ["refused by %d" % reference.refusal(data)]
    log = reference.read(data)
    rows = []
    for w in range(log.n):
        rows.append("worker %d role %d events %d checkpoints %d" % (w, log.roles[w], log.count(w), len(log.checkpoints[w])))
        for what, records in (
            ("events", [event_text(x, event) for x, event in enumerate(log.events[w], 1)]),
            ("checkpoints, index and identifier", [checkpoint_text(checkpoint) for checkpoint in log.checkpoints[w]]),
        ):
            more = ["%d more" % (len(records) - EVENTS)] if len(records) > EVENTS else []
            if records:
                rows += wrapped("  %s: %s" % (what, "; ".join(records[:EVENTS] + more)))
    return rows


# ---- The lines


def calls_in(line):
    """What stands before the calls of a line, and the text of each call after its name."""
    head, *texts = re.split(r" (?:%s) +(?=[^ ])" % "|".join(NAMES), line)
    return head, texts


def labels_of(content, extra):
    """The labels of the calls of each line."""
    lines = [[]]
    for place, label in labelled(content, extra):
        if place == LINE:
            lines.append([])
        else:
            lines[-1].append(label)
    return lines


def rows_of(label, text, width):
    return wrapped("  %s: %s" % (label, text), width, " " * 8) if text else []


def given(name):
    """What the program prints for the case; None where it is not built."""
    if not os.path.exists(PROGRAM):
        return None
    with tempfile.TemporaryDirectory() as room:
        with open(os.path.join(room, name), "wb") as file:
            file.write(make_cases.CONTENT[name])
        calls = listed(make_cases.CONTENT[name], make_cases.extra(name))
        return subprocess.run([PROGRAM, name], cwd=room, input=calls, stdout=subprocess.PIPE).stdout.decode()


def print_beside(left, right):
    """Prints two texts, of some rows each, side by side. A row that differs begins with `!`."""
    for row, other in itertools.zip_longest(left, right, fillvalue=""):
        print("%s %s | %s" % (" " if row == other else "!", row.ljust(SIDE), other))


def compare(expected, found, labels):
    """Prints the lines side by side; gives the number of those that differ."""
    print("  %s | given" % "expected".ljust(SIDE))
    for line, other, names in itertools.zip_longest(expected, found, labels, fillvalue=""):
        sides = [calls_in(side) for side in (line, other)]
        print_beside(*([head] for head, _ in sides))
        for label, *texts in itertools.zip_longest(names, *(texts for _, texts in sides), fillvalue=""):
            print_beside(*(rows_of(label, text, SIDE) for text in texts))
    differing = sum(line != other for line, other in itertools.zip_longest(expected, found))
    print("%d lines, %d of them differ" % (max(len(expected), len(found)), differing))
    return differing


def show(name):
    content = make_cases.CONTENT[name]
    log, worker, event = case_of(content)
    print("%s\n  event %d of worker %d; made at line %d of scripts/make_cases.py" % (name, event, worker, make_cases.LINE[name]))
    for line in made_by(name):
        print("\n".join(wrapped("  " + line, WIDTH, " " * 8)))
    print("\n" + "\n".join(log_rows(log)) + "\n")
    extra = make_cases.extra(name)
    expected, found, labels = case_lines(name, content, extra).splitlines(), given(name), labels_of(content, extra)
    if found is not None:
        return compare(expected, found.splitlines(), labels)
    print("crates/cases/out/cases is not built (rt run in crates/cases builds it): the expected lines alone")
    for line, names in zip(expected, labels):
        head, texts = calls_in(line)
        print("  " + head)
        for label, text in zip(names, texts):
            print("\n".join("  " + row for row in rows_of(label, text, WIDTH)))
    return 0


if __name__ == "__main__":
    signal.signal(signal.SIGPIPE, signal.SIG_DFL)
    if len(sys.argv) > 2:
        sys.exit(__doc__)
    if len(sys.argv) == 1:
        print("\n".join(make_cases.CONTENT))
    elif sys.argv[1] in make_cases.CONTENT:
        sys.exit(1 if show(sys.argv[1]) else 0)
    else:
        sys.exit("no case has this name; scripts/show.py lists the names")
