#!/usr/bin/env python3
"""Whether each must-fail edit was refused at the fact that it stands for, by what `rt ci` or `rt must-fail` printed.

    scripts/edits.py FILE            all edits; exit status 1 where one was not tried, or was refused elsewhere than it says
    scripts/edits.py FILE NAME ..    those of these crates
    scripts/edits.py FILE --write    puts the place of each refusal into the table: then each is read against the edit's name

FILE holds what was printed: a line for each edit, with the first error that refuses it, which rt cuts off after 160 characters.

edits.tsv beside this script has a row for each edit: crate/edit, a tab, and the place at which the prover must refuse it first. Where a proof is
refused, that is a file of its crate, the goal or the lemma there, and where that is a record, its field. Where rattle itself found no proof of a
goal that has no answer, it is the file of the source, the function there, and the goal. An error that is about a name, a module, a field, an
argument or a goal that is gone shows nothing: the edit made the proof unfit, and the fact was never asked.
"""

import pathlib
import re
import sys

TOP = pathlib.Path(__file__).resolve().parent.parent
TABLE = TOP / "scripts" / "edits.tsv"
GONE = re.compile(
    r"that can be named from here|no module is found|has no field|is not in scope|Parse|Scope|takes .* argument|was not admitted")
TRIED = re.compile(r"^(?:rt: )?must-fail (?P<crate>\w+)/(?P<edit>[\w.-]+)\.edit: (?P<said>.*)$")
REFUSED = re.compile(r"^refused, as it must be(?: \((?P<but>.*?)\))?: (?P<error>(?:note: )?\S+:\d+:\d+: .*)$")
ERROR = re.compile(r"^(?:\./)?(?P<file>\S+?):(?P<line>\d+):\d+: error: `(?P<law>[^`]+)`: (?P<said>.*)$")
OPEN = re.compile(r"^note: (?:\./)?(?P<file>\S+?):(?P<line>\d+):\d+: [^(]*\(`(?P<goal>[^`]+)`")
FIELD = re.compile(r"^\s+(?P<field>[\w-]+) =(?: |$)")
FUNCTION = re.compile(r"^\s*(?:pub(?:\([\w:]+\))? )?(?:final |const |unsafe )*(?:extern \"C\" )?fn (?P<function>\w+)")


def tried(printed):
    """What is said of each edit that was tried, by crate and edit."""
    found = (TRIED.match(line) for line in printed.splitlines())
    return {(line["crate"], line["edit"]): line["said"] for line in found if line}


def field_of(lines, at, law):
    """The field of a record that line `at` of a law is in: of it and the lines above it, the nearest that is indented less and gives one."""
    indent = sys.maxsize
    for line in reversed(lines[:at + 1]):
        left = len(line) - len(line.lstrip())
        found = FIELD.match(line)
        if not left or found and found["field"] == law:
            return []
        if left < indent:
            indent = left
            if found:
                return [found["field"]]
    return []


def function_of(lines, at):
    """The function that line `at` of the source is in: the nearest above that line, or below the attributes that it is one of."""
    while at + 1 < len(lines) and lines[at].lstrip().startswith(("#[", "//")):
        at += 1
    found = (FUNCTION.match(line) for line in reversed(lines[:at + 1]))
    return next((line["function"] for line in found if line), "?")


def place_of(edit, said):
    """The place of the first error, or what is wrong with it."""
    crate = edit.parent.parent
    refused = REFUSED.match(said)
    if not refused:
        return None, "is not refused at a place: %s" % said[:200]
    error = refused["error"]
    if "names what the edit took away" in (refused["but"] or ""):
        return None, "is refused for what is gone: %s" % error[:160]
    for shape in (ERROR, OPEN):
        found = shape.match(error)
        if found:
            lines = (crate / found["file"]).read_text(encoding="utf-8").splitlines()
            at = int(found["line"]) - 1
            if shape is OPEN:
                return " ".join([found["file"], function_of(lines, at), found["goal"]]), ""
            if GONE.search(found["said"]):
                return None, "is refused for what is gone: %s" % found["said"][:160]
            return " ".join([found["file"], found["law"]] + field_of(lines, at, found["law"])), ""
    return None, "is refused with no goal or lemma named: %s" % error[:160]


def table():
    """The place that is written down for each edit."""
    rows = TABLE.read_text(encoding="utf-8").splitlines() if TABLE.exists() else []
    return dict(row.split("\t") for row in rows)


def check(edit, said, named):
    """The place of an edit's refusal, and what is wrong with it, or nothing."""
    if said is None:
        return None, "was not tried"
    place, wrong = place_of(edit, said)
    if wrong:
        return place, wrong
    if named is None:
        return place, "has no row in the table; it is refused at %s" % place
    return place, "" if named == place else "is refused at %s, not at %s" % (place, named)


def main(words):
    write = "--write" in words
    words = [word for word in words if not word.startswith("-")]
    if not words:
        sys.exit(__doc__)
    said = tried(pathlib.Path(words[0]).read_text(encoding="utf-8", errors="replace"))
    crates = words[1:] or ["*"]
    edits = sorted(edit for crate in crates for edit in TOP.glob("crates/%s/must-fail/*.edit" % crate))
    rows = table()
    faults = 0
    for edit in edits:
        name = "%s/%s" % (edit.parent.parent.name, edit.stem)
        place, wrong = check(edit, said.get((edit.parent.parent.name, edit.stem)), rows.get(name))
        if write and place:
            rows[name] = place
            wrong = ""
        if wrong:
            faults += 1
            print("%s %s" % (name, wrong))
    if write:
        TABLE.write_text("".join("%s\t%s\n" % row for row in sorted(rows.items())), encoding="utf-8")
    done = "have the place of their refusal now" if write else "refused at the fact that they name"
    print("%d edits, %d of them %s" % (len(edits), len(edits) - faults, done))
    return 1 if faults or not edits else 0


if __name__ == "__main__":
    sys.exit(main(sys.argv[1:]))
