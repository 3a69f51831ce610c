#!/usr/bin/env python3
"""Spells the names that this repository declares in its .antt files in snake case, as `anyBelow` to `any_below` and `any-each` to `any_each`.

usage: python3 tools/respell.py [--check]      at the top of the repository, after port.py

Types and modules keep their names, and so do functions of src/, what a library declares and what the checker makes. Where two names of one
file would fall together, the one with dashes, a lemma, ends in `_lem`. Names in clauses, must-fail edits, comments' and pages' code spans turn too.
It prints each name that it turned, and writes nothing under --check. A second run turns nothing more.
"""

import collections
import os
import re
import subprocess
import sys

NAME = r'[^\s(){}.;,@"«»]+'
TOKEN = re.compile(NAME)
QUIET = re.compile(r'"(?:[^"\\\n]|\\.)*"|(?<![^\s(){}.;,@"«»])--[^\n]*|\{-.*?-\}', re.S)
RUST_COMMENT = re.compile(r"//[^\n]*")
SPAN = re.compile(r"`[^`\n]+`")
MARKS = r"(?:(?:pub|abbrev|unfoldable|pattern|axiom|let|in|where) +)*"
DECLARED = re.compile(rf"(?m)^[ ]*{MARKS}({NAME})(?: \{{[^{{}}\n]*\}})*(?: [({{][^\n]*?[)}}])* :(?=\s)([^\n]*)")
LET = re.compile(rf"\blet ({NAME})(?: [^=\n]*?)? [:=](?=\s)")
BOUND = re.compile(rf"[({{]((?:{NAME} )+): ")
LAMBDA = re.compile(rf"[λ]((?: (?:{NAME}))+)\.")
FUNCTION = re.compile(rf"(?m)^[ ]*({NAME})((?: (?:{NAME}|\{{[^{{}}\n]*\}}))*) =(?=\s|$)")
USE = re.compile(r"(?m)\buse ([^\s;{]+?)(?:\.\{([^}]*)\})?(?: as ([^\s;]+))?(?=[;\s]|$)")
OWN_NAME = re.compile(r"[a-z][^A-Z-]*(?:[A-Z-].*)")


def snake(name):
    return re.sub(r"(?<=[a-z0-9])[A-Z]", lambda m: "_" + m[0].lower(), name).replace("-", "_").replace("′", "'")


def listed():
    out = subprocess.run(["git", "ls-files", "-z"], capture_output=True, text=True, check=True).stdout
    return [f for f in out.split("\0") if f and os.path.isfile(f) and not os.path.islink(f)]


def crates():
    with open("crates.txt", encoding="utf-8") as f:
        return {line.split(":")[0].split()[0] for line in f if line.strip() and not line.startswith("#")}


def code_of(text):
    return QUIET.sub(" ", text)


def lent(text, own):
    """The names that a file brings from a library."""
    found = set()
    for path, items, alias in USE.findall(text):
        steps = path.strip(".").split(".")
        if steps[0] == "Rattle" and len(steps) > 1 and steps[1] in own:
            continue
        for item in items.split(","):
            found.update(item.split()[:1])
            found.update(item.split()[2:3])
        if not items:
            found.update(steps[-1:])
    return found


def unqualified(text):
    """The names that a file says on their own or brings, and not behind a dot."""
    code = code_of(text)
    items = " ".join(items or alias for _, items, alias in USE.findall(code))
    rest = USE.sub(" ", code)
    return set(TOKEN.findall(items)) | {m[0] for m in TOKEN.finditer(rest) if rest[m.start() - 1 : m.start()] != "."}


def declared_names(texts):
    """The names that the files declare."""
    found = set()
    for text in texts.values():
        code = code_of(text)
        for name, kind in DECLARED.findall(code):
            if not re.match(r" (?:tie|goal)\.", kind):
                found.add(name)
        found.update(LET.findall(code))
        for group in BOUND.findall(code) + LAMBDA.findall(code):
            found.update(group.split())
        for name, rest in FUNCTION.findall(code):
            found.update(TOKEN.findall(rest))
    return found


def names(texts):
    """Those that snake case would turn."""
    return {n for n in declared_names(texts) if OWN_NAME.fullmatch(n) and snake(n) != n}


def table(texts, own):
    """Each name to turn with its new one."""
    turned = {n: snake(n) for n in names(texts)}
    brought = {f: lent(t, own) for f, t in texts.items()}
    words = {f: unqualified(t) for f, t in texts.items()}
    declared = declared_names(texts)
    for f, them in words.items():
        for n in them & brought[f] & set(turned):
            print(f"look: {f}: {n} is a library's here")
    groups = [(f, them) for f, them in words.items()] + [("", declared)]
    for f, them in groups:
        kept = brought.get(f, set())
        made = collections.defaultdict(set)
        for n in them:
            made[n if n in kept else turned.get(n, n)].add(n)
        for new, olds in sorted(made.items()):
            if len(olds) < 2 or not any(o in turned for o in olds):
                continue
            lemmas = [o for o in olds if "-" in o and turned.get(o) == new]
            if not lemmas:
                lemmas = [o for o in olds if turned.get(o, o) == new and "_" in o and o in declared and o not in kept]
            for o in lemmas[:1]:
                print(f"together: {f}: {sorted(olds)}: {o} ends in _lem")
                turned[o] = new + "_lem"
    return turned, brought


def turn_code(text, turned, kept, bare=False):
    """The names of a text turned. One with no dash and no capital may be a function of src/, so it turns in an .antt file and behind no dot."""

    def word(m):
        may = re.search("[A-Z-]", m[0]) or bare and m.string[m.start() - 1 : m.start()] != "."
        return turned.get(m[0], m[0]) if may and m[0] not in kept else m[0]

    return TOKEN.sub(word, text)


def turn_span(text, turned):
    word = re.compile(r"[A-Za-z][\w'′-]*")
    return SPAN.sub(lambda s: word.sub(lambda m: turned.get(m[0], m[0]) if re.search("[A-Z-]", m[0]) else m[0], s[0]), text)


def turn_comment(text, turned):
    camel = re.compile(r"(?<![\w`])[a-z]+\w*[A-Z]\w*(?![\w`])")
    return camel.sub(lambda m: turned.get(m[0], m[0]), turn_span(text, turned))


def split(pattern, text, quiet, loud):
    out, at = [], 0
    for m in pattern.finditer(text):
        out += [loud(text[at : m.start()]), quiet(m[0])]
        at = m.end()
    return "".join(out + [loud(text[at:])])


def turn(f, text, turned, kept):
    loud = lambda t: turn_code(t, turned, kept, f.endswith(".antt"))
    quiet = lambda t: t if t[0] == '"' else turn_comment(t, turned)
    if f.endswith(".antt"):
        return split(QUIET, text, quiet, loud)
    if f.endswith(".rt"):
        return split(RUST_COMMENT, text, quiet, loud)
    if f.endswith(".edit"):
        return "".join(turn_code(l, turned, kept) if re.match(r"(old|new|at): ", l) else turn_comment(l, turned) for l in text.splitlines(True))
    return turn_span(text, turned)


def main(argv):
    own = crates()
    files = [f for f in listed() if f.endswith((".antt", ".rt", ".edit", ".md"))]
    texts = {}
    for f in files:
        with open(f, encoding="utf-8") as it:
            texts[f] = it.read()
    turned, brought = table({f: t for f, t in texts.items() if f.endswith(".antt")}, own)
    for f, text in texts.items():
        new = turn(f, text, turned, brought.get(f, lent(text, own) if f.endswith(".rt") else set()))
        if new != text and "--check" not in argv:
            with open(f, "w", encoding="utf-8") as it:
                it.write(new)
    for old, new in sorted(turned.items()):
        print(f"{old} -> {new}")
    return 0


if __name__ == "__main__":
    raise SystemExit(main(sys.argv[1:]))
