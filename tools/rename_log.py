#!/usr/bin/env python3
"""Renames the crate `log`, whose name a library of the kit has, to `event_log`: its folder, crates.txt, paths of .antt, .rt and .edit files.

usage: python3 tools/rename_log.py     at the top of the repository, after respell.py
"""

import os
import re
import subprocess


def turned(file, text):
    if file == "crates.txt":
        return re.sub(r"(?m)(?<![\w])log(?![\w])", "event_log", text) if not text.startswith("#!") else text
    text = re.sub(r"\bRattle\.log\.", "Rattle.event_log.", text)
    text = re.sub(r"(?<![\w.])log::", "event_log::", text)
    text = re.sub(r"#log·", "#event_log·", text)
    return re.sub(r"\bRattle-log-", "Rattle-event_log-", text)


def main():
    if os.path.isdir("crates/log"):
        subprocess.run(["git", "mv", "crates/log", "crates/event_log"], check=True)
    listed = subprocess.run(["git", "ls-files", "-z"], capture_output=True, text=True, check=True).stdout.split("\0")
    for file in listed:
        if file == "crates.txt" or file.startswith("crates/") and file.endswith((".antt", ".rt", ".edit")):
            with open(file, encoding="utf-8") as it:
                text = it.read()
            new = turned(file, text)
            if new != text:
                with open(file, "w", encoding="utf-8") as it:
                    it.write(new)


main()
