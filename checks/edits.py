#!/usr/bin/env python3
"""Checks that each must-fail edit can be applied: its files exist, each old text occurs exactly once, and the edit changes something.

    checks/edits.py

It reads the edits of crates/CRATE/must-fail, which `rt ci` tries, and those of checks/bodies/CRATE, which `checks/wrong_bodies` tries. `rt ci`
counts an edit that can't be applied for nothing, says so at the end of its hours, and passes. So this check finds it first, in a second.
It prints a line for each edit that can't be applied, and then ends with 1. Whether the prover refuses an edit is not looked at here.
"""
import glob
import os
import re
import sys

TOP = os.path.dirname(os.path.dirname(os.path.realpath(__file__)))
# `rt` reads no other name as an edit, and a file of notes ends in .md.
NAME = re.compile(r"[A-Za-z0-9_-][A-Za-z0-9_.-]*\.edit")


def read(path):
    with open(path, encoding="utf-8") as file:
        return file.read()


def fault_of(edit, crate):
    """Returns why an edit of a crate can't be applied, or None."""
    if not NAME.fullmatch(os.path.basename(edit)):
        return "its name does not end in .edit"
    if not os.path.isdir(f"{crate}/src"):
        return f"there is no crate {os.path.basename(crate)}"
    path, old, texts = None, None, {}
    for line in read(edit).split("\n"):
        if line.startswith("file: "):
            path = line.removeprefix("file: ").strip()
            if not re.match(r"(src|specs|proofs)/", path) or os.path.normpath(path) != path or not os.path.isfile(f"{crate}/{path}"):
                return f"there is no file {path} in its src, specs or proofs"
        elif line.startswith("old: "):
            old = line.removeprefix("old: ")
        elif line.startswith("new:"):
            if not path or not old:
                return "a line `new:` comes before its `file:` or its `old:`"
            text = texts.get(path) or read(f"{crate}/{path}")
            if text.count(old) != 1:
                return f"an `old:` occurs {text.count(old)} times in {path}"
            texts[path] = text.replace(old, line.removeprefix("new:").removeprefix(" "))
            old = None
    if not texts or all(text == read(f"{crate}/{path}") for path, text in texts.items()):
        return "it changes nothing"
    return None


def main():
    places = [(it, it.split("/")[-3]) for it in glob.glob(f"{TOP}/crates/*/must-fail/*") if not it.endswith(".md")]
    places += [(it, it.split("/")[-2]) for it in glob.glob(f"{TOP}/checks/bodies/*/*")]
    faults = 0
    for edit, crate in sorted(places):
        fault = fault_of(edit, f"{TOP}/crates/{crate}")
        if fault:
            faults += 1
            print(f"{os.path.relpath(edit, TOP)}: {fault}")
    print(f"{len(places) - faults} of {len(places)} must-fail edits can be applied")
    return 1 if faults else 0


if __name__ == "__main__":
    sys.exit(main())
