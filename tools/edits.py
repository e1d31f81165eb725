#!/usr/bin/env python3
"""Looks whether each wrong body can still be made: of must-fail/ and of tools/wrong_bodies, whose edits the gate doesn't try.

    tools/edits.py    fails where a file that an edit names isn't there, or where a text to be replaced doesn't stand in it exactly once
"""
import sys
from pathlib import Path

TOP = Path(__file__).resolve().parent.parent
CRATES = TOP / "crates"


def all_edits():
    """Each edit, with the folder of its crate."""
    for edit in sorted(CRATES.glob("*/must-fail/*.edit")):
        yield edit, edit.parent.parent
    for edit in sorted(TOP.glob("tools/wrong_bodies/*/*.edit")):
        yield edit, CRATES / edit.parent.name


def pairs_of(edit):
    """The replacements of an edit, in order: the file, what is there, and what comes in its place."""
    name, old = None, None
    for line in edit.read_text(encoding="utf-8").splitlines():
        kind, _, text = line.partition(": ")
        if kind == "file":
            name = text.strip()
        elif kind == "old":
            old = text
        elif kind == "new":
            yield name, old, text


def faults_of(edit, crate):
    """What is wrong with an edit: each replacement is looked for in what those before it made."""
    texts = {}
    for name, old, new in pairs_of(edit):
        file = crate / name
        if not file.is_file():
            yield f"{name} isn't there"
            continue
        text = texts.setdefault(name, file.read_text(encoding="utf-8"))
        if text.count(old) != 1:
            yield f"stands {text.count(old)} times: {old}"
        texts[name] = text.replace(old, new, 1)


def main():
    edits = list(all_edits())
    faults = [f"{edit.relative_to(TOP)}: {fault}" for edit, crate in edits for fault in faults_of(edit, crate)]
    for fault in faults:
        print(fault, file=sys.stderr)
    print(f"{len(edits)} wrong bodies, {len(faults)} texts that don't stand")
    return 1 if faults else 0


if __name__ == "__main__":
    sys.exit(main())
