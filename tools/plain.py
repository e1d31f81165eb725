#!/usr/bin/env python3
"""Refuses words that documents use in no plain sense: those of tools/plain.txt, each with what to write in its place.

    tools/plain.py               looks at README.md, docs/, examples/*.md and reference/README.md
    tools/plain.py --messages    looks at the texts of help, hints and messages in the crates too

Code between backquotes and indented lines aren't looked at, nor what another script writes: READING.md, and what is between marks. Some
texts are fixed, as those of reports and faults, and the names of definitions are names: these are written between backquotes.
"""
import re
import sys
from pathlib import Path

TOP = Path(__file__).resolve().parent.parent
DOCUMENTS = [TOP / "README.md", *sorted((TOP / "docs").glob("*.md")), *sorted((TOP / "examples").glob("*.md")), TOP / "reference/README.md"]
GENERATED = {"READING.md"}
# pages for users, in which words of the configuration's grammar aren't used for anything else
USERS = {"README.md", "COMMANDS.md", "GUIDE.md", "ONE-HOUR.md", "SCOPE.md", "TROUBLESHOOTING.md", "WHICH-TOOL.md", "PICTURES.md", "WORDS.md",
         "A-PROOF.md"}
MARKS = re.compile(r"<!-- tools/\w+\.py writes from here -->.*?<!-- to here -->", re.S)
CRATES = ("pd_words", "pd_hints", "pd")
# texts of messages that are fixed: what a report, a fault or a profile says
FIXED = re.compile(r"all told|untold|barred|the wish of line|Wish|wish")
STRING = re.compile(r'"((?:[^"\\\n]|\\.|\\\n)*)"')


def rules():
    """The rules for all pages, and those for the pages for users: each an expression and what to write."""
    found = ([], [])
    place = 0
    for line in (TOP / "tools/plain.txt").read_text(encoding="utf-8").splitlines():
        if line == "[users]":
            place = 1
        elif line and not line.startswith("#"):
            expression, _, advice = line.partition("\t")
            found[place].append((re.compile(expression), advice))
    return found


def blanked(text):
    """A page in which what isn't looked at is blank."""
    text = MARKS.sub(lambda found: re.sub(r"[^\n]", " ", found[0]), text)
    lines = ["" if line.startswith("    ") else line for line in text.split("\n")]
    return re.sub(r"`[^`]*`", lambda found: re.sub(r"[^\n]", " ", found[0]), "\n".join(lines))


def faults_in(path, text, wanted):
    for expression, advice in wanted:
        for found in expression.finditer(text):
            line = text.count("\n", 0, found.start()) + 1
            yield f"{path.relative_to(TOP)}:{line}: {found[0]!r}: write {advice}"


def messages_of(path):
    """The texts in a file of code, with all else blank."""
    source = re.sub(r"(?m)^[ \t]*//.*$|^ghost .*$", lambda found: " " * len(found[0]), path.read_text(encoding="utf-8"))
    out = [" " if letter != "\n" else "\n" for letter in source]
    for found in STRING.finditer(source):
        text = FIXED.sub(lambda fixed: " " * len(fixed[0]), re.sub(r"`[^`]*`", lambda code: " " * len(code[0]), found[1]))
        out[found.start(1):found.end(1)] = text
    return "".join(out)


def main(words):
    everywhere, users = rules()
    faults = []
    for path in DOCUMENTS:
        if path.name not in GENERATED:
            wanted = everywhere + (users if path.name in USERS and path.parent.name != "reference" else [])
            faults += faults_in(path, blanked(path.read_text(encoding="utf-8")), wanted)
    if "--messages" in words:
        for crate in CRATES:
            for path in sorted((TOP / "crates" / crate / "src").glob("*.rt")):
                faults += faults_in(path, messages_of(path), everywhere)
    for fault in faults:
        print(fault, file=sys.stderr)
    print(f"{len(DOCUMENTS) - len(GENERATED)} pages, {len(faults)} words that aren't plain")
    return 1 if faults else 0


if __name__ == "__main__":
    sys.exit(main(sys.argv[1:]))
