#!/usr/bin/env python3
"""Gives the rows of test_top the files of examples/ anew, or compares them.

    tools/example_files.py [--check]

A file of a case that has the name of a file of examples/, examples/words or examples/recipes is given the bytes that it has there.
All such files of a case are taken from one of these folders, the one that has most of their names. A file that a shown command makes
is given what the row of that command prints. With --check nothing is written: the files that a row has otherwise are told, and the status is 1 where there are some."""

import os
import pathlib
import re
import sys

TOP = pathlib.Path(__file__).resolve().parent.parent
sys.dont_write_bytecode = True
sys.path.insert(0, str(TOP / "reference"))

from row import row_of  # noqa: E402
from rows import calls  # noqa: E402

STDIN = TOP / "crates/test_top/stdin"
STDOUT = TOP / "crates/test_top/stdout"
# Files that a shown command makes, each with the words of the row that prints what it has.
MADE = {
    b"words.report": b"run words.elf search.conf --harts 4 --width 2000",
    b"words3.report": b"run words3.elf search.conf --harts 4 --width 2000",
    b"words.profile": b"profile words.elf --harts 4",
    b"words3.profile": b"profile words3.elf --harts 4",
    b"waits.conf": b"ask words.elf sync_wait --each procedure --harts 4 --instruments 6",
    b"waits.report": b"run words.elf waits.conf --harts 4 --width 20000",
}
FOLDERS = [TOP / "examples", TOP / "examples/words", TOP / "examples/recipes"]
# The lines that give a file.
FILE = re.compile(rb"^file (.*)\n(?:(?:\||hex |fill |cut |byte ).*\n)*", re.M)
MOST_DIGITS = 2048


def files_of(names):
    """Of a case's names those that a file of examples/ has, each with its file in the folder of the case."""
    paths = {name: os.fsdecode(name) for name in names}
    folder = max(FOLDERS, key=lambda each: sum((each / path).is_file() for path in paths.values()))
    return {name: folder / path for name, path in paths.items() if any((each / path).is_file() for each in FOLDERS)}


def lines_of(name, content):
    """The lines that give a file: those of its text, or digits."""
    lines = [b"file " + name]
    if b"\0" not in content and (not content or content.endswith(b"\n")):
        lines += [b"|" + line for line in content.split(b"\n")[:-1]]
    else:
        digits = content.hex().encode()
        lines += [b"hex " + digits[at:at + MOST_DIGITS] for at in range(0, len(digits), MOST_DIGITS)]
    return b"\n".join(lines) + b"\n"


def made(words):
    """What the row with these words prints."""
    return row_of(words, STDOUT.read_bytes())[1]


def given(case):
    """The lines of a case, with its files from examples/, and those that shown commands make."""
    files = files_of(row[1] for row in FILE.finditer(case))

    def put(row):
        if row[1] in MADE:
            return lines_of(row[1], made(MADE[row[1]]))
        path = files.get(row[1])
        return lines_of(row[1], path.read_bytes()) if path and path.is_file() else row[0]
    return FILE.sub(put, case)


def others(stdin):
    """The files that a row has otherwise."""
    found = set()
    for _, _, case in calls.calls(stdin):
        found |= {os.fsdecode(name) for name in MADE if name in case.files and case.files[name].content != made(MADE[name])}
        for name, path in files_of(case.files).items():
            if not path.is_file() or path.read_bytes() != case.files[name].content:
                found.add(str(path.relative_to(TOP)))
    return sorted(found)


def main():
    stdin = STDIN.read_bytes()
    if "--check" not in sys.argv:
        STDIN.write_bytes(b"".join(given(case) for case in re.split(rb"^(?=new$)", stdin, flags=re.M)))
        return 0
    found = others(stdin)
    for name in found:
        print(f"{name}: a row of test_top has other bytes")
    return 1 if found else 0


sys.exit(main())
