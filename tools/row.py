#!/usr/bin/env python3
"""Prints what a row of test_top says that the program prints for words, and ends with the row's status.

    tools/row.py WORD..

The words are those of `pd`, whose rows have the words of `paradyn` that stand for them. It stands in the program's place where commands that are shown are held against the rows: the gate compares what the program prints
with these. Of a row that says alone whether workers met, or whether outputs are the same, nothing is printed. Where no row has these
words, that is told, and the status is 1."""

import pathlib
import re
import sys

TOP = pathlib.Path(__file__).resolve().parent.parent
STDOUT = TOP / "crates/test_top/stdout"
ENDED = rb"\nExitCode\(unix_exit_status\((\d+)\)\)"


STANDS_FOR = {"--table": "--show table", "--words": "--show words", "--source": "--by lines", "--ascii": "--format ascii",
              "--json": "--format json", "--csv": "--format csv"}
QUIET = ("-q", "--quiet")
FILES = {"-o": "", "--svg": "--format svg", "--html": "--format html"}


def served(words):
    """The words of `paradyn` for these of `pd`, and the file that takes what is printed, if one does."""
    out, file = [], None
    words = iter(words)
    for word in words:
        if out[:1] == ["annotate"] and len(out) == 2 and not word.startswith("-"):
            out.append("--procedure")
        if word in FILES:
            file = next(words)
        out.append("" if word in QUIET else FILES.get(word, STANDS_FOR.get(word, word)))
    return " ".join(word for word in out if word), file


def row_of(words, rows):
    """The status of the row with these words, and what it prints; or None."""
    served = re.search(rb"^words " + re.escape(words) + ENDED + rb" out (\d+) log \d+\n", rows, re.M)
    if served:
        return int(served[1]), rows[served.end():served.end() + int(served[2])]
    silent = re.search(rb"^(?:meet \S+|compare) " + re.escape(words) + ENDED + rb" (?:met|same report)\n", rows, re.M)
    return (int(silent[1]), b"") if silent else None


def main():
    words, file = served(sys.argv[1:])
    row = row_of(words.encode(), STDOUT.read_bytes())
    if row is None:
        print(f"no row has the words {words}", file=sys.stderr)
        return 1
    if file is None:
        sys.stdout.buffer.write(row[1])
    else:
        pathlib.Path(file).write_bytes(row[1])
    return row[0]


if __name__ == "__main__":
    sys.exit(main())
