#!/usr/bin/env python3
"""Makes the expected outputs of the test programs anew, from their inputs, by the reference.

    tools/rows.py [--check] [CRATE..]

The crates are those that have rows: test_top, test_language, test_machine and paradyn, all where none is named. Each
`stdout` is written; with --check it is compared, the rows that differ are told, and the status is 1 where there are
some. `reference/by_hand.txt` lists the rows whose expectation the reference doesn't make whole.

With --check of test_top the examples are held against its rows too: the rows have the files of examples/ (tools/example_files.py), and
the commands of the documents and of examples/run.sh print what the rows with their words do. With --check of test_language one of its
rows has to say that the text in docs/METRICS.md means what is shipped."""

import argparse
import os
import pathlib
import re
import subprocess
import sys
import urllib.parse

TOP = pathlib.Path(__file__).resolve().parent.parent
sys.dont_write_bytecode = True
sys.path.insert(0, str(TOP / "reference"))

from rows.tables import CRATES  # noqa: E402

MOST_SHOWN = 10


def by_hand(crate):
    """How the rows of the crate begin that are listed as made by hand."""
    lines = (TOP / "reference/by_hand.txt").read_text().splitlines()
    parts = [line.split("\t") for line in lines if line and not line.startswith("#")]
    return tuple(beginning for name, beginning, _ in parts if name == crate)


def as_text(row):
    return row.decode("utf-8", "replace") if isinstance(row, bytes) else row


class Standing:
    """What stands in a crate's `stdout`, which is compared row by row."""

    def __init__(self, content):
        self.content, self.at = content, 0

    def takes(self, text, following):
        """Whether the text stands next. Where it doesn't, what follows is looked for, so that one row that differs is
        told alone."""
        if self.content.startswith(text, self.at):
            self.at += len(text)
            return True
        found = self.content.find(following, self.at) if following else len(self.content)
        self.at = found if found >= 0 else self.at
        return False


def check(crate, rows):
    """How many rows differ from what stands."""
    standing, differ = Standing((TOP / "crates" / crate / "stdout").read_bytes()), 0
    for k, (row, text) in enumerate(rows):
        following = next((t for _, t in rows[k + 1:] if t), b"")
        if not standing.takes(text, following):
            differ += 1
            if differ <= MOST_SHOWN:
                print(f"{crate}: differs: {as_text(row):.150}")
    if standing.at != len(standing.content):
        differ += 1
        print(f"{crate}: more stands behind the rows")
    return differ


def are_shown(_):
    """Whether the examples are what the rows of test_top say, which is told where they aren't."""
    row = str(TOP / "tools/row.py")
    tools = [[TOP / "tools/example_files.py", "--check"], [TOP / "tools/shown.py", row], [TOP / "examples/run.sh"]]
    statuses = [subprocess.run(tool, env=dict(os.environ, PARADYN=row), check=False).returncode for tool in tools]
    return not any(statuses)


def is_shipped(rows):
    """Whether a row of test_language says that the text in METRICS.md means what is shipped, which is told where none does."""
    document = (TOP / "docs/METRICS.md").read_text()
    blocks = re.findall(r"`include (?:metrics|hypotheses);` stands for.*\n\n((?:    .*\n)+)", document)
    blocks = [re.sub("^    ", "", block, flags=re.M) for block in blocks]
    kinds = [set(re.findall(r"^\w+", block, re.M)) for block in blocks]
    texts = [urllib.parse.unquote(row) for row, text in rows if text.endswith(b"\nsame true again true\n")]
    holds = kinds == [{"sync", "constraint", "metric"}, {"hypothesis"}] and "language ships " + "".join(blocks) in texts
    if not holds:
        print("docs/METRICS.md: no row of test_language says that its text means what is shipped")
    return holds


HELD = {"test_top": are_shown, "test_language": is_shipped}


def main():
    parser = argparse.ArgumentParser()
    parser.add_argument("--check", action="store_true")
    parser.add_argument("crates", nargs="*", metavar="CRATE")
    options = parser.parse_args()
    failed = False
    for crate in options.crates or CRATES:
        rows = list(CRATES[crate](TOP / "crates" / crate))
        listed = sum(as_text(row).startswith(by_hand(crate)) for row, _ in rows)
        line = f"{crate}: {len(rows)} rows, of which {listed} are by hand"
        if options.check:
            differ = check(crate, rows)
            failed = failed or differ > 0
            print(f"{line}; {len(rows) - differ} agree, {differ} differ", flush=True)
            if crate in HELD:
                failed = not HELD[crate](rows) or failed
        else:
            (TOP / "crates" / crate / "stdout").write_bytes(b"".join(text for _, text in rows))
            print(line)
    return 1 if failed else 0


if __name__ == "__main__":
    sys.exit(main())
