#!/usr/bin/env python3
"""Runs programs that other tools made, and compares what the built program prints with what is expected of each.

    tools/programs.py FOLDER [PARADYN]

FOLDER has `programs/` (MANIFEST.tsv, MULTI.tsv, elf/, expect/, points/) and `elves/` (MANIFEST.tsv, elf/). A part that is
missing is skipped. PARADYN is the built program, crates/paradyn/out/paradyn if left out."""

import pathlib
import subprocess
import sys
import tempfile

TOP = pathlib.Path(__file__).resolve().parent.parent
FOLDER = pathlib.Path(sys.argv[1])
PARADYN = sys.argv[2] if len(sys.argv) > 2 else str(TOP / "crates/paradyn/out/paradyn")
CONF = tempfile.NamedTemporaryFile(suffix=".conf")


def paradyn(*words):
    done = subprocess.run([PARADYN, *map(str, words)], capture_output=True, timeout=120)
    return done.returncode, done.stdout


def rows(path):
    lines = path.read_text().splitlines() if path.exists() else []
    return [line.split("\t") for line in lines if line and not line.startswith("#")]


def report(text):
    """The lines of the harts behind their numbers, and the output, of a report."""
    head, _, rest = text.partition(b"\noutput ")
    count, _, rest = rest.partition(b"\n")
    harts = [line.split(b" ", 2)[2].decode() for line in head.split(b"\n") if line.startswith(b"hart ")]
    return harts, rest[: int(count or b"0")]


def count(name, cases):
    good = 0
    for case, agrees in cases:
        good += agrees
        if not agrees:
            print(f"  differs: {case}")
    print(f"{name}: {good} of {len(cases)} agree" if cases else f"{name}: skipped")
    return good == len(cases)


def one_hart():
    folder = FOLDER / "programs"
    for row in rows(folder / "MANIFEST.tsv"):
        name, stop, ticks = row[0], row[6], row[7]
        status, text = paradyn("run", folder / f"elf/{name}.elf", CONF.name, "--budget", 100_000_000)
        harts, output = report(text)
        expect = folder / f"expect/{name}.out"
        same = not expect.exists() or expect.read_bytes() == output
        yield name, status == 0 and same and harts == [f"ticks {ticks} {stop}"]


def many_harts():
    folder = FOLDER / "programs"
    for name, harts, quantum, seed, budget, total, stops, *_ in rows(folder / "MULTI.tsv"):
        status, text = paradyn("run", folder / f"elf/{name}.elf", CONF.name, f"--harts={harts}",
                               f"--quantum={quantum}", f"--seed={seed}", f"--budget={budget}")
        want = ["ticks " + stop.strip() for stop in stops.split(";")]
        agrees = status == 0 and report(text)[0] == want and f" ticks {total} ".encode() in text
        yield f"{name} --harts {harts} --quantum {quantum} --seed {seed}", agrees


def points():
    folder = FOLDER / "programs"
    for path in sorted((folder / "points").glob("*")) if folder.exists() else []:
        status, text = paradyn("points", folder / f"elf/{path.stem}.elf")
        yield path.stem, status == 0 and text == path.read_bytes()


def verdicts():
    folder = FOLDER / "elves"
    for name, verdict, *_ in rows(folder / "MANIFEST.tsv"):
        status, text = paradyn("run", folder / "elf" / name, CONF.name)
        if verdict == "accepted":
            agrees = status == 0
        else:
            agrees = status == 4 and text == f"{verdict}\n".encode()
        yield f"{name} ({verdict})", agrees


parts = [("programs on one hart", one_hart), ("programs on many harts", many_harts), ("points", points), ("ELF files", verdicts)]
sys.exit(0 if all([count(name, list(cases())) for name, cases in parts]) else 1)
