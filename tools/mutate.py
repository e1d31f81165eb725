#!/usr/bin/env python3
"""Gives mutated files to each command of the built program, and tells each run that ends otherwise than it may.

    tools/mutate.py FOLDER COUNT [FIRST] [PARADYN]

The files are those of examples/ and, below FOLDER, the ELF files (*.elf) and assembly texts (*.s). Of each case bytes of one
file are flipped or replaced, taken out, doubled or cut off at the end, and each command that reads such a file is run with it.
The file is a program, a configuration, a log, directives or a report; in some cases it is the words that are random. The cases
are numbered from FIRST (0 where left out), and one of a number is always the same. A run may end with a status that docs/FORMATS.md
names, within 20 seconds, and after any but 0, 7 and 8 the output is one line. PARADYN is crates/paradyn/out/paradyn where left
out."""

import collections
import concurrent.futures
import os
import pathlib
import random
import subprocess
import sys
import tempfile

TOP = pathlib.Path(__file__).resolve().parent.parent
FOLDER = pathlib.Path(sys.argv[1])
COUNT = int(sys.argv[2])
FIRST = int(sys.argv[3]) if len(sys.argv) > 3 else 0
PARADYN = sys.argv[4] if len(sys.argv) > 4 else str(TOP / "crates/paradyn/out/paradyn")
SECONDS = 20
LIMITS = ["--budget", "20000", "--width", "500"]
STATUSES = {0, 2, 3, 4, 5, 6, 7, 8, 9, 11, 12, 13, 14, 15}
COMMANDS = ["run", "live", "replay", "asm", "points", "plan", "stress", "relog", "blocks", "visi", "advise", "direct", "profile", "annotate",
            "show", "diff", "ask", "", "0"]
# Bytes that end a range of some number, or a text.
ENDS = bytes([0x00, 0x01, 0x7F, 0x80, 0xFF, 0x0A, 0x20, 0x22, 0x7B, 0x7D])


def read_all(folder, pattern):
    return [path.read_bytes() for path in sorted(folder.rglob(pattern)) if path.stat().st_size <= 200_000]


PROGRAMS = read_all(FOLDER, "*.elf") + read_all(FOLDER, "*.s") + read_all(TOP / "examples", "*.elf") + read_all(TOP / "examples", "*.s")
CONFIGURATIONS = read_all(TOP / "examples", "*.conf")
REPORTS = read_all(TOP / "examples", "*.report")
DIRECTIVES = read_all(TOP / "examples", "*.directives") + [
    b"prune CPUbound axis Code;\nfirst TooManySmallIOOps;\nthreshold ExcessiveSyncWaitingTime 300;\n",
]
PAIRS = [
    (path.read_bytes(), conf.read_bytes())
    for path in sorted((TOP / "examples").glob("*.elf"))
    for conf in sorted((TOP / "examples").glob("*.conf"))
]


def mutated(draw, content):
    content = bytearray(content)
    for _ in range(draw.choice([1, 1, 1, 2, 3, 8])):
        if not content:
            break
        place = draw.randrange(len(content))
        if draw.random() < 0.3:
            place = draw.randrange(min(len(content), 512))
        kind = draw.randrange(6)
        if kind == 0:
            content[place] ^= 1 << draw.randrange(8)
        elif kind == 1:
            content[place] = draw.choice(ENDS)
        elif kind == 2:
            count = draw.choice([1, 2, 4, 8])
            content[place : place + count] = bytes([draw.choice(ENDS)]) * len(content[place : place + count])
        elif kind == 3:
            del content[place : place + draw.choice([1, 2, 4, 64])]
        elif kind == 4:
            piece = content[place : place + draw.choice([1, 4, 64])]
            content[place:place] = piece
        else:
            del content[place:]
    return bytes(content)


def first_log(folder):
    """A log of the example, which later cases mutate."""
    log = folder / "first.log"
    program, conf = TOP / "examples/rounds.elf", TOP / "examples/rounds.conf"
    subprocess.run([PARADYN, "run", program, conf, "--log", log, "--harts", "4", *LIMITS], capture_output=True, timeout=SECONDS)
    return log.read_bytes()


def with_program(draw, folder, log):
    """The runs of a mutated program."""
    program, conf, directives = folder / "p", folder / "c", folder / "d"
    program.write_bytes(mutated(draw, draw.choice(PROGRAMS)))
    conf.write_bytes(draw.choice([b"", *CONFIGURATIONS]))
    directives.write_bytes(draw.choice([b"", *DIRECTIVES]))
    order = ["--harts", str(draw.randrange(1, 6)), "--seed", str(draw.randrange(3))]
    return [
        ["run", program, conf, *order, *LIMITS],
        ["visi", program, conf, *order, *LIMITS],
        ["direct", program, conf, directives, *order, *LIMITS],
        ["blocks", program, *order, "--budget", "20000"],
        ["profile", program, *order, "--budget", "20000"],
        ["annotate", program, *order, "--budget", "20000"],
        ["ask", program, "cpu", "--each", "procedure", *order, "--budget", "20000"],
        ["live", program, conf, "--workers", "2", *LIMITS],
        ["points", program],
        ["asm", program],
        ["plan", program, conf, "cpu", "/Code"],
    ]


def with_configuration(draw, folder, log):
    """The runs of a mutated configuration."""
    program, conf, directives = folder / "p", folder / "c", folder / "d"
    content, text = draw.choice(PAIRS)
    program.write_bytes(content)
    conf.write_bytes(mutated(draw, text))
    directives.write_bytes(draw.choice([b"", *DIRECTIVES]))
    order = ["--harts", "4", *LIMITS]
    return [
        ["run", program, conf, *order],
        ["live", program, conf, *order],
        ["visi", program, conf, *order],
        ["direct", program, conf, directives, *order],
        ["plan", program, conf, "cpu", "/Code"],
    ]


def with_log(draw, folder, log):
    """The runs of a mutated log."""
    record = folder / "l"
    record.write_bytes(mutated(draw, log))
    return [["replay", TOP / "examples/rounds.elf", TOP / "examples/rounds.conf", record], ["relog", record]]


def with_directives(draw, folder, log):
    """The run of mutated directives."""
    program, conf, directives = folder / "p", folder / "c", folder / "d"
    content, text = draw.choice(PAIRS)
    program.write_bytes(content)
    conf.write_bytes(text)
    directives.write_bytes(mutated(draw, draw.choice(DIRECTIVES)))
    return [["direct", program, conf, directives, "--harts", "4", *LIMITS]]


def with_report(draw, folder, log):
    """The runs of a mutated report."""
    report, other = folder / "r", folder / "s"
    report.write_bytes(mutated(draw, draw.choice(REPORTS)))
    other.write_bytes(draw.choice(REPORTS))
    form = draw.choice(["blocks", "ascii", "json", "csv", "svg", "html"])
    return [["advise", report], ["show", report, "--format", form], ["diff", report, other], ["diff", other, report]]


def with_words(draw, folder, log):
    """The run of random words."""
    words = [draw.choice(COMMANDS)]
    words += [draw.choice(["1", "0", "-1", "200", "201", "4294967296", "--seed", "--seed=1", "--log", "--budget", "--views", "", "--"])
              for _ in range(draw.randrange(5))]
    return [words]


KINDS = [with_program, with_configuration, with_log, with_directives, with_report, with_words]


def commands(draw, folder, log):
    """The runs of a case: a mutated file under each command that reads it, or random words."""
    return draw.choice(KINDS)(draw, folder, log)


def fault_of(words):
    """The status of a run, and what is wrong with its end, if anything."""
    try:
        ended = subprocess.run([PARADYN, *map(str, words)], capture_output=True, timeout=SECONDS, stdin=subprocess.DEVNULL)
    except subprocess.TimeoutExpired:
        return None, "no end"
    if ended.returncode not in STATUSES:
        return ended.returncode, "a status that isn't named"
    if ended.stderr:
        return ended.returncode, "an error text"
    if ended.returncode not in (0, 7, 8) and (ended.stdout.count(b"\n") != 1 or not ended.stdout.startswith(b"paradyn: ")):
        return ended.returncode, "more or less than a line"
    return ended.returncode, None


def run_case(number, log):
    draw = random.Random(number)
    told = []
    with tempfile.TemporaryDirectory() as name:
        folder = pathlib.Path(name)
        for words in commands(draw, folder, log):
            status, fault = fault_of(words)
            told.append((words[0], status, fault))
    return number, told


def main():
    with tempfile.TemporaryDirectory() as name:
        log = first_log(pathlib.Path(name))
    statuses, faults = collections.Counter(), 0
    with concurrent.futures.ThreadPoolExecutor(os.cpu_count()) as pool:
        for number, told in pool.map(lambda number: run_case(number, log), range(FIRST, FIRST + COUNT)):
            for command, status, fault in told:
                statuses[status] += 1
                if fault:
                    faults += 1
                    print(f"case {number}: {command}: {fault} (status {status})")
    counts = ", ".join(f"{status}: {count}" for status, count in sorted(statuses.items(), key=str))
    print(f"{COUNT} cases, {sum(statuses.values())} runs, {faults} wrong; by status {counts}")
    sys.exit(1 if faults else 0)


main()
