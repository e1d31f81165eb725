#!/usr/bin/env python3
"""Runs the built program to as many quanta as a run may have, and gives it the longest log and one of a byte more.

    tools/longest_log.py [PARADYN]

What is expected is made by hand, of docs/FORMATS.md. PARADYN is crates/paradyn/out/paradyn where left out. Each call that prints or
leaves something else is told, with the seconds and the memory that it took, and the status is 1 where there are some. It takes some
1.5 GB of the disk, in a temporary folder."""

import pathlib
import resource
import struct
import subprocess
import sys
import tempfile
import time

TOP = pathlib.Path(__file__).resolve().parent.parent
PARADYN = pathlib.Path(sys.argv[1] if len(sys.argv) > 1 else TOP / "crates/paradyn/out/paradyn").resolve()
MOST = 16_777_216                                # quanta
LONGEST = 268_435_496                            # bytes of a log
BUDGET, WIDTH = 100_000_000, 1_000_000
COLD, WARM = 0, 1
RUN = ["run", "p", "c", "--quantum", "1", "--width", str(WIDTH)]


def log_of(quanta, budget=BUDGET, start=WARM):
    """A log of version 2: one hart, 64 bins and instruments, and quanta of one turn, which is a tick."""
    head = struct.pack("<8sIIQQQII", b"PDYNLOG2", 1, 64, budget, WIDTH, quanta, start, 64)
    return head + struct.pack("<BBHHH", 0, 0, 1, 1, 0) * quanta


def old_log_of(quanta):
    """The same of version 1, which starts cold."""
    return struct.pack("<8sIIQQQ", b"PDYNLOG1", 1, 64, BUDGET, WIDTH, quanta) + struct.pack("<IIII", 0, 0, 1, 1) * quanta


def report_of(ticks, stop):
    """The report of a loop of one word. There is a sample with each tick that the width divides, and one at the end."""
    samples = -(-ticks // WIDTH)
    return f"paradyn report 1\nharts 1 ticks {ticks} samples {samples} skipped 0\nhart 0 ticks {ticks} {stop} at 0x10000\noutput 0\n\n".encode()


def at(place, fault):
    return f"paradyn: bad log at {place}: {fault}\n".encode()


class Calls:
    """The calls in a folder, and how many of them differ."""

    def __init__(self, folder):
        self.folder, self.count, self.differ = pathlib.Path(folder), 0, 0

    def write(self, name, content):
        (self.folder / name).write_bytes(content)

    def call(self, words, status, output, log=None):
        """Calls the program, of which a status, an output and, where one is left, a log are due."""
        begun = time.monotonic()
        done = subprocess.run([PARADYN, *words], cwd=self.folder, stdin=subprocess.DEVNULL, capture_output=True)
        seconds, most = time.monotonic() - begun, resource.getrusage(resource.RUSAGE_CHILDREN).ru_maxrss // 1024
        agrees = (done.returncode, done.stdout, done.stderr) == (status, output, b"")
        agrees = agrees and (log is None or (self.folder / "l").read_bytes() == log)
        self.count += 1
        self.differ += not agrees
        print(f"{'agrees' if agrees else 'differs'}: {' '.join(words)}: {seconds:.1f} s, at most {most} MB so far")


def main():
    with tempfile.TemporaryDirectory() as name:
        calls = Calls(name)
        calls.write("p", b"l: j l\n")
        calls.write("c", b"")
        # One quantum less than the most, the most, and one that would be more.
        for budget, stop in ((MOST - 1, "budget"), (MOST, "budget"), (MOST + 1, "cut"), (BUDGET, "cut")):
            ticks = min(budget, MOST)
            calls.call([*RUN, "--budget", str(budget), "--log", "l"], 0, report_of(ticks, stop), log_of(ticks, budget))
        longest, cut = log_of(MOST), report_of(MOST, "cut")
        calls.call(["replay", "p", "c", "l"], 0, cut)
        calls.call(["relog", "l"], 0, longest)
        calls.write("l", longest + b"\0")
        calls.call(["relog", "l"], 9, at(len(longest), "trailing"))
        calls.write("l", log_of(MOST + 1))
        calls.call(["replay", "p", "c", "l"], 9, at(32, "bad field"))
        old = old_log_of(MOST)
        assert len(old) == LONGEST
        calls.write("l", old)
        calls.call(["replay", "p", "c", "l"], 0, cut)
        calls.call(["relog", "l"], 0, log_of(MOST, start=COLD))
        calls.write("l", old + b"\0")
        calls.call(["replay", "p", "c", "l"], 9, at(LONGEST, "too long"))
        calls.call(["relog", "l"], 9, at(LONGEST, "too long"))
    print(f"{calls.count} calls, {calls.differ} differ")
    return 1 if calls.differ else 0


if __name__ == "__main__":
    sys.exit(main())
