#!/usr/bin/env python3
"""Notes how fast real programs run, and how fast a plain interpreter that decodes once runs them (tools/peer, of which nothing is proved).

    tools/bench_programs.py FOLDER [--most N] [--rounds N] [--program NAME]

For each of the longest ELF files of FOLDER, on one hart with quanta of 50 and without instruments: its turns; the host's instructions a turn
(callgrind's, the same from run to run) of the product and of the peer; and their times, the least of some rounds that take turns, in processor
seconds. What a run of one turn takes is taken off of both, and told alone. At the end the geometric means, as a table for docs/SPEED.md.

How the code lies moves a time by a fifth: so one object file is linked twice, as it comes and with the loop over words at a multiple of 64,
and both times are noted. The object is crates/NAME/out/NAME.o, which `rt ci` or `rt run` leaves; it needs valgrind, binutils and cargo."""

import argparse
import datetime
import math
import os
import pathlib
import re
import subprocess
import tempfile

TOP = pathlib.Path(__file__).resolve().parent.parent
KIT = pathlib.Path("/opt/rattle")
LOOP = ".text.machine::hart::HartState::take_turns"
BUDGET = 100_000_000


def called(*words):
    """What a program prints, and the processor seconds that it took."""
    with tempfile.TemporaryFile() as out:
        process = subprocess.Popen(words, stdout=out, stderr=subprocess.DEVNULL)
        _, _, usage = os.wait4(process.pid, 0)
        out.seek(0)
        return out.read(), usage.ru_utime + usage.ru_stime


def instructions(words):
    ran = subprocess.run(["valgrind", "--tool=callgrind", "--callgrind-out-file=/dev/null", *words], capture_output=True, text=True, errors="replace")
    return int(re.search(r"Collected : (\d+)", ran.stderr)[1])


def links(name, folder):
    """The program as it is linked, and with its loop at a multiple of 64."""
    made = TOP / f"crates/{name}/out/{name}.o"
    moved = folder / "moved.o"
    subprocess.run(["objcopy", "--set-section-alignment", f"{LOOP}=64", made, moved], check=True)
    libraries = [KIT / "c/libos_c.a", KIT / "c/liblibc_c.a"]
    for linked, item in (("as-it-comes", made), ("moved", moved)):
        subprocess.run(["cc", "-pie", "-o", folder / linked, item, *libraries, "-lpthread"], check=True)
    return [[folder / linked, "run"] for linked in ("as-it-comes", "moved")]


def peer():
    subprocess.run(["cargo", "build", "--release", "--quiet"], cwd=TOP / "tools/peer", check=True)
    return [TOP / "tools/peer/target/release/peer"]


class Runs:
    """The product's two links and the peer, as they run a program."""

    def __init__(self, name, folder):
        self.conf = [TOP / "examples/empty.conf"]
        self.engines = [*links(name, folder), peer()]

    def words(self, engine, file, budget):
        conf = self.conf if len(self.engines[engine]) == 2 else []
        return [*map(str, [*self.engines[engine], file, *conf, "--budget", budget])]

    def turns(self, file):
        """How many turns the program takes; 0 where it isn't run. Both have to say the same of it."""
        text, _ = called(*self.words(0, file, BUDGET))
        said = re.match(rb"paradyn report 1\nharts 1 ticks (\d+) .*\n", text)
        if said and text[said.end():] != called(*self.words(2, file, BUDGET))[0]:
            raise SystemExit(f"{file}: the peer says otherwise")
        return int(said[1]) if said else 0

    def of_turns(self, engine, file):
        """The host's instructions for all turns but one."""
        return instructions(self.words(engine, file, BUDGET)) - instructions(self.words(engine, file, 1))

    def times(self, file, rounds):
        """The least seconds of each, without those of a run of one turn, and the latter."""
        least = [[math.inf, math.inf] for _ in self.engines]
        for _ in range(rounds):
            for engine, times in enumerate(least):
                for place, budget in enumerate((BUDGET, 1)):
                    times[place] = min(times[place], called(*self.words(engine, file, budget))[1])
        return [whole - start for whole, start in least], [start for _, start in least]


def rows(runs, folder, most, rounds):
    """For each program its name, its turns, the instructions a turn of product and peer, the three times, and the product's of the peer's."""
    files = sorted(pathlib.Path(folder).glob("*.elf"))
    longest = sorted(((runs.turns(file), file) for file in files), reverse=True)[:most]
    for turns, file in longest:
        times, _ = runs.times(file, rounds)
        yield file.stem, turns, [runs.of_turns(0, file) / turns, runs.of_turns(2, file) / turns], times


def mean(numbers):
    return math.exp(sum(map(math.log, numbers)) / len(numbers))


def cells(name, turns, each, times):
    """A row of the table."""
    milliseconds = [f"{1000 * seconds:.1f}" for seconds in times]
    shares = [f"{times[2] / seconds:.2f}" for seconds in times[:2]]
    return " | ".join([name, str(turns), *(f"{number:.1f}" for number in each), f"{each[0] / each[1]:.2f}", *milliseconds, *shares])


def main():
    words = argparse.ArgumentParser()
    words.add_argument("folder")
    words.add_argument("--most", type=int, default=11)
    words.add_argument("--rounds", type=int, default=7)
    words.add_argument("--program", default="paradyn")
    words = words.parse_args()
    with tempfile.TemporaryDirectory() as folder:
        runs = Runs(words.program, pathlib.Path(folder))
        model = re.search(r"model name\s*:\s*(.*)", pathlib.Path("/proc/cpuinfo").read_text())[1]
        print(f"{datetime.date.today()}, {os.cpu_count()} cores, {model}, load {os.getloadavg()[0]:.1f}, {words.rounds} rounds")
        print("| program | turns | host instructions a turn | the peer's | ratio | ms | ms, moved | ms, the peer | speed of the peer's | moved |")
        print("|---|---|---|---|---|---|---|---|---|---|")
        noted = []
        for name, turns, each, times in rows(runs, words.folder, words.most, words.rounds):
            print(f"| {cells(name, turns, each, times)} |", flush=True)
            noted.append((each, times))
        each = [mean([each[side] for each, _ in noted]) for side in range(2)]
        times = [mean([times[side] for _, times in noted]) for side in range(3)]
        print(f"| {cells('geometric mean', '', each, times)} |")


if __name__ == "__main__":
    main()
