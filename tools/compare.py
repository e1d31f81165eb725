#!/usr/bin/env python3
"""Runs random calls of a command through the built program and the reference, and tells where they differ.

    tools/compare.py --command NAME [--from SEED] [--count N] [--paradyn PATH] [--all]

NAME is a command of the program: run, replay, relog, live, visi, direct, advise, show, diff, blocks, profile, annotate, ask, points,
plan, asm or stress.
A case is made from its seed (`reference/cases`): files, and the words of a call. Compared are the status, the output,
and the log where one is left. Under `live` which order the harts take isn't told: the log has to be one that such
workers can leave, and the report is compared with that of the reference along the log, and so is the program's own
replay.

NAME may be `limits` too: fixed cases of files and programs at their limits and past them, of which there are 25.

At the first difference the case's folder is kept and named, and the status is 1; with --all the cases behind it are
run too. The last line is `NAME: N cases, D differ`, and the line before it says how often each status was expected.
PATH is crates/paradyn/out/paradyn where left out."""

import argparse
import collections
import pathlib
import shlex
import subprocess
import sys
import tempfile

TOP = pathlib.Path(__file__).resolve().parent.parent
sys.dont_write_bytecode = True
sys.path.insert(0, str(TOP / "reference"))

from cases import limits  # noqa: E402
from cases.calls import Case  # noqa: E402
from paradyn import command_words, commands, quanta_log  # noqa: E402

NAMES = ["run", "replay", "relog", "live", "visi", "direct", "advise", "show", "diff", "blocks", "profile", "annotate", "ask",
         "points", "plan", "asm", "stress", "limits"]
SECONDS = 300


class Product:
    """The built program, which is run in a folder."""

    def __init__(self, path, folder):
        self.path, self.folder = path, folder

    def answer(self, words):
        """The status, the output, and the log that the words name."""
        how = {"cwd": self.folder, "stdin": subprocess.DEVNULL, "capture_output": True, "timeout": SECONDS}
        try:
            done = subprocess.run([self.path, *words], **how)
        except subprocess.TimeoutExpired:
            return f"no answer in {SECONDS} s", b"", b""
        name = command_words.log_name(words)
        log = self.folder / name if name else None
        return done.returncode, done.stdout + done.stderr, log.read_bytes() if log and log.exists() else b""


def expected(words, files):
    """What the reference answers, in the same form. Under the empty name no log can be made, and the log comes
    first."""
    result = commands.execute(words, files.get)
    name = command_words.log_name(words) if result.status == 0 else None
    if name == "":
        return 7, b"", b""
    return result.status, result.out, b"" if name is None else result.log


def order_fault(settings, quanta, workers, session):
    """Why so many workers can't have taken these quanta, or None. Each takes its harts in turn."""
    lists = [[h for h in range(settings.harts) if h % workers == w] for w in range(workers)]
    for number, (worker, hart, turns, _) in enumerate(quanta):
        if worker >= workers:
            return f"quantum {number}: no worker {worker}"
        while lists[worker] and not session.runnable(lists[worker][0]):
            lists[worker].pop(0)
        if not lists[worker] or lists[worker].pop(0) != hart:
            return f"quantum {number}: hart {hart} out of turn"
        lists[worker].append(hart)
        session.quantum(worker, hart, turns)
    return None


def live_fault(words, files, log):
    """Why the log isn't one that the words can leave, or None."""
    settings, quanta = quanta_log.read(log)
    w = command_words.parse(words)
    asked = commands.Call.settings(w)
    if settings.key() != asked.key() or any(q[2] != w["quantum"] for q in quanta):
        return "the log has other settings"
    call = commands.Call(files.get)
    program, conf = call.program_and_configuration(w)
    return order_fault(settings, quanta, w["workers"], call.open(program, conf, settings))


def compare_live(product, words, files):
    """What was got and what was expected."""
    got, want = product.answer(words), expected(words, files)
    if got[0] != 0 or want[0] != 0 or not got[2]:
        return got, want
    fault = live_fault(words, files, got[2])
    if fault is not None:
        return got, (fault, b"", b"")
    files = dict(files, l=got[2])
    (product.folder / "l").write_bytes(got[2])
    w = command_words.parse(words)
    replay = ["replay", "--", *w["positional"], "l"]
    want = expected(replay, files)
    return (got[:2], product.answer(replay)), (want[:2], want)


def compare_case(path, case, folder):
    """Pairs of what was got and what was expected, one for each call."""
    for name, content in case.files.items():
        (folder / name).write_bytes(content)
    product, pairs = Product(path, folder), []
    for call in case.calls:
        words = [str(w) for w in call]
        if words[0] == "live":
            pairs.append(compare_live(product, words, case.files))
        else:
            pairs.append((product.answer(words), expected(words, case.files)))
    return pairs


def show(case, seed, folder, pairs):
    print(f"{case.command} {seed} differs; its files are in {folder}")
    for call, (got, want) in zip(case.calls, pairs):
        if got != want:
            print("  paradyn " + " ".join(shlex.quote(str(w)) for w in call))
            print(f"    product   {got!r:.700}\n    reference {want!r:.700}")


def compare(options):
    """Whether a case differs."""
    path = str(pathlib.Path(options.paradyn).resolve())
    statuses, cases, differ = collections.Counter(), 0, 0
    last = options.first + options.count
    for seed in range(options.first, min(last, limits.COUNT) if options.command == "limits" else last):
        case = limits.Limit(seed) if options.command == "limits" else Case(options.command, seed)
        with tempfile.TemporaryDirectory(prefix="compare-") as name:
            pairs = compare_case(path, case, pathlib.Path(name))
        cases += 1
        statuses.update(want[0] if not isinstance(want[0], tuple) else want[0][0] for _, want in pairs)
        if any(got != want for got, want in pairs):
            differ += 1
            folder = pathlib.Path(tempfile.mkdtemp(prefix=f"compare-{options.command}-{seed}-"))
            for name, content in case.files.items():
                (folder / name).write_bytes(content)
            show(case, seed, folder, pairs)
            if not options.all:
                break
    print("statuses: " + ", ".join(f"{s}: {n}" for s, n in sorted(statuses.items(), key=str)))
    print(f"{options.command}: {cases} cases, {differ} differ")
    return differ > 0


def main():
    parser = argparse.ArgumentParser()
    parser.add_argument("--command", choices=NAMES, required=True)
    parser.add_argument("--from", dest="first", type=int, default=0)
    parser.add_argument("--count", type=int, default=100)
    parser.add_argument("--paradyn", default=str(TOP / "crates/paradyn/out/paradyn"))
    parser.add_argument("--all", action="store_true")
    return 1 if compare(parser.parse_args()) else 0


if __name__ == "__main__":
    sys.exit(main())
