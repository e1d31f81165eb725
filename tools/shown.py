#!/usr/bin/env python3
"""Runs the commands that the documents show, and compares what they print with what stands below them.

    tools/shown.py [--make] [PD]

A command is an indented line of a document that begins with `$`, and goes on below where it ends in `\\`; what it prints are the indented
lines below it, up to the next command. All of a document are run one after another in a copy of one folder of examples/, where
`pd` is PD, or crates/pd/out/pd where left out. Each that prints something else is told, and the status is 1 where there are some. With
--make what they print is put into the documents instead. With tools/row.py as PD they are held against the rows of test_top. Where
the compiler that made the ELF files in examples/words isn't installed, the commands that call it are left out, and told."""

import os
import pathlib
import shutil
import subprocess
import sys
import tempfile

TOP = pathlib.Path(__file__).resolve().parent.parent
# Each document, with the folder of examples/ that its commands are run in.
DOCUMENTS = [("README.md", "words"), ("examples/README.md", "."), ("docs/GUIDE.md", "words"), ("docs/METRICS.md", "recipes")]
COMPILER = "riscv64-unknown-elf-gcc"
COMPILERS = ("pdcc", "riscv64-unknown-elf-")
INDENT = "    "
SECONDS = 300


class Command:
    """A command of a document: its words, and the numbers of the lines that stand below it."""

    def __init__(self, words, first):
        self.words, self.first, self.end = words, first, first

    def goes_on(self, number):
        """Whether the line of this number belongs to it."""
        return number == self.first and self.words.endswith("\\")

    def go_on(self, words):
        self.words += "\n" + words
        self.first = self.end = self.first + 1

    def shown(self, lines):
        return "".join(line.removeprefix(INDENT) + "\n" for line in lines[self.first:self.end])


def commands(lines):
    """The commands of a document's lines."""
    found, is_shown = [], False
    for number, line in enumerate(lines):
        if is_shown and found[-1].goes_on(number):
            found[-1].go_on(line.removeprefix(INDENT))
        elif line.startswith(INDENT + "$ "):
            found.append(Command(line.removeprefix(INDENT + "$ "), number + 1))
            is_shown = True
        elif not line.startswith(INDENT):
            is_shown = False
        elif is_shown:
            found[-1].end = number + 1
    return found


def has_compiler():
    """Whether the compiler that made the ELF files is installed: another version makes other programs."""
    if shutil.which(COMPILER) is None:
        return False
    told = subprocess.run([COMPILER, "--version"], capture_output=True, check=True).stdout
    version = told.split(b"\n")[0].partition(b" ")[2]
    return version in (TOP / "examples/words/words.elf").read_bytes()


def printed(words, folder, path):
    """What a command prints in the folder."""
    done = subprocess.run(["bash", "-c", words], cwd=folder, env=dict(os.environ, PATH=path), stdin=subprocess.DEVNULL,
                          stdout=subprocess.PIPE, stderr=subprocess.STDOUT, timeout=SECONDS)
    return done.stdout.decode()


def run_document(name, folder, program):
    """What each command of a document shows and prints; nothing for those that are left out."""
    compiles = has_compiler()
    lines = (TOP / name).read_text().split("\n")
    answers = []
    with tempfile.TemporaryDirectory() as scratch:
        examples, programs = pathlib.Path(scratch) / "examples", pathlib.Path(scratch) / "programs"
        shutil.copytree(TOP / "examples", examples)
        programs.mkdir()
        (programs / "pd").symlink_to(program)
        for command in commands(lines):
            if compiles or not any(compiler in command.words for compiler in COMPILERS):
                answers.append((command, printed(command.words, examples / folder, f"{programs}:{os.environ['PATH']}")))
            else:
                answers.append((command, None))
    return lines, answers


def put(name, lines, answers):
    """Writes what was printed into the document."""
    for command, got in reversed(answers):
        if got is not None:
            lines[command.first:command.end] = [(INDENT + line).rstrip() or INDENT for line in got.split("\n")[:-1]]
    (TOP / name).write_text("\n".join(lines))


def main():
    words = [word for word in sys.argv[1:] if word != "--make"]
    program = pathlib.Path(words[0] if words else TOP / "crates/pd/out/pd").resolve()
    count, differ, left = 0, 0, 0
    for name, folder in DOCUMENTS:
        lines, answers = run_document(name, folder, program)
        count += len(answers)
        left += sum(got is None for _, got in answers)
        for command, got in answers:
            if got is not None and got != command.shown(lines):
                differ += 1
                print(f"{name}: differs: {command.words}\n{got:.500}")
        if "--make" in sys.argv:
            put(name, lines, answers)
    print(f"{count} commands, {differ} differ, {left} left out")
    return 1 if differ or not count else 0


sys.exit(main())
