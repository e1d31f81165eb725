"""The reference with the words of `pd`: the text on standard output or in a file, faults on standard error.

It has no hints, no notes, and neither `check` nor `man` nor `completions`: these the proved program has alone."""
import functools
import os
import sys

from . import command_words, commands, pd_words

WRONG, NOT_WRITTEN = 2, 7
NOTE = "pd: unproved: this is the reference in Python, about a thousand times slower. ./build makes the proved program.\n"
DISK = "pd: could not write all: the disk is full, or there is no such folder\n"
# what kinds of files are called, and how they begin
REPORT = "a report", (b"paradyn report ",)
VIEW = "a report or a profile as it is shown", (b"ticks ",)
LOG = "a log", (b"PDYNLOG",)
CALLGRIND = "a callgrind file", (b"# callgrind format",)
KINDS = {
    "visi": ("a list of samples", (b"paradyn visi ",)),
    "stress": ("a summary of stress", (b"stress ",)),
    "profile": ("a profile", (b"profile harts ",)),
    "annotate": ("an annotated program", (b"procedure ",)),
    "blocks": ("a list of blocks", (b"blocks ",)),
    "points": ("a list of points", (b"points ",)),
    "plan": ("a plan", (b"plan ",)),
    "asm": ("an ELF file", (b"\x7fELF",)),
    "relog": LOG,
    "advise": ("a file of directives", (b"prune ", b"threshold ", b"first ")),
    "diff": ("a table of differences", (
        b"             old", b"hart ", b"only in ", b"output: ", b"same sum: ", b"same state: ", b"true -> ", b"false -> ", b"barred -> ",
        b"waiting -> ", b"nothing differs")),
    "ask": ("a configuration by ask", (b"include metrics;",)),
}
FORMATS = {
    "blocks": VIEW,
    "ascii": VIEW,
    "json": ("a report as JSON", (b'{"format":"paradyn report ',)),
    "csv": ("a report as CSV", (b"record,number,name,",)),
    "svg": ("a picture of a report", (b"<svg ",)),
    "html": ("a page of a report", (b"<!DOCTYPE html>",)),
}

def say(text):
    sys.stderr.write(text)
    sys.stderr.flush()


def read(name):
    """What a file holds, or None; `-` is standard input."""
    if name == "-":
        return standard_input()
    try:
        with open(name, "rb") as f:
            return f.read()
    except OSError:
        return None


@functools.cache
def standard_input():
    return sys.stdin.buffer.read()


def kind_of(request):
    """What the text is called that is asked for, and how such texts begin."""
    command = request["command"]
    if command == "show":
        return FORMATS[request["format"]]
    if command == "profile" and request["show"] == "table":
        return VIEW
    return KINDS.get(command, REPORT)


def may_write(name, kind, force):
    """Whether a file isn't there, is empty or begins as its kind does; where it isn't so, that is told."""
    try:
        with open(name, "rb") as f:
            front = f.read(32)
    except OSError:
        front = b""
    if force or not front or front.startswith(kind[1]):
        return True
    say(f"pd: {name} is there and isn't {kind[0]}: nothing was done. With --force it is written over.\n")
    return False


def write(name, content):
    """Writes a file, or standard output where there is no name."""
    if name is None:
        sys.stdout.buffer.write(content)
        sys.stdout.buffer.flush()
    else:
        with open(name, "wb") as f:
            f.write(content)


def serve(asked):
    """Serves words, where no file is lost by it, and returns the status."""
    request = command_words.parse(asked.words)
    second = command_words.log_name(asked.words)
    kind = CALLGRIND if request["command"] == "profile" else LOG
    if second is not None and not may_write(second, kind, asked.force):
        return WRONG
    if asked.output is not None and not may_write(asked.output, kind_of(request), asked.force):
        return WRONG
    result = commands.execute(asked.words, read)
    if result.status != 0:
        say(result.out.decode("utf-8", "replace"))
        return result.status
    try:
        if second is not None:
            write(second, result.log)
        write(asked.output, result.out)
    except OSError:
        say(DISK)
        return NOT_WRITTEN
    return 0


def serve_with_note(asked):
    status = serve(asked)
    if not asked.quiet:
        say(NOTE)
    return status


def is_text(words):
    try:
        "".join(words).encode()
    except UnicodeEncodeError:
        return False
    return True


def main(words):
    """Does what words of `pd` ask for, and returns the status."""
    if not is_text(words):
        say("pd: a word isn't UTF-8\n")
        return WRONG
    try:
        asked = pd_words.read(words, sys.stdout.isatty())
    except pd_words.Wrong as wrong:
        say(wrong.text)
        return WRONG
    if isinstance(asked, pd_words.Serving):
        return serve_with_note(asked)
    if isinstance(asked, pd_words.Print):
        write(None, asked.text.encode())
        return 0
    name = "check" if isinstance(asked, pd_words.Check) else asked.name
    say(f"pd: the reference has no '{name}'. ./build makes the proved program, which has it.\n")
    return WRONG


def run():
    """Runs the program, and ends."""
    try:
        status = main(sys.argv[1:])
    except BrokenPipeError:
        os.dup2(os.open(os.devnull, os.O_WRONLY), sys.stdout.fileno())
        status = NOT_WRITTEN
    except KeyboardInterrupt:
        status = 130
    sys.exit(status)
