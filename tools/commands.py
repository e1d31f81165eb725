#!/usr/bin/env python3
"""Writes docs/COMMANDS.md from the tables of crates/pd_words, of which help, the man page and the completions are made too.

    tools/commands.py            writes the tables between the marks
    tools/commands.py --check    writes nothing, and fails where the tables aren't what would be written
"""
import sys
from pathlib import Path

TOP = Path(__file__).resolve().parent.parent
PAGE = TOP / "docs/COMMANDS.md"
BEGIN, END = "<!-- tools/commands.py writes from here -->\n", "<!-- to here -->\n"
sys.dont_write_bytecode = True
sys.path.insert(0, str(TOP / "reference"))

from paradyn import pd_tables  # noqa: E402

# options that nearly every command has
COMMON = ("output", "force", "quiet")


def place_text(command, word):
    name = word.name + (".." if word.kind[0] == "Places" else "")
    return name if command.needs(word) else f"[{name}]"


def command_row(command):
    """The row of a command: its words, what it prints, its options but the common ones, and an example."""
    words = " ".join(["pd", command.name, *(place_text(command, w) for w in command.places)])
    options = " ".join(f"`--{w.name}`" for w in command.options if w.name not in COMMON)
    example = command.example.removeprefix("Example: ").replace("|", "\\|")
    return f"| `{words}` | {command.summary} | {options} | `{example}` |"


def word_row(word):
    forms = ([f"`-{word.letter}`"] if word.letter else []) + [f"`--{word.name}`"]
    value = f" `{word.value}`" if word.value else ""
    choices = ", ".join(word.values[1:]) if word.values[0] == "Words" else ""
    default = word.default or ""
    return f"| {', '.join(forms)}{value} | {word.what} | {choices or default if not (choices and default) else choices + '; ' + default} |"


def place_row(word):
    return f"| {word.name} | {word.what} |"


def tables():
    """The lines between the marks."""
    commands, words = pd_tables.commands().values(), pd_tables.words()
    lines = ["", "| command | what it prints | options | example |", "|---|---|---|---|", *map(command_row, commands), ""]
    lines += ["All commands that print something of a program or a file have " + ", ".join(f"`--{name}`" for name in COMMON) + " too.", ""]
    lines += ["| word | what it is |", "|---|---|", *(place_row(w) for w in words if w.is_place), ""]
    lines += ["| option | what it does | values; default |", "|---|---|---|", *(word_row(w) for w in words if not w.is_place), ""]
    lines += ["    " + line for line in pd_tables.text("STATUSES").split("\n")]
    return lines + [""]


def page_with(page, lines):
    before, begin, rest = page.partition(BEGIN)
    _, end, after = rest.partition(END)
    if not begin or not end:
        sys.exit("docs/COMMANDS.md has no place for the tables")
    return before + begin + "\n".join(lines) + "\n" + end + after


def main(words):
    old = PAGE.read_text(encoding="utf-8")
    new = page_with(old, tables())
    if "--check" not in words:
        PAGE.write_text(new, encoding="utf-8")
    elif new != old:
        print("docs/COMMANDS.md hasn't the tables that tools/commands.py writes", file=sys.stderr)
        return 1
    print(f"{len(pd_tables.commands())} commands, {len(pd_tables.words())} words and options")
    return 0


if __name__ == "__main__":
    sys.exit(main(sys.argv[1:]))
