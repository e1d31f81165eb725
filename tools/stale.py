#!/usr/bin/env python3
"""Says which names of README.md and docs/*.md stand nowhere in the repository any more.

    tools/stale.py

A name is a word between backquotes: a crate, a file, a function, a definition, an option, a word of a format. It has to stand in crates/,
tools/, reference/ or examples/, or to be a file. One that a crate's name introduces (as in: machine `Cores`, `Events`), one that it
follows (`Cores` of machine), and one that stands beside the crate in the table of crates, has to stand in that crate. The parts of
`Type::name` have to stand in one crate. A word with `_` is looked up without backquotes too. Words in capitals stand for something else,
and aren't looked up. Each crate has a row in each table of crates, and no other has. A folder of tools/wrong_bodies is a crate's.
"""
import re
import sys
from pathlib import Path

TOP = Path(__file__).resolve().parent.parent
PLACES = ("crates", "tools", "reference", "examples")
# words of other tools, of the shell and of examples, and programs that stand elsewhere
ALLOWED = set("ci rattle perf tmp Ttext hartN barrier_ WaitsForMutex csrr xxd no_std exceptions rtti exit_group".split())
OPTIONS = {"only"}
PROGRAMS = {"mandel_perf", "dijkstra_perf", "quicksort_O0", "exit_group", "no_std"}
WORD = re.compile(r"\w+")
SNAKE = re.compile(r"[a-z]\w*_\w+")
INNER = r"(?:[^`\n]|\n(?!\n))+"
SPAN = re.compile(rf"`({INNER})`")
NAMED = rf"`{INNER}`(?:\s\([^)]*\))?"
LIST = rf"{NAMED}(?:(?:,\s(?:and\s)?|\sand\s){NAMED})*"


def files_below(folder):
    """The files of a folder that the repository keeps."""
    return [path for path in folder.rglob("*") if path.is_file() and not {"out", "__pycache__"} & set(path.parts)]


def files_of(crate):
    """The files of a crate, with the wrong bodies that the gate leaves out."""
    return files_below(TOP / "crates" / crate) + files_below(TOP / "tools" / "wrong_bodies" / crate)


def words_of(files):
    """The words in files and in their names below the top."""
    found = set()
    for path in files:
        found.update(WORD.findall(str(path.relative_to(TOP))))
        data = path.read_bytes()
        if path != Path(__file__).resolve() and b"\0" not in data:
            found.update(WORD.findall(data.decode("utf-8", "replace")))
    return found


def options_of(files):
    """The words that stand after `--` in files."""
    return {option for path in files for option in re.findall(r"--(\w+)", path.read_bytes().decode("utf-8", "replace"))}


class Repository:
    """The words of the repository, of each crate and of all, and its files."""

    def __init__(self):
        self.crates = {path.parent.name: words_of(files_of(path.parent.name)) for path in (TOP / "crates").glob("*/src")}
        others = words_of([path for place in PLACES[1:] for path in files_below(TOP / place)])
        self.words = others.union(*self.crates.values())
        self.options = self.crates["command_words"] | self.crates["pd_words"] | OPTIONS | options_of(
            [*files_below(TOP / "tools"), *files_below(TOP / "examples"), TOP / "build"])
        self.files = [str(path.relative_to(TOP)) for path in files_below(TOP) if ".git" not in path.parts]

    def has_file(self, name):
        """Whether a file or a folder has this name, or ends with it."""
        name = name.removeprefix("../").rstrip("/")
        inner = re.escape(name).replace(r"\*", "[^/]*").replace("NAME", "[^/]+")
        return any(re.search(rf"(^|/){inner}(/|$)", file) for file in self.files)

    def has_word(self, word):
        """Whether a word stands somewhere, is a number, or stands for another one."""
        return word in self.words or word in ALLOWED or word.isupper() or word[0].isdigit()

    def missing(self, span):
        """The words of a name that stand nowhere."""
        if re.fullmatch(r"[\w*./-]+", span) and ("/" in span or "." in span.strip(".")) and self.has_file(span):
            return []
        if re.fullmatch(r"[\w*./-]*\.(md|py|rt|antt|sh|c|conf|txt|elf|rs)", span):
            return [] if self.has_file(span) else [span]
        pair = re.fullmatch(r"(\w+)::(\w+)", span)
        if pair and not any(set(pair.groups()) <= words for words in self.crates.values()):
            return [span]
        options = [option for option in re.findall(r"(?<!\S)--(\w+)", span) if option not in self.options and not option.isupper()]
        return options + [word for word in WORD.findall(span) if not self.has_word(word)]

    def missing_in(self, crate, span):
        """The words of a name that don't stand in the crate."""
        return [word for word in WORD.findall(span) if word not in self.crates[crate] and not word.isdigit()]


def names_by_crate(text, crates):
    """The names of a text that are said to be of a crate, each with its crate and its place."""
    either = "|".join(sorted(crates, key=len, reverse=True))
    for found in re.finditer(rf"(?<![`\w])({either})\s({LIST})", text):
        yield from ((found[1], name[1], found.start()) for name in SPAN.finditer(re.sub(r"\([^)]*\)", "", found[2])))
    for found in re.finditer(rf"({LIST})\sof\s({either})\b", text):
        yield from ((found[2], name[1], found.start()) for name in SPAN.finditer(found[1]))
    for found in re.finditer(rf"^\| ({either}) \|[^|\n]*\|([^|\n]*)\|", text, re.M):
        yield from ((found[1], name[1], found.start()) for name in SPAN.finditer(found[2]))


def faults_of(repository, path):
    """What a document names and the repository hasn't, each with its line."""
    lines = path.read_text(encoding="utf-8").split("\n")
    text = "\n".join("" if line.startswith("    ") else line for line in lines)
    found = [(span.start(), word, "stands nowhere") for span in SPAN.finditer(text) for word in repository.missing(span[1])]
    prose = SPAN.sub(lambda span: " " * len(span[0]), text)
    found += [(name.start(), name[0], "stands nowhere") for name in SNAKE.finditer(prose) if name[0] not in repository.words | PROGRAMS]
    for crate, name, place in names_by_crate(text, repository.crates):
        found += [(place, word, f"isn't in {crate}") for word in repository.missing_in(crate, name)]
    return [f"{path.relative_to(TOP)}:{text.count(chr(10), 0, place) + 1}: {word} {where}" for place, word, where in sorted(set(found))]


def faults_of_tables(repository, path):
    """The crates that a table of crates hasn't, and its rows of others, where the document has such a table."""
    rows = re.search(r"^\| crate \|.*\n\|[-|]*\n((?:\|.*\n)*)", path.read_text(encoding="utf-8"), re.M)
    if not rows:
        return []
    listed = {row.split("|")[1].strip() for row in rows[1].splitlines()}
    return [f"{path.relative_to(TOP)}: {crate} isn't a crate, or has no row" for crate in sorted(listed ^ set(repository.crates))]


def faults_of_wrong_bodies(repository):
    """The folders of wrong bodies that are no crate's."""
    folders = sorted({path.parent.name for path in (TOP / "tools/wrong_bodies").glob("*/*.edit")})
    return [f"tools/wrong_bodies/{name}: {name} isn't a crate" for name in folders if name not in repository.crates]


def main():
    repository = Repository()
    documents = [TOP / "README.md", *sorted((TOP / "docs").glob("*.md"))]
    faults = [fault for path in documents for check in (faults_of, faults_of_tables) for fault in check(repository, path)]
    faults += faults_of_wrong_bodies(repository)
    for fault in faults:
        print(fault, file=sys.stderr)
    print(f"{len(documents)} documents, {len(faults)} names that don't stand")
    return 1 if faults else 0


if __name__ == "__main__":
    sys.exit(main())
