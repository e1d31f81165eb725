#!/usr/bin/env python3
"""Draws the crates of crates.txt, layer by layer, between the marks of docs/ARCHITECTURE.md, and counts them in all documents.

    tools/picture.py            writes the picture and the numbers
    tools/picture.py --check    writes nothing, and fails where they aren't what would be written

A layer is what comes below a heading `# ---- NAME` of crates.txt. It fails too where a crate comes before one that it names, and where a
crate names one that none of its files names. Of the dependencies only those are drawn that no other one brings along. Crates of a layer
with the same ones share a row. A number or a list comes between `<!--NAME-->` and `<!---->`, where NAME is crates, layers, levels or chain.
"""
import re
import sys
import textwrap
from functools import cache
from pathlib import Path

TOP = Path(__file__).resolve().parent.parent
PAGE = TOP / "docs" / "ARCHITECTURE.md"
DOCUMENTS = [TOP / "README.md", *sorted((TOP / "docs").glob("*.md"))]
BEGIN, END = "<!-- tools/picture.py writes from here -->\n", "<!-- to here -->\n"
WIDTH = 86


def layers_of(text):
    """The layers of crates.txt, each a heading and its crates with what they name."""
    layers = []
    for line in text.splitlines():
        if line.startswith("# ---- "):
            layers.append((line.removeprefix("# ---- "), {}))
        elif line.strip() and not line.startswith("#"):
            if not layers:
                sys.exit("crates.txt begins with no heading")
            head, _, names = line.partition(":")
            layers[-1][1][head.split()[0]] = names.split()
    return layers


class Graph:
    """The crates, each with those of the repository that it names."""

    def __init__(self, layers):
        named = {crate: names for _, crates in layers for crate, names in crates.items()}
        self.below = {crate: [name for name in names if name in named] for crate, names in named.items()}
        self.place = {crate: place for place, crate in enumerate(named)}
        self.all_below = cache(self.all_below)
        self.depth = cache(self.depth)

    def all_below(self, crate):
        """All crates below one, at any depth."""
        return frozenset(self.below[crate]).union(*(self.all_below(name) for name in self.below[crate]))

    def depth(self, crate):
        """How many crates the longest chain below one has."""
        return max((self.depth(name) + 1 for name in self.below[crate]), default=0)

    def needed(self, crate):
        """The dependencies of a crate that no other of its dependencies brings along, the highest first."""
        names = self.below[crate]
        needed = [name for name in names if not any(name in self.all_below(other) for other in names)]
        return sorted(needed, key=lambda name: -self.place[name])

    def out_of_order(self):
        """The pairs of a crate and one that it names and that stands after it."""
        return [(crate, name) for crate, names in self.below.items() for name in names if self.place[name] > self.place[crate]]


    def chain(self):
        """The crates of a longest chain, the highest first: of several crates that are as good, the last one in crates.txt."""
        found, names = [], list(self.below)
        while names:
            found.append(max(names, key=lambda name: (self.depth(name), self.place[name])))
            names = self.below[found[-1]]
        return found


def words_of(crate):
    """The words in the files of a crate."""
    files = [path for path in (TOP / "crates" / crate).rglob("*") if path.suffix in (".rt", ".antt") and "out" not in path.parts]
    return {word for path in files for word in re.findall(r"\w+", path.read_text(encoding="utf-8"))}


def unused(layers):
    """The pairs of a crate and one that it names, of the repository or of the kit, and that none of its files names."""
    for _, crates in layers:
        for crate, names in crates.items():
            words = words_of(crate)
            yield from ((crate, name) for name in names if name not in words)


def counted(page, layers):
    """A page with the numbers in their places."""
    graph = Graph(layers)
    chain = graph.chain()
    texts = {"crates": str(len(graph.below)), "layers": str(len(layers)), "levels": str(len(chain)), "chain": ", ".join(chain)}
    for name, text in texts.items():
        page = re.sub(rf"<!--{name}-->.*?<!---->", lambda _: f"<!--{name}-->{text}<!---->", page, flags=re.S)
    return page


def rows_of(graph, crates):
    """The rows of a layer: crates that stand on the same ones, the longest chain below them, and what they stand on."""
    rows = {}
    for crate in sorted(crates, key=lambda crate: (graph.depth(crate), graph.place[crate])):
        rows.setdefault((graph.depth(crate), tuple(graph.needed(crate))), []).append(crate)
    return [(", ".join(names), depth, ", ".join(needed)) for (depth, needed), names in rows.items()]


def drawing_of(layers):
    """The lines of the picture, the highest layer first."""
    graph = Graph(layers)
    drawn = [(title, rows_of(graph, crates)) for title, crates in layers]
    wide = max(len(title) for title, _ in drawn)
    lines = []
    for title, rows in reversed(drawn):
        for at, (names, depth, needed) in enumerate(rows):
            head = f"{title if at == 0 else '':{wide}} {depth:2} "
            text = f"{names} ─► {needed}" if needed else names
            after = " " * len(head) + "  "
            lines += textwrap.wrap(text, WIDTH, initial_indent=head, subsequent_indent=after, break_on_hyphens=False)
    return lines


def page_with(page, lines):
    """The page with the lines between its marks."""
    before, begin, rest = page.partition(BEGIN)
    _, end, after = rest.partition(END)
    if not begin or not end:
        sys.exit("docs/ARCHITECTURE.md has no place for the picture")
    return before + begin + "\n" + "".join(f"    {line}".rstrip() + "\n" for line in lines) + "\n" + end + after


def pages(layers):
    """Each document that has a picture or a number, with what it should be."""
    lines = drawing_of(layers)
    for path in DOCUMENTS:
        page = path.read_text(encoding="utf-8")
        yield path, page, counted(page_with(page, lines) if path == PAGE else page, layers)


def main(words):
    layers = layers_of((TOP / "crates.txt").read_text(encoding="utf-8"))
    faults = [f"crates.txt: {crate} stands before {name}, which it names" for crate, name in Graph(layers).out_of_order()]
    faults += [f"crates.txt: {crate} names {name}, which none of its files names" for crate, name in unused(layers)]
    for path, old, new in pages(layers):
        if old == new:
            continue
        if "--check" in words:
            faults.append(f"{path.relative_to(TOP)} hasn't what tools/picture.py writes")
        else:
            path.write_text(new, encoding="utf-8")
    for fault in faults:
        print(fault, file=sys.stderr)
    print(f"{sum(len(crates) for _, crates in layers)} crates in {len(layers)} layers, {len(Graph(layers).chain())} levels")
    return 1 if faults else 0


if __name__ == "__main__":
    sys.exit(main(sys.argv[1:]))
