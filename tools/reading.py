#!/usr/bin/env python3
"""Lists what must be believed for what `paradyn` tells: from the headline on each definition that it names, in reading order.

    tools/reading.py            writes docs/READING.md, and fails where more must be believed than before
    tools/reading.py --more     writes it also then
    tools/reading.py --check    writes nothing, and fails where docs/READING.md isn't what would be written

The definitions of tools/core.txt come first, by topic; all others are an appendix. It fails where one of these isn't reached.
It fails too where a definition that is reached is marked as for proofs alone, where a file of specs/ is neither reached, nor from a file
that docs/CLAIMS.md names, nor marked, and where docs/CLAIMS.md names a file that isn't there.
"""
import re
import sys

from antt_definitions import ALONE, TOP, Definition, Library

PAGE = TOP / "docs" / "READING.md"
CLAIMS = TOP / "docs" / "CLAIMS.md"
CORE = TOP / "tools" / "core.txt"
HEADLINE = "headline.Headline"
PROGRAM = "headline.Program"


def reading_of(library, roots, read):
    """The roots and all that they name and that wasn't read before: first what stands nearest."""
    order, next_ones = [], list(roots)
    while next_ones:
        now, next_ones = next_ones, []
        for definition in now:
            if definition in read:
                continue
            read.append(definition)
            order.append(definition)
            next_ones += library.named_by(definition)
    return order


def clauses_of(definition):
    """The clauses of a definition by cases of a request, by the command's word, and what stands before them."""
    head, clauses, word = [], {}, None
    for line in definition.lines:
        found = re.match(rf"{definition.name} \((?:Some )?\(?(\w+) ", line)
        if found:
            word = found[1]
        elif re.match(rf"{definition.name} ", line):
            word = None
        (clauses.setdefault(word, []) if word else head).append(line)
    return head, clauses


def sections_of(library):
    """The parts of the page: a title, and the definitions that it adds."""
    tells = library.modules[HEADLINE].definitions["Tells"]
    call = library.modules[PROGRAM].definitions["IsTold"]
    read, sections = [], []
    head, clauses = clauses_of(tells)
    for word, lines in clauses.items():
        part = Definition(f"{tells.name} of `{word}`", tells.file, tells.line + tells.lines.index(lines[0]), lines)
        part.named = library.named_by(tells, lines)
        order = [part, *reading_of(library, part.named, read)]
        sections.append((f"`{word}`", order))
    read.append(tells)
    rest = reading_of(library, [call, library.modules[PROGRAM].definitions["words_read"]], read)
    sections.append(("The words, the sinks, and the refusals", rest))
    return sections


def claimed():
    """The files that the table of claims names, each by its crate and its own name."""
    text = CLAIMS.read_text(encoding="utf-8") if CLAIMS.is_file() else ""
    found = []
    for row in re.findall(r"^\|.*\|.*\|(.*)\|$", text, re.M):
        for crate, names in re.findall(r"(\w+) ((?:`\w+`(?: \([^)]*\))?(?:, )?)+)", row):
            found += [f"{crate}.{name}" for name in re.findall(r"`(\w+)`", re.sub(r"\([^)]*\)", "", names))]
    return found


def core_of(library):
    """The topics of tools/core.txt, each with pairs of a definition, or None, and what it says."""
    topics = []
    for line in CORE.read_text(encoding="utf-8").splitlines():
        name, tab, says = line.partition("\t")
        if tab:
            crate, module, definition = name.split(" ")
            found = library.modules.get(f"{crate}.{module}")
            topics[-1][1].append((name, found and found.definitions.get(definition), says))
        elif line and not line.startswith("#"):
            topics.append((line, []))
    return topics


def core_lines(topics):
    """The front of the page."""
    found = [d for _, rows in topics for _, d, _ in rows if d is not None]
    out = ["## The core", "", f"These {len(found)} definitions, of {sum(map(words_of, found))} words, carry the meaning; the others say what these name.", ""]
    for title, rows in topics:
        out += [f"**{title}**", "", "| definition | what it says | where | lines |", "|---|---|---|---|"]
        out += [f"| `{d.name}` | {says} | {d.file.relative_to(TOP).as_posix()}:{d.line} | {d.count} |" for _, d, says in rows if d is not None]
        out.append("")
    return out


def words_of(definition):
    """How many words and signs between blanks a definition has, without its comments."""
    mark = "//" if definition.file.suffix == ".rt" else "--"
    return sum(len(line.split(mark)[0].split()) for line in definition.lines)


def page_of(sections, topics):
    total = sum(words_of(definition) for _, order in sections for definition in order)
    lines = sum(definition.count for _, order in sections for definition in order)
    many = sum(len(order) for _, order in sections)
    out = [
        "# What must be believed",
        "",
        "For readers of the definitions. What the theorem (PROOF.md) means is in the definitions that it names, and in those that these name.",
        "The core comes first. The appendix lists all, for each command, the nearest first; what an earlier command had isn't listed again. Words of",
        "the standard library's own specs are not in it. `tools/reading.py` makes this page.",
        "",
        *core_lines(topics),
        "## Appendix: all definitions",
        "",
        f"**{total} words** in {many} definitions, on {lines} lines. The number of words, which line breaks don't change, may fall; where it",
        "would rise, `tools/reading.py` fails.",
        "",
        "| | definitions | words |",
        "|---|---|---|",
    ]
    for title, order in sections:
        out.append(f"| {title} | {len(order)} | {sum(map(words_of, order))} |")
    for title, order in sections:
        out += ["", f"### {title}", ""]
        if not order:
            out.append("Nothing more.")
        for d in order:
            out.append(f"- {d.name}: {d.file.relative_to(TOP).as_posix()}:{d.line}, {d.count}")
    return "\n".join(out) + "\n", total


def faults_of(library, sections):
    reached = [d for _, order in sections for d in order]
    files = {d.file for d in reached}
    faults = []
    for module in library.modules.values():
        for d in module.definitions.values():
            marked = module.alone or d.comment.lower().startswith(ALONE)
            if marked and d in reached:
                faults.append(f"{module.path.relative_to(TOP)}:{d.line}: {d.name} is reached, and marked as for proofs alone")
    faults += [f"docs/CLAIMS.md names {key}, and there is no such file" for key in claimed() if key not in library.modules]
    claims = [library.modules[key] for key in claimed() if key in library.modules]
    faults += [f"docs/CLAIMS.md names {module.key}, which is marked as for proofs alone" for module in claims if module.alone]
    also = {d.file for d in reading_of(library, [d for module in claims for d in module.definitions.values()], [])}
    for module in library.modules.values():
        if module.path not in files and module.path not in also and not module.alone:
            faults.append(f"{module.path.relative_to(TOP)}: neither reached nor marked as for proofs alone")
    return faults


def main(words):
    library = Library()
    sections = sections_of(library)
    topics = core_of(library)
    page, total = page_of(sections, topics)
    reached = [definition for _, order in sections for definition in order]
    reached.append(library.modules[HEADLINE].definitions["Tells"])
    faults = faults_of(library, sections)
    faults += [f"tools/core.txt: {name} isn't reached" for _, rows in topics for name, definition, _ in rows if definition not in reached]
    old = PAGE.read_text(encoding="utf-8") if PAGE.is_file() else ""
    before = re.search(r"\*\*(\d+) words\*\*", old)
    if before and total > int(before[1]) and "--more" not in words:
        faults.append(f"{total} words must be believed, {before[1]} before")
    if "--check" in words:
        if page != old:
            faults.append("docs/READING.md isn't what tools/reading.py writes")
    elif not (before and total > int(before[1]) and "--more" not in words):
        PAGE.write_text(page, encoding="utf-8")
    for fault in faults:
        print(fault, file=sys.stderr)
    print(f"{total} words must be believed")
    return 1 if faults else 0


if __name__ == "__main__":
    sys.exit(main(sys.argv[1:]))
