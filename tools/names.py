#!/usr/bin/env python3
"""Lists the names that stand for different definitions in the specs/ of two or more crates.

    tools/names.py            writes nothing, and fails where docs/NAMES.txt isn't that list
    tools/names.py --write    takes out of docs/NAMES.txt what doesn't stand twice any more; it adds nothing

A definition is another one where its type or its body is, apart from comments and white space. Each line of docs/NAMES.txt has a name and
the crates in which it stands. Records that mirror one another on purpose are in it too. A new name is added by hand, with a reason in the
commit; --write only takes out.
"""
import sys

from antt_definitions import CRATES, TOP, Library

LIST = TOP / "docs" / "NAMES.txt"


def text_of(definition):
    """What a definition says: its lines without comments and white space."""
    return " ".join(" ".join(line.split("--")[0].split()) for line in definition.lines).strip()


def texts_by_name(library):
    """For each name the crates in which it is defined, each with the texts that it has there."""
    found = {}
    for module in library.modules.values():
        crate = module.path.relative_to(CRATES).parts[0]
        for definition in module.definitions.values():
            found.setdefault(definition.name, {}).setdefault(crate, set()).add(text_of(definition))
    return found


def names_with_two_meanings(found):
    """The names that stand in two or more crates, and not with one text in all: each with its crates."""
    return {
        name: set(crates)
        for name, crates in sorted(found.items())
        if len(crates) > 1 and len(set().union(*crates.values())) > 1
    }


def kept_list():
    """The list as it is kept."""
    lines = LIST.read_text(encoding="utf-8").splitlines()
    return {name: set(crates) for name, *crates in (line.split() for line in lines)}


def shrunk(kept, standing):
    """What of the kept list still stands."""
    both = {name: crates & standing.get(name, set()) for name, crates in kept.items()}
    return {name: crates for name, crates in both.items() if len(crates) > 1}


def written(names):
    """The text of a list."""
    return "".join(f"{name} {' '.join(sorted(crates))}\n" for name, crates in sorted(names.items()))


def faults_of(kept, standing):
    """What stands and isn't kept, and what is kept and doesn't stand."""
    faults = []
    for name, crates in sorted(standing.items()):
        more = crates - kept.get(name, set())
        if more:
            where = ", ".join(sorted(crates))
            faults.append(f"{name} has different meanings in {where}; docs/NAMES.txt hasn't {', '.join(sorted(more))}")
    for name, crates in sorted(kept.items()):
        less = crates - standing.get(name, set())
        if less:
            faults.append(f"{name} of {', '.join(sorted(less))} needn't be in docs/NAMES.txt any more: tools/names.py --write takes it out")
    return faults


def main(words):
    found = texts_by_name(Library())
    standing, kept = names_with_two_meanings(found), kept_list()
    if "--write" in words:
        kept = shrunk(kept, standing)
        LIST.write_text(written(kept), encoding="utf-8")
    faults = faults_of(kept, standing)
    for fault in faults:
        print(fault, file=sys.stderr)
    copies = [name for name, crates in found.items() if len(crates) > 1 and name not in standing]
    print(f"{len(standing)} names with two meanings, and {len(copies)} that stand in two crates with one text")
    return 1 if faults else 0


if __name__ == "__main__":
    sys.exit(main(sys.argv[1:]))
