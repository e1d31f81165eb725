"""The test programs with rows: what each of their lines prints."""
import re

from paradyn import commands
from . import calls, language, machine, patched, pd_words, records


def text(lines):
    return "".join(line + "\n" for line in lines).encode()


def test_top(folder):
    """Pairs of a row and what it prints."""
    return calls.answers((folder / "stdin").read_bytes(), (folder / "stdout").read_bytes())


def table_rows(folder):
    """Pairs of a table's name and a row of it; the lines that begin with # say nothing."""
    for line in (folder / "stdin").read_text().removesuffix("\n").split("\n"):
        if not line.startswith("#"):
            yield line, *line.partition(" ")[::2]


def standing_of_pd(folder):
    """What stands for each row of `pd`, also on a screen: what the reference doesn't print is made by hand."""
    _, *parts = re.split(r"^(\$ (?:pd|screen) .*)\n", (folder / "stdout").read_text(), flags=re.M)
    return {row.removeprefix("$ "): [row, *text.splitlines()] for row, text in zip(parts[::2], parts[1::2])}


def person(name, row, standing):
    """What is printed of a row of `pd` or `screen`."""
    text = pd_words.answer(row.split(" ") if row else [], name == "screen")
    return standing.get(f"{name} {row}", []) if text is None else [f"$ {name} {row}", *text.splitlines()]


def test_language(folder):
    source, of_pd = (folder / "src/searches/rows.rt").read_text(), standing_of_pd(folder)
    tables = {"language": language.answer, "command": records.command, "record": records.record,
              "search": lambda row: records.search(row, source), "pd": lambda row: person("pd", row, of_pd),
              "screen": lambda row: person("screen", row, of_pd)}
    for line, table, row in table_rows(folder):
        yield line, text(tables[table](row) if table in tables else ["no table"])


def test_machine(folder):
    judge = machine.Judge()
    tables = {"admissions": machine.admissions, "code": machine.code, "conformance": judge.answer,
              "patched": patched.answer}
    for line, table, row in table_rows(folder):
        yield line, text(tables[table](row) if table in tables else ["no table"])
    yield "the counts at the end", text(judge.end())


def paradyn(folder):
    """One call, whose words are in `args`."""
    words = (folder / "args").read_text().split("\n")
    words = [w for w in words if w]
    result = commands.execute(words, lambda name: (folder / "data" / name).read_bytes())
    yield " ".join(words), result.out


CRATES = {"test_top": test_top, "test_language": test_language, "test_machine": test_machine, "paradyn": paradyn}
