"""The tables of the commands and of the words of `pd`, as crates/pd_words has them: what there is, and what is said of it."""
import dataclasses
import functools
import pathlib
import re

SOURCE = pathlib.Path(__file__).resolve().parents[2] / "crates"
STRING = r'"((?:[^"\\]|\\.)*)"'
# constants stand in these files
CONSTANTS = ("pn_types/src", "command_words/src", "pd_words/src")


@dataclasses.dataclass(frozen=True)
class Word:
    """A positional word or an option. Of `kind` there is the name and what is in brackets behind it."""
    name: str
    kind: tuple
    values: tuple
    letter: str = ""
    value: str = ""
    default: str | None = None
    what: str = ""

    @property
    def is_place(self):
        return self.kind[0] in ("Place", "Places", "NamedPlace")

    @property
    def is_alone(self):
        return self.values[0] == "Alone"

    @property
    def shown(self):
        """How it is named in messages and in lines of usage."""
        if self.is_place:
            return "<%s>" % self.name + ("..." if self.kind[0] == "Places" else "")
        return "--" + self.name + ("" if self.is_alone else " <%s>" % self.value)


@dataclasses.dataclass(frozen=True)
class Command:
    """A command, with its positional words and options in the order of the table of words."""
    name: str
    server: str
    words: tuple
    optional: tuple
    summary: str
    example: str

    @property
    def places(self):
        return [w for w in self.words if w.is_place]

    @property
    def options(self):
        return [w for w in self.words if not w.is_place]

    def needs(self, word):
        return word.is_place and word.name not in self.optional


def read(name):
    return (SOURCE / "pd_words/src" / name).read_text()


def unescaped(text):
    """What a literal of a text means."""
    return re.sub(r"\\\n\s*", "", text).replace('\\"', '"').replace("\\n", "\n").replace("\\\\", "\\")


@functools.cache
def constant(name):
    """The value of a constant that is a number."""
    for folder in CONSTANTS:
        for path in sorted((SOURCE / folder).glob("**/*.rt")):
            found = re.search(r"\bconst %s: \w+ = ([\d_]+);" % name, path.read_text())
            if found:
                return int(found[1].replace("_", ""))
    raise KeyError(name)


def number(text):
    """The number that a literal or a constant is."""
    text = re.sub(r" as \w+$", "", text.strip())
    return int(text.replace("_", "")) if text[:1].isdigit() else constant(text)


def bodies(text, kind):
    """What is between the braces of each row of a table."""
    return re.findall(r"\n    %s \{\n(.*?)\n    \}" % kind, text, re.S)


def field(body, name):
    """The text that a field of a row is, or None."""
    found = re.search(r"\b%s:\s*(?:Some\()?%s" % (name, STRING), body)
    return unescaped(found[1]) if found else None


def names(body, name):
    """The texts of a field that is a list."""
    return tuple(re.findall(STRING, re.search(r"\b%s: &\[(.*?)\]" % name, body, re.S)[1]))


def values_of(body, base, source):
    """What the word can be."""
    found = re.search(r"\bvalues: Values::(\w+)(?:\(([^)]*)\))?", body)
    if found is None:
        return base
    if found[1] == "Number":
        return ("Number",) + tuple(number(n) for n in found[2].split(","))
    if found[1] == "Words":
        listed = re.search(r"const %s: .*? = \[(.*?)\];" % found[2].lstrip("&"), source, re.S)
        return ("Words",) + tuple(re.findall(STRING, listed[1]))
    return (found[1],)


def word_of(body, source):
    base = re.search(r"\.\.(\w+)", body)[1]
    kind = re.search(r"\bkind: Kind::(\w+)(?:\(([^)]*)\))?", body)
    return Word(
        name=field(body, "name"),
        kind=(kind[1],) + tuple(re.findall(STRING, kind[2] or "")) if kind else
        {"PLACE": ("Place",), "OPTION": ("ServedOption",), "FLAG": ("OwnOption",)}[base],
        values=values_of(body, {"PLACE": ("File",), "OPTION": ("File",), "FLAG": ("Alone",)}[base], source),
        letter=field(body, "letter") or "",
        value=field(body, "value") or ("N" if base == "OPTION" else ""),
        default=field(body, "default"),
        what=field(body, "what"))


@functools.cache
def words():
    """All positional words and options, in the order in which help lists them."""
    source = read("words.rt")
    return tuple(word_of(body, source) for body in bodies(source, "WordRow"))


def command_of(body):
    own = names(body, "words")
    return Command(field(body, "word"), re.search(r"server: Server::(\w+)", body)[1], tuple(w for w in words() if w.name in own),
                   names(body, "optional"), field(body, "summary"), field(body, "example"))


@functools.cache
def commands():
    """All commands by name, in the order in which help lists them."""
    return {c.name: c for c in map(command_of, bodies(read("commands.rt"), "CommandRow"))}


@functools.cache
def text(name, otherwise=""):
    """The text that a constant of pd_words is, whatever file it is in; or another text where there is none of that name."""
    for path in sorted((SOURCE / "pd_words/src").glob("**/*.rt")):
        found = re.search(r"const %s: &str =\s*%s;" % (name, STRING), path.read_text(), re.S)
        if found:
            return unescaped(found[1])
    return otherwise
