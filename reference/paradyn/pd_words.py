"""The words of `pd`, the program that people type: which words of `paradyn` they stand for, or what is wrong with them."""
import dataclasses

from . import command_words, pd_help, pd_tables
from .nearness import similar


@dataclasses.dataclass
class Serving:
    """Words of `paradyn` to serve, and what is done beside."""
    words: list
    output: str | None = None
    force: bool = False
    quiet: bool = False


@dataclasses.dataclass
class Check:
    """A program, and perhaps a configuration, to look over before a run."""
    program: str
    conf: str | None
    harts: int


@dataclasses.dataclass
class Print:
    """A text to print."""
    text: str


class Wrong(Exception):
    """The words are wrong; `text` says why."""

    def __init__(self, text):
        super().__init__(text)
        self.text = text


class Help(Exception):
    """Help was asked for in the midst of the words."""


def bad_value():
    return Wrong(pd_tables.text("BAD_VALUE", pd_help.wrong("a value isn't in its range, or options exclude each other")))


def check_number(word, text):
    """Refuses what isn't a number of the word's range, as Rust reads numbers: a plus sign may stand before them."""
    digits = text[1:] if text[:1] == "+" and len(text) > 1 else text
    least, most = word.values[1:]
    if not text:
        cause = "cannot parse integer from empty string"
    elif not (digits.isascii() and digits.isdigit()):
        cause = "invalid digit found in string"
    elif int(digits) >= 2 ** 64:
        cause = "number too large to fit in target type"
    elif not least <= int(digits) <= most:
        cause = "%d is not in %d..=%d" % (int(digits), least, most)
    else:
        return
    raise Wrong(pd_help.wrong("invalid value '%s' for '%s': %s" % (text, word.shown, cause)))


def check_value(word, text):
    """Refuses what a word or an option can't be."""
    if word.values[0] == "Number":
        check_number(word, text)
    elif word.values[0] in ("File", "Words") and not text:
        raise no_value(word)
    elif word.values[0] == "Words" and text not in word.values[1:]:
        message = "invalid value '%s' for '%s'\n  [possible values: %s]" % (text, word.shown, ", ".join(word.values[1:]))
        near = similar(text, word.values[1:])
        raise Wrong(pd_help.wrong(message + ("\n\n  tip: a similar value exists: '%s'" % near[-1] if near else "")))


def no_value(word):
    return Wrong(pd_help.wrong("a value is required for '%s' but none was supplied" % word.shown))


class Given:
    """The words that were given to a command, as far as they were read."""

    def __init__(self, command):
        self.command = command
        self.values = {}
        # an option that waits for its value, or a positional word that may go on; and its values
        self.pending = None

    def used(self, *also):
        """The words that were given, in their order, and what is needed."""
        return [w for w in self.values] + list(also) + [w for w in self.command.places if self.command.needs(w)]

    def act(self, word, values):
        """Takes the values of a word."""
        if not values and not word.is_alone:
            raise no_value(word)
        if word in self.values and word.kind[0] == "Places":
            values = self.values[word] + values
        elif word in self.values:
            raise Wrong(pd_help.wrong("the argument '%s' cannot be used multiple times" % word.shown, pd_help.usage(self.command)))
        for value in values:
            check_value(word, value)
        self.values[word] = values

    def settle(self):
        if self.pending is not None:
            word, values = self.pending
            self.pending = None
            self.act(word, values)

    def forget(self):
        """Takes what is pending, whatever is wrong with it: something else is wrong."""
        try:
            self.settle()
        except Wrong:
            pass

    def react(self, word, value):
        """Takes an option that was met, with the value that stands in its own word, if one does."""
        self.settle()
        if word.is_alone or value is not None:
            self.act(word, [] if value is None else [value])
        else:
            self.pending = (word, [])

    def waits(self):
        """Whether an option waits for its value."""
        return self.pending is not None and not self.pending[0].is_place and not self.pending[1]

    def put(self, value):
        """Gives the option its value, which is looked at when more is met."""
        self.pending[1].append(value)

    def place(self, value):
        """Takes a positional word."""
        if self.pending is not None and (not self.pending[0].is_place or self.pending[0].kind[0] != "Places"):
            self.settle()
        at = sum(w.is_place and w.kind[0] != "Places" for w in self.values)
        if at >= len(self.command.places):
            self.forget()
            raise Wrong(pd_help.wrong("unexpected argument '%s' found" % value, pd_help.usage(self.command)))
        word = self.command.places[at]
        if self.pending is not None:
            self.pending[1].append(value)
        else:
            self.pending = (word, [value])


def long_word(given, text):
    """Takes an option by its name."""
    name, sign, value = text[2:].partition("=")
    command = given.command
    word = next((w for w in command.options if w.name == name), None)
    if name == "help" and not sign:
        given.settle()
        raise Help
    if word is None:
        given.forget()
        near = similar(name, [w.name for w in command.options] + ["help"])
        if near:
            meant = [w for w in command.options if w.name == near[-1]]
            tip = "\n\n  tip: a similar argument exists: '--%s'" % near[-1]
        else:
            meant, tip = [], "\n\n  tip: to pass '--%s' as a value, use '-- --%s'" % (name, name) if command.places else ""
        line = pd_help.usage(command, given.used(*meant))
        raise Wrong(pd_help.wrong("unexpected argument '--%s' found" % name + tip, line))
    if word.is_alone and sign:
        given.forget()
        line = pd_help.usage(command, given.used(word))
        raise Wrong(pd_help.wrong("unexpected value '%s' for '%s' found; no more were expected" % (value, word.shown), line))
    given.react(word, value if sign else None)


def short_words(given, text):
    """Takes options by their letters, of which the last may have its value behind it."""
    command, letters = given.command, text[1:]
    while letters:
        letter, letters = letters[0], letters[1:]
        word = next((w for w in command.options if w.letter == letter), None)
        if letter == "h":
            given.settle()
            raise Help
        if word is None:
            given.forget()
            tip = "\n\n  tip: to pass '-%s' as a value, use '-- -%s'" % (letter, letter) if command.places else ""
            raise Wrong(pd_help.wrong("unexpected argument '-%s' found" % letter + tip, pd_help.usage(command)))
        if word.is_alone:
            given.react(word, None)
        else:
            value = letters.removeprefix("=")
            given.react(word, value if letters else None)
            return


def walk(command, words):
    """What was given to a command."""
    given, is_end = Given(command), False
    for text in words:
        if is_end:
            given.place(text)
        elif text == "--":
            is_end = True
        elif text.startswith("--"):
            long_word(given, text)
        elif text.startswith("-") and text != "-":
            short_words(given, text)
        elif given.waits():
            given.put(text)
        else:
            given.place(text)
    given.settle()
    missing = [w for w in command.places if command.needs(w) and w not in given.values]
    if missing:
        message = "the following required arguments were not provided:" + "".join("\n  " + w.shown for w in missing)
        raise Wrong(pd_help.wrong(message, pd_help.usage(command, given.used())))
    return {w.name: values for w, values in given.values.items()}


def served_words(command, given):
    """The words of `paradyn` for what was given."""
    out = [command.name]
    for w in command.words:
        if w.name not in given:
            continue
        value = given[w.name][0] if given[w.name] else ""
        if w.kind[0] == "ServedOption":
            out.append("--%s=%s" % (w.name, value))
        elif w.kind[0] == "NamedPlace":
            out.append("--%s=%s" % (w.kind[1], value))
        elif w.kind[0] in ("Choice", "FileChoice"):
            out.append("--%s=%s" % w.kind[1:])
    out.append("--")
    return out + [",".join(given[w.name]) for w in command.words if w.kind[0] in ("Place", "Places") and w.name in given]


def for_screen(words, is_screen):
    """The words that are served where a screen shows what they ask for: they ask for a table, where that is a request."""
    asked = words[:1] + ["--show=table"] + words[1:]
    return asked if is_screen and words and command_words.parse(asked) is not None else words


def serving(command, given, is_screen):
    words = served_words(command, given)
    if command_words.parse(words) is None:
        raise bad_value()
    outputs = [given[name][0] for name in ("output", "svg", "html") if name in given]
    if len(outputs) > 1:
        raise Wrong(pd_tables.text("TWO_FILES", pd_help.wrong("one file takes what is printed")))
    output = outputs[0] if outputs else None
    return Serving(for_screen(words, is_screen and output is None), output, "force" in given, "quiet" in given)


def checking(given):
    harts = command_words.number(given.get("harts", ["1"])[0], 1, 32)
    if harts is None:
        raise bad_value()
    return Check(given["PROGRAM"][0], given.get("CONF", [None])[0], harts)


def asked_of(command, words, is_screen):
    """What the words behind a command ask for. (Of the man page and the completions there is the command alone.)"""
    try:
        given = walk(command, words)
    except Help:
        return Print(pd_help.of_command(command))
    if command.server == "Paradyn":
        return serving(command, given, is_screen)
    return checking(given) if command.server == "Check" else command


def unknown_command(word):
    near = similar(word, [*pd_tables.commands(), "help"])
    tip = "\n\n  tip: %s: %s" % ("a similar subcommand exists" if len(near) == 1 else "some similar subcommands exist",
                                 ", ".join("'%s'" % name for name in near)) if near else ""
    return Wrong(pd_help.wrong("unrecognized subcommand '%s'" % word + tip, "Usage: pd [COMMAND]"))


def help_of(words):
    """What `help` prints of the command behind it, if there is one."""
    if not words:
        return Print(pd_help.of_all())
    if words[0] not in pd_tables.commands():
        raise unknown_command(words[0])
    return Print(pd_help.of_command(pd_tables.commands()[words[0]]))


def option_above(word, rest):
    """What is said of an option that stands before the command, or printed."""
    name = word[2:].partition("=")[0]
    if word in ("--help",) or word[:2] == "-h":
        return Print(pd_help.of_all())
    if word in ("--version",) or word[:2] == "-V":
        return Print("pd %s\n" % pd_tables.text("VERSION"))
    if not word.startswith("--"):
        raise Wrong(pd_help.wrong("unexpected argument '%s' found" % word[:2], "Usage: pd [COMMAND]"))
    tip, near = "", similar(name, ["help", "version"])
    if near:
        tip = "\n\n  tip: a similar argument exists: '--%s'" % near[-1]
    for command in (c for c in pd_tables.commands().values() if c.name in rest and not near):
        found = similar(name, [w.name for w in command.options] + ["help"])
        if found:
            tip = "\n\n  tip: '%s --%s' exists" % (command.name, found[-1])
            break
    raise Wrong(pd_help.wrong("unexpected argument '--%s' found" % name + tip, "Usage: pd [COMMAND]"))


def read(words, is_screen=False):
    """What words ask `pd` for: Serving, Check, Print, or the command that prints a text of its own; or Wrong."""
    words = list(words)
    if command_words.parse(words) is not None:
        return Serving(for_screen(words, is_screen))
    if not words or words[0] == "--":
        return Print(pd_help.of_all())
    first, rest = words[0], words[1:]
    if first == "help":
        return help_of(rest)
    if first.startswith("-") and first != "-":
        return option_above(first, rest)
    if first not in pd_tables.commands():
        raise unknown_command(first)
    return asked_of(pd_tables.commands()[first], rest, is_screen)
