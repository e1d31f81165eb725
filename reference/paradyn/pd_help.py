"""The texts of help of `pd`, and what is said where its words are wrong."""
from . import pd_tables

TRY = "\n\nFor more information, try '--help'.\n"


def usage(command, used=None):
    """The line of usage: of all words, or where options were used, with these."""
    parts = ["pd", command.name]
    if used is None:
        parts += ["[OPTIONS]"] if command.options else []
    else:
        parts += dict.fromkeys(w.shown for w in used if not w.is_place)
    for w in command.places:
        is_bare = not command.needs(w) and w not in (used or ())
        parts.append("[%s]" % w.name if is_bare else w.shown)
    return "Usage: " + " ".join(parts)


def wrong(message, usage_line=None):
    return "error: " + message + ("\n\n" + usage_line if usage_line else "") + TRY


def option_line(word):
    """How an option is listed, and what is said of it."""
    front = ("-%s, " % word.letter if word.letter else "    ") + word.shown
    notes = ["[default: %s]" % word.default] if word.default else []
    notes += ["[possible values: %s]" % ", ".join(word.values[1:])] if word.values[0] == "Words" else []
    return front, " ".join([word.what] + notes)


def place_line(command, word):
    front = word.shown if command.needs(word) else "[%s]" % word.name
    notes = ["[possible values: %s]" % ", ".join(word.values[1:])] if word.values[0] == "Words" else []
    return front, " ".join([word.what] + notes)


def listed(rows):
    width = max(len(front) for front, _ in rows)
    return "".join("  %s  %s\n" % (front.ljust(width), what) for front, what in rows)


def of_command(command):
    """What `pd help COMMAND` prints."""
    out = command.summary + "\n\n" + usage(command) + "\n"
    if command.places:
        out += "\nArguments:\n" + listed([place_line(command, w) for w in command.places])
    rows = [option_line(w) for w in command.options] + [("-h, --help", "Print help")]
    return out + "\nOptions:\n" + listed(rows) + "\n" + command.example + "\n"


def of_all():
    """What `pd --help` prints."""
    rows = [(c.name, c.summary) for c in pd_tables.commands().values()]
    rows.append(("help", "Print this message or the help of the given subcommand(s)"))
    options = [("-h, --help", "Print help"), ("-V, --version", "Print version")]
    return (pd_tables.text("ABOUT") + "\n\nUsage: pd [COMMAND]\n\nCommands:\n" + listed(rows) + "\nOptions:\n" + listed(options)
            + "\n" + pd_tables.text("STATUSES") + "\n")
