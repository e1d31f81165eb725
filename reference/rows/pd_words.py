"""The rows of `test_language` on the words of `pd`."""
from paradyn import pd_words
from . import debug

# a text of so many bytes or more is printed as its length and its first line
LONG = 1500


def told(kind, text):
    count = len(text.encode())
    return f"{kind}\n{text}" if count < LONG else f"{kind}, {count} bytes\n{text.splitlines()[0]}\n"


def name(text):
    return debug.option(None if text is None else f'"{text}"')


def served(asked):
    words = ", ".join(f'"{word}"' for word in asked.words)
    return f"serve [{words}] output {name(asked.output)} force {debug.truth(asked.force)} quiet {debug.truth(asked.quiet)}\n"


def answer(words, is_screen):
    """What is printed of words, or None where they ask for a text that the reference hasn't."""
    try:
        asked = pd_words.read(words, is_screen)
    except pd_words.Wrong as wrong:
        return told("wrong", wrong.text)
    if isinstance(asked, pd_words.Print):
        return told("print", asked.text)
    if isinstance(asked, pd_words.Check):
        return f'check "{asked.program}" {name(asked.conf)} harts {asked.harts}\n'
    return served(asked) if isinstance(asked, pd_words.Serving) else None
