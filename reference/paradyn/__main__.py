"""The reference as a program:  python3 -m paradyn COMMAND ..

It prints what the product prints, ends with its status, and leaves the log that `--log` names.
"""
import sys

from .command_words import log_name
from .commands import execute


def read(name):
    try:
        with open(name, "rb") as f:
            return f.read()
    except OSError:
        return None


def text_of(words):
    """The words, or none where they aren't text."""
    try:
        "".join(words).encode()
    except UnicodeEncodeError:
        return []
    return words


def main(words):
    words = text_of(words)
    result = execute(words, read)
    log = log_name(words) if result.status == 0 else None
    try:
        if log is not None:
            with open(log, "wb") as f:
                f.write(result.log)
        sys.stdout.buffer.write(result.out)
        sys.stdout.buffer.flush()
    except OSError:
        return 7
    return result.status


if __name__ == "__main__":
    sys.exit(main(sys.argv[1:]))
