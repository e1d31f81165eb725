#!/usr/bin/env python3
"""Says which file that docs/CHANGING.md names isn't there.

    tools/changing.py

A file is named between backquotes with a `/` or an ending in it, from the top or from crates/. The status is 1 where one isn't there."""

import pathlib
import re
import sys

TOP = pathlib.Path(__file__).resolve().parent.parent


def main():
    named = re.findall(r"`([\w./]+\.(?:rt|antt|py|md)|[\w./]+/std(?:in|out))`", (TOP / "docs/CHANGING.md").read_text())
    missing = [name for name in named if not (TOP / name).is_file() and not (TOP / "crates" / name).is_file()]
    for name in missing:
        print(f"docs/CHANGING.md: {name} isn't there")
    print(f"{len(named)} files named, {len(missing)} not there")
    return 1 if missing or not named else 0


sys.exit(main())
