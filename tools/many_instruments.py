#!/usr/bin/env python3
"""Writes a program of 4,096 procedures and a configuration of 1,024 metrics, each of which counts the entries of four of them.

usage: tools/many_instruments.py FOLDER [METRICS]
It writes FOLDER/many.s and FOLDER/many.conf. Run them with --instruments 1024.
"""
import sys
from pathlib import Path

PROCEDURES = 4096


def program():
    lines = ['.proc main', 'again:']
    lines += [f'    call f{n}' for n in range(PROCEDURES)]
    lines += ['    j again', '.end']
    for n in range(PROCEDURES):
        lines += [f'.proc f{n}', '    ret', '.end']
    return '\n'.join(lines) + '\n'


def configuration(metrics):
    lines = []
    for n in range(metrics):
        names = ', '.join(f'f{4 * n + k}' for k in range(4))
        lines.append(
            f'metric m{n} {{ units "calls"; base is counter {{ foreach func in [{names}] {{ append entry (* m{n}++; *) }} }} }}'
        )
    lines += [f'at 0 show m{n} /Code;' for n in range(metrics)]
    return '\n'.join(lines) + '\n'


def main():
    folder = Path(sys.argv[1])
    metrics = int(sys.argv[2]) if len(sys.argv) > 2 else 1024
    folder.mkdir(parents=True, exist_ok=True)
    (folder / 'many.s').write_text(program())
    (folder / 'many.conf').write_text(configuration(metrics))


main()
