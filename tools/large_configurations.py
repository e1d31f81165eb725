#!/usr/bin/env python3
"""Writes configurations about as long as they may be, whose check asks for many names.

usage: tools/large_configurations.py FOLDER
It writes FOLDER/plain.s, a program, and FOLDER/NAME.conf with
- phases: 40,000 phases;
- replacement: 9,000 metrics that take one replacement of 50,000 statements;
- chain, backwards: 15,000 hypotheses, of which each is the parent of the next, or of the one before;
- wishes: 14,000 metrics, each shown from the beginning on.
Check one by `paradyn plan FOLDER/plain.s FOLDER/NAME.conf m0 /Code`.
"""
import sys
from pathlib import Path

COUNTED = 'metric m0 { units "calls"; base is counter { foreach func in [main] { append entry (* m0++; *) } } }'


def phases():
    return ['metric m0 { units "calls"; base is counter { } }'] + [f'phase p{n} at {n + 1};' for n in range(40000)]


def replacement():
    statements = '$metric++;' * 50000
    return [f'constraint c /Code is replace {{ foreach func in [main] {{ append entry (* {statements} *) }} }}'] + [
        f'metric m{n} {{ units ""; constraint c; base is counter {{ }} }}' for n in range(9000)
    ]


def chain(step):
    def parent(n):
        return f'parent h{n + step}; ' if 0 <= n + step < 15000 else ''

    return [COUNTED] + [
        f'hypothesis h{n} {{ {parent(n)}metric m0; threshold 1; }}' for n in range(15000)
    ]


def wishes():
    return [COUNTED] + [f'metric n{n} {{ units ""; base is counter {{ }} }}\nat 0 show n{n} /Code;' for n in range(14000)]


folder = Path(sys.argv[1])
(folder / 'plain.s').write_text('.proc main\nagain:\n    j again\n.end\n')
for name, lines in {
    'phases': phases(),
    'replacement': replacement(),
    'chain': chain(-1),
    'backwards': chain(1),
    'wishes': wishes(),
}.items():
    (folder / f'{name}.conf').write_text('\n'.join(lines) + '\n')
