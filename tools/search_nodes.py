#!/usr/bin/env python3
"""Writes a program that calls its procedures one after another, and a search that tests each of them and finds it true.

usage: tools/search_nodes.py FOLDER PROCEDURES
It writes FOLDER/nodes.s and FOLDER/nodes.conf, and FOLDER/none.conf without the search. Run them with --width 1000 and
--budget of 200 times PROCEDURES. In FOLDER/waiting.conf eight hypotheses are tested one after another, since the limit of
the costs has room for one: 2,600 words are room for 500 PROCEDURES, and 400,000 ticks are enough.
"""
import sys
from pathlib import Path

SEARCH = """include metrics;
hypothesis All { metric procedure_calls; threshold 0; axes Code; }
search { window 1; cost 1000000; observed 1000000; }
"""


WAITING = """include metrics;
%ssearch { window 30; cost %d; observed 1000000; }
"""
ONE_OF_MANY = 'hypothesis All%d { metric procedure_calls; threshold 1000000; axes Code; }\n'


def program(procedures):
    lines = ['.proc main', 'again:']
    lines += [f'    call f{n}' for n in range(procedures)]
    lines += ['    j again', '.end']
    for n in range(procedures):
        lines += [f'.proc f{n}', '    ret', '.end']
    return '\n'.join(lines) + '\n'


def main():
    folder = Path(sys.argv[1])
    folder.mkdir(parents=True, exist_ok=True)
    (folder / 'nodes.s').write_text(program(int(sys.argv[2])))
    (folder / 'nodes.conf').write_text(SEARCH)
    hypotheses = ''.join(ONE_OF_MANY % n for n in range(8))
    (folder / 'waiting.conf').write_text(WAITING % (hypotheses, 5 * int(sys.argv[2]) + 100))
    (folder / 'none.conf').write_text('include metrics;\n')


main()
