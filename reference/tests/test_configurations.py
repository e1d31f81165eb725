"""Configurations against the grammar, and their canonical text."""
import random
import unittest

from cases.configurations import Configuration, changed
from cases.programs import Text
from paradyn import configuration, shipped, tokens
from paradyn.canonical import but_for_lines, print_conf
from .grammar import first_bad

COUNT = 250


def scanned(text):
    """The tokens up to the end or the first fault, the fault or None, and the scanner."""
    scanner, out = tokens.Scanner(text), []
    try:
        for t in iter(scanner.next, None):
            out.append(t)
    except tokens.LexFault as f:
        return out, (f.line, f.col, f.kind), scanner
    return out, None, scanner


def too_deep(found):
    """The seventeenth nested `if` among the tokens, or None."""
    depth = 0
    for n, t in enumerate(found):
        begins = n and found[n - 1].text in (b"(*", b";", b")") and found[n + 1:n + 2] and found[n + 1].text == b"("
        if t.text == b"if" and begins:
            depth += 1
            if depth == 17:
                return t.line, t.col, tokens.TOO_DEEP
        elif t.text == b";":
            depth = 0
    return None


def expected(text):
    """The first fault of a text by the grammar, or None."""
    found, fault, scanner = scanned(text)
    k = first_bad(found)
    deep = too_deep(found[:k])
    if deep is not None:
        return deep
    if k is not None and k < len(found):
        return found[k].line, found[k].col, tokens.UNEXPECTED
    if fault:
        return fault
    return None if k is None else (*scanner.place(), tokens.UNEXPECTED)


def parsed(text):
    try:
        return configuration.parse(text), None
    except tokens.ParseFault as f:
        return None, (f.line, f.col, f.kind)


class Configurations(unittest.TestCase):
    def test_against_the_grammar(self):
        for seed in range(COUNT):
            draw = random.Random(seed)
            text = Configuration(draw, Text(draw)).text.encode()
            if seed % 5 == 0:
                text = text.replace(b"(* ", b"(* " + b"if ($arg[1] == 0) " * draw.choice([15, 16, 17]), 1)
            if seed % 4:
                text = changed(draw, text)
            conf, fault = parsed(text)
            with self.subTest(seed=seed):
                self.assertEqual(fault, expected(text))
                if conf is not None:
                    self.same_when_printed(conf)

    def same_when_printed(self, conf):
        text = print_conf(conf)
        again = configuration.parse(text)
        self.assertEqual(but_for_lines(again), but_for_lines(conf))
        self.assertEqual(print_conf(again), text)

    def test_shipped_items(self):
        self.same_when_printed(shipped.shipped())


if __name__ == "__main__":
    unittest.main()
