"""The blocks of a trampoline. A base block saves x5, leads to the mini blocks of its point and holds the moved word;
a mini block holds one instrument's statements and leads on to the next."""
from .relocation import moved_len
from .statement_code import TOOL, X5, jal, ld, sd, words_of


class Block:
    """Marked words that stand at an address and belong to a point."""

    __slots__ = ("point", "at", "words", "base")

    def __init__(self, point, at, words, base):
        self.point, self.at, self.words, self.base = point, at, words, base

    def copy(self):
        return Block(self.point, self.at, list(self.words), self.base)


def base_block(point, at, moved):
    head = at + 8
    words = [(sd(X5, 8, 0), TOOL), (jal(0, head - (at + 4)), TOOL), (ld(X5, 8, 0), TOOL)] + list(moved)
    return Block(point, at, words, True)


def base_len(word):
    return 3 + moved_len(word)


def mini_block(point, at, body, next_):
    b = Block(point, at, list(body) + [None], False)
    set_next(b, next_)
    return b


def set_next(b, next_):
    assert not b.base
    k = len(b.words) - 1
    b.words[k] = (jal(0, next_ - (b.at + 4 * k)), TOOL)


def predicted(sites):
    """The predicted cost of sites, which are pairs of an address and statements."""
    return sum(words_of(st) + 1 for _, st in sites)
