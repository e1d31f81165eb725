"""Moved words and the code of statements, on random words and statements."""
import random
import unittest

from cases.programs import random_word
from paradyn import instructions
from paradyn.image import Image, Segment
from paradyn.patched_machine import Machine, Placed
from paradyn.plain_machine import PlainMachine
from paradyn.plans import Var
from paradyn.relocation import Unmovable, move_word, moved_len
from paradyn.statement_code import TOOL, compile_stmts, words_of
from paradyn.trampolines import base_block
from . import definitions
from .side_by_side import difference, hart_difference

COUNT = 1500
NUMBERS = [0, 1, 2, 5, 2047, 2048, 2049, 4095, 4096, 0x7FFFF7FF, 0x7FFFF800, 0x7FFFFFFF]


def image_around(draw, word):
    """An image with the word somewhere in its text, the word's address, and that of data behind the text."""
    count, at = draw.choice([1, 2, 3, 50, 1000]), draw.choice([0x10000, 0x10000, 0x40000000, 0x5FFF0000])
    k = draw.randrange(count)
    words = [0x13] * count
    words[k] = word
    text = b"".join(w.to_bytes(4, "little") for w in words)
    data_at = at + 4 * count + draw.choice([0, 64])
    if data_at == at + 4 * count:
        segments = [Segment(at, text + bytes(range(64)), 4 * count + 64)]
    else:
        segments = [Segment(at, text, 4 * count), Segment(data_at, bytes(range(64)), 64)]
    point = at + 4 * k
    return Image(segments, at, 4 * count, point, []), point, data_at


def same_start(draw, patched, plain, addresses):
    """Both machines begin with the same random registers and reservations."""
    for h in range(2):
        for r in range(1, 32):
            value = draw.choice(addresses + [draw.getrandbits(64), draw.getrandbits(32)])
            if r == 17 and draw.random() < 0.7:
                value = 64
            if r == 10 and draw.random() < 0.5:
                value = 1
            patched.regs[h][r] = plain.regs[h][r] = value
        place = draw.choice([None, addresses[0] & ~7, 0x60000000])
        if place is not None:
            patched.reservations.put(h, place)
            plain.reservations.put(h, place)


class MovedWords(unittest.TestCase):
    def test_moved_words_do_what_the_word_does(self):
        draw, moved = random.Random(1), 0
        for _ in range(COUNT):
            word = random_word(draw)
            if not instructions.names_x31(word):
                moved += self.moved(draw, word)
        self.assertGreater(moved, COUNT // 2)

    def moved(self, draw, word):
        """Whether the word can be moved; it does the same then."""
        image, point, data_at = image_around(draw, word)
        patched, plain = Machine(image, 2, 5), PlainMachine(image, 2, 5)
        addresses = [data_at, data_at + 8, data_at + 60, data_at + 62, image.text_at, point, point + 4, 0x60000000]
        same_start(draw, patched, plain, addresses + [0x60000001, 0x6FFFFFFC, 0, 1, 2, 93, 64, 2 ** 63, 2 ** 64 - 1])
        at = patched.tool_at + 4 * draw.choice([0, 7, 98304 - 12, draw.randrange(98304 - 12)])
        try:
            words = move_word(word, point, at + 12)
        except Unmovable:
            return False
        self.assertEqual(len(words), moved_len(word))
        patched.write(base_block(point, at, words))
        patched.link_point(point)
        for _ in range(20):
            if patched.turn(0):
                plain.step(0)
            found = hart_difference(patched, plain, 0) if patched.inside[0] else difference(patched, plain)
            self.assertIsNone(found, (hex(word), hex(point), hex(at)))
            if not patched.inside[0]:
                break
        self.assertEqual((patched.inside[0], patched.tick[0]), (False, 1))
        return True


def random_statements(draw, timers):
    counters = [k for k, timer in enumerate(timers) if not timer]
    out = []
    for _ in range(draw.randint(1, 6)):
        conditions = []
        while draw.random() < 0.5 and len(conditions) < 18:
            counts = counters and draw.random() < 0.5
            left = ("counter", draw.choice(counters)) if counts else ("arg", draw.randint(0, 7))
            conditions.append((left, draw.choice(["==", "!=", "<", "<=", ">", ">="]), draw.choice(NUMBERS)))
        v = draw.randrange(len(timers))
        acts = [("start", v), ("stop", v)] if timers[v] else [("up", v), ("down", v), ("put", v, draw.choice(NUMBERS))]
        out.append((conditions, draw.choice(acts)))
    return out


class StatementCode(unittest.TestCase):
    def test_code_does_what_statements_do(self):
        draw = random.Random(1)
        for _ in range(COUNT // 3):
            self.one(draw)

    def machine(self, draw):
        m = Machine(Image([Segment(0x10000, bytes([0x13, 0, 0, 0]), 4)], 0x10000, 4, 0x10000, []), 1, 2 ** 40)
        m.tick[0] = draw.choice([0, 1, 77, 100000000])
        m.regs[0][1:] = [draw.choice(NUMBERS + [2 ** 64 - 1, draw.getrandbits(64), 2 ** 63]) for _ in range(31)]
        m.bank[0] = [0] + [draw.getrandbits(64) for _ in range(m.bank_len - 1)]
        return m

    def one(self, draw):
        timers = [k == 0 and draw.random() < 0.5 for k in range(draw.randint(1, 4))]
        slot = draw.choice([2, 3, 250, 255, 256, 257, 511, 512, 1000, 4080])
        slots, values, m = [], [], self.machine(draw)
        for timer in timers:
            slots.append(slot)
            values.append(min(draw.choice(NUMBERS + [2 ** 64 - 1]), 2 ** 62 if timer else 2 ** 64))
            m.bank[0][slot + (1 if timer else 0)] = values[-1]
            slot += 2 if timer else 1
        stmts = random_statements(draw, timers)
        placed = Placed([Var(b"x", timer, 0) for timer in timers], slots, [])
        read, regs, bank = m.reading(placed, 0), list(m.regs[0]), list(m.bank[0])
        self.run_code(m, stmts, slots)
        definitions.act(stmts, values, regs[10:18])
        self.assertEqual([m.bank[0][s + (1 if t else 0)] for s, t in zip(slots, timers)], values, stmts)
        if timers[0]:
            self.assertEqual(m.reading(placed, 0), read)
        own = range(slots[0], slot)
        self.assertEqual([x for k, x in enumerate(m.bank[0]) if k not in own],
                         [x for k, x in enumerate(bank) if k not in own])
        self.assertEqual([m.regs[0][r] for r in range(1, 31) if r != 5], [regs[r] for r in range(1, 31) if r != 5])

    def run_code(self, m, stmts, slots):
        words = compile_stmts(stmts, slots)
        self.assertEqual(len(words), words_of(stmts))
        at = m.tool_at + 400
        for k, (word, mark) in enumerate(words):
            self.assertEqual(mark, TOOL)
            m.tool[at + 4 * k] = (word, mark)
        m.pc[0], m.inside[0] = at, True
        while m.pc[0] != at + 4 * len(words):
            last = m.pc[0]
            self.assertFalse(m.turn(0))
            self.assertTrue(last < m.pc[0] <= at + 4 * len(words))


if __name__ == "__main__":
    unittest.main()
