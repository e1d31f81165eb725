"""The machine of a program alone: a turn of a hart executes the word at its pc, and is one tick."""
from .execution import FETCH_OUTSIDE, code_of
from .memory import HEAP_AT, HEAP_LEN, STACK_AT, STACK_LEN, STACK_STEP, Memory, Output, Reservations


def start_registers(hart, harts):
    """What a hart begins with."""
    regs = [0] * 32
    regs[10] = hart
    regs[11] = harts
    regs[12] = HEAP_AT
    regs[13] = HEAP_LEN
    regs[2] = STACK_AT + hart * STACK_STEP + STACK_LEN
    return regs


class PlainMachine:
    """Of hart h: pc[h], regs[h], tick[h] and stopped[h], which is a cause or None. Of all: mem, reservations and
    out."""

    def __init__(self, image, harts, budget):
        self.image, self.harts, self.budget = image, harts, budget
        self.mem = Memory(image, harts)
        self.reservations = Reservations(harts)
        self.out = Output()
        self.pc = [image.entry] * harts
        self.regs = [start_registers(h, harts) for h in range(harts)]
        self.tick = [0] * harts
        self.stopped = [None] * harts
        self.text_at = image.text_at
        self.text_end = image.text_at + image.text_len
        text = image.text()
        self.words = [int.from_bytes(text[o:o + 4], "little")
                      for o in range(0, len(text), 4)]
        self.code = [None] * len(self.words)

    def runnable(self, h):
        return self.stopped[h] is None and self.tick[h] < self.budget

    def step(self, h):
        """A turn of hart h."""
        pc = self.pc[h]
        self.tick[h] += 1
        if not self.text_at <= pc < self.text_end:
            self.stopped[h] = FETCH_OUTSIDE
            return
        k = (pc - self.text_at) >> 2
        f = self.code[k]
        if f is None:
            f = self.code[k] = code_of(self.words[k])
        r = f(pc, h, self.regs[h], self.mem, self.reservations, self.out)
        if r.__class__ is tuple:
            self.stopped[h] = r
        else:
            self.pc[h] = r

    def turns(self, h, n):
        """Up to n steps of h while it is runnable; the number taken."""
        for k in range(n):
            if self.stopped[h] is not None or self.tick[h] >= self.budget:
                return k
            self.step(h)
        return n

    def ticks(self, h):
        return self.tick[h]

    def stop(self, h):
        return self.stopped[h]

    def at(self, h):
        return self.pc[h]

    def output(self):
        return bytes(self.out.data)

    def time(self):
        return sum(self.tick)

    def position(self, h):
        """What the next turn of h shows: hart, pc, a0 to a7."""
        return (h, self.pc[h], tuple(self.regs[h][10:18]))


def stop_text(cause):
    """How a report names a cause; None is the budget."""
    if cause is None:
        return "budget"
    if cause[0] == "exit":
        return "exit %d" % cause[1]
    if cause[0] in ("access", "text-access"):
        return "%s 0x%x" % cause
    return cause[0]
