"""The patched machine: the program's harts on the program's words and the tool's.

A turn executes one word. A word is marked: OWN is the program's and a tick, ENTER leads from the program to a
trampoline, TOOL is the tool's, LEAVE leads back. Patches are made by events, of which each asserts what it needs. """
from .execution import FETCH_OUTSIDE, KEPT, code_of
from .memory import NO_RESERVATIONS, Memory, Output, Reservations
from .plain_machine import start_registers
from .relocation import home_of, imm_j, move_word
from .statement_code import ENTER, LEAVE, MASK64, OWN, TOOL, jal
from .trampolines import base_block
from .warm_start import opening

TOOL_LEN = 393216
# the operations that jump, by which a word of the program that was moved leads back out of a trampoline
JUMPS = (0x6F, 0x67)
LONGEST_RUN = 64
BANK_SLOTS = 4096


def tool_start(image):
    return (image.text_end + 4095) // 4096 * 4096


class Placed:
    """Where an instrument's variables and mini blocks are."""

    def __init__(self, vars_, slots, sites, opens=()):
        self.vars, self.slots, self.sites, self.opens = vars_, slots, sites, list(opens)


class _Record:
    """A block that isn't freed."""
    __slots__ = ("block", "state", "order", "base", "names")

    def __init__(self, block):
        self.block, self.state, self.order, self.base = block, "written", None, None


class _Bank:
    """The memory that a word of the tool sees: the hart's slots, of which the first reads as its ticks."""
    def __init__(self, machine, hart):
        self.m, self.h = machine, hart

    def load(self, at, n):
        d = self.m.bank[self.h]
        assert n == 8 and at % 8 == 0 and at < 8 * len(d), "a tool load outside the bank"
        return self.m.tick[self.h] if at == 0 else d[at // 8]

    def store(self, at, n, v):
        d = self.m.bank[self.h]
        assert n == 8 and at % 8 == 0 and 8 <= at < 8 * len(d), "a tool store outside the bank"
        d[at // 8] = v & MASK64
        return None

    def probe(self, at, n):
        raise AssertionError("no probe by a tool word")


def jal_target(word, at):
    assert word & 0xFFF == 0x6F, hex(word)
    return at + imm_j(word)


class Machine:
    """The harts, the words that they fetch, and the blocks."""

    def __init__(self, image, harts, budget, bank=BANK_SLOTS):
        self.image, self.harts, self.budget = image, harts, budget
        self.mem = Memory(image, harts)
        self.reservations = Reservations(harts)
        self.out = Output()
        self.pc = [image.entry] * harts
        self.regs = [start_registers(h, harts) for h in range(harts)]
        self.tick = [0] * harts
        self.stopped = [None] * harts
        self.inside = [False] * harts
        self.bank_len = bank
        self.bank = [[0] * bank for _ in range(harts)]
        self.banks = [_Bank(self, h) for h in range(harts)]
        self.text_at, self.text_end = image.text_at, image.text_end
        text = image.text()
        self.program = [int.from_bytes(text[o:o + 4], "little") for o in range(0, len(text), 4)]
        self.text = [(w, OWN) for w in self.program]
        self.tool_at = tool_start(image)
        self.tool_end = self.tool_at + TOOL_LEN
        self.tool = {}
        self.runs = {}             # address of a tool word -> the functions of the words that follow
        self.at_point = {}         # point -> its blocks that aren't freed
        self.owner = {}            # address of a tool word -> its record
        self.links = 0
        self.watch = None          # called with (name, args) after each event but Turn
        self.on_tick = None        # called with h after each tick

    def time(self):
        return sum(self.tick)

    def runnable(self, h):
        return self.stopped[h] is None and (self.inside[h] or self.tick[h] < self.budget)

    def home(self, pc):
        """The address of the program's word that is due where a hart stands in a block."""
        r = self.owner[pc]
        word, mark = self.tool[pc]
        return home_of(word, mark, pc, r.block.point)

    def at(self, h):
        return self.home(self.pc[h]) & MASK64 if self.inside[h] else self.pc[h]

    def fetch(self, pc, inside):
        if inside:
            if not self.tool_at <= pc < self.tool_end:
                return None
            return self.tool.get(pc, (0, TOOL))
        if not self.text_at <= pc < self.text_end:
            return None
        return self.text[(pc - self.text_at) >> 2]

    def turn(self, h):
        """A turn of hart h; gives whether it was a tick."""
        assert self.runnable(h)
        return self.turns(h, 1)[0] == 1

    def turns(self, h, most):
        """Turns of hart h, at most so many, while it is runnable; gives how many were ticks, and how many were not."""
        own = other = 0
        pcs, ticks, regs, bank, budget, on_tick = self.pc, self.tick, self.regs[h], self.banks[h], self.budget, self.on_tick
        text, text_at, text_end, tool, runs = self.text, self.text_at, self.text_end, self.tool, self.runs
        mem, reservations, out, pc, is_inside = self.mem, self.reservations, self.out, self.pc[h], self.inside[h]
        while own + other < most and self.stopped[h] is None:
            if is_inside:
                run = runs.get(pc)
                if run is None:
                    run = self._run_from(pc)
                for f in run[:most - own - other]:
                    pcs[h] = pc = f(pc, h, regs, bank, NO_RESERVATIONS, None)
                    other += 1
                if run:
                    continue
                word, mark = tool[pc]
            elif ticks[h] >= budget:
                break
            elif text_at <= pc < text_end:
                word, mark = text[(pc - text_at) >> 2]
            else:
                self.stopped[h] = FETCH_OUTSIDE
                own += self._ticked(h)
                break
            f = KEPT.get(word) or code_of(word)
            if mark is OWN:
                r = f(pc, h, regs, mem, reservations, out)
                if r.__class__ is tuple:
                    self._stop(h, r)
                else:
                    pcs[h] = pc = r & MASK64
                    if is_inside and (word & 0x7F) in JUMPS:
                        is_inside = self.inside[h] = False
                own += 1
                ticks[h] += 1
                if on_tick:
                    on_tick(h)
            else:
                pcs[h] = pc = f(pc, h, regs, None, None, None) & MASK64
                is_inside = self.inside[h] = mark is ENTER
                other += 1
        return own, other

    def _run_from(self, pc):
        """The functions of the tool's words from an address on, up to one that doesn't lead to one word alone."""
        run, at = [], pc
        while len(run) < LONGEST_RUN:
            word, mark = self.tool.get(at, (0, TOOL))
            if mark is not TOOL:
                break
            run.append(code_of(word))
            if (word & 0x7F) in (0x63, 0x67):
                break
            at = jal_target(word, at) if (word & 0x7F) == 0x6F else at + 4
        self.runs[pc] = run
        return run

    def _stop(self, h, cause):
        """Hart h stops at a word of its own."""
        self.stopped[h] = cause
        if self.inside[h]:
            self.pc[h] = self.home(self.pc[h])
        self.inside[h] = False

    def _ticked(self, h):
        self.tick[h] += 1
        if self.on_tick:
            self.on_tick(h)
        return True

    def _set_tool(self, at, word):
        self.tool[at] = word
        self.runs.clear()

    def _base(self, point):
        found = [r for r in self.at_point.get(point, ()) if r.block.base and r.state != "retired"]
        assert len(found) <= 1
        return found[0] if found else None

    def _mini(self, point, at):
        for r in self.at_point.get(point, ()):
            if not r.block.base and r.block.at == at:
                return r
        raise AssertionError("no such mini block")

    def _next_at(self, r):
        """Where the word stands that leads on: a base block's second word, a mini block's last."""
        return r.block.at + 4 if r.block.base else r.block.at + 4 * (len(r.block.words) - 1)

    def next_of(self, r):
        at = self._next_at(r)
        return jal_target(self.tool[at][0], at)

    def _lead(self, r, to):
        at = self._next_at(r)
        self._set_tool(at, (jal(0, to - at), TOOL))

    def write(self, b):
        end = b.at + 4 * len(b.words)
        assert self.tool_at <= b.at and end <= self.tool_end and b.at % 4 == 0
        assert all(a not in self.owner for a in range(b.at, end, 4)), "overlap"
        p = b.point
        assert self.text_at <= p < self.text_end and p % 4 == 0
        if b.base:
            assert self._base(p) is None, "two bases"
            word = self.program[(p - self.text_at) >> 2]
            want = base_block(p, b.at, move_word(word, p, b.at + 12))
            assert want.words == b.words, "shape"
        else:
            assert all(m == TOOL for _, m in b.words)
            assert jal_target(b.words[-1][0], end - 4) % 4 == 0
        r = _Record(b.copy())
        self.at_point.setdefault(p, []).append(r)
        for k, w in enumerate(b.words):
            self._set_tool(b.at + 4 * k, w)
            self.owner[b.at + 4 * k] = r
        self._event("write", b)

    def head(self, point):
        return self.next_of(self._base(point))

    def link_mini(self, point, at):
        base, m = self._base(point), self._mini(point, at)
        assert base is not None and m.state == "written" and self.next_of(m) == self.next_of(base), "link_mini"
        self._lead(base, at)
        m.state, m.base = "live", base
        m.order = self.links
        self.links += 1
        self._event("link_mini", point, at)

    def unlink_mini(self, point, at):
        m = self._mini(point, at)
        assert m.state == "live", "unlink_mini"
        prev = [r for r in self.at_point[point] if r.state != "retired"
                and (r.state == "live" or r.block.base) and self.next_of(r) == at]
        assert len(prev) == 1
        self._lead(prev[0], self.next_of(m))
        m.state = "retired"
        self._event("unlink_mini", point, at)

    def point_linked(self, point):
        return self.text[(point - self.text_at) >> 2][1] == ENTER

    def link_point(self, point):
        base, k = self._base(point), (point - self.text_at) >> 2
        assert base is not None and self.text[k] == (self.program[k], OWN), "link_point"
        self.text[k] = (jal(0, base.block.at - point), ENTER)
        base.state = "live"
        self._event("link_point", point)

    def unlink_point(self, point):
        base, k = self._base(point), (point - self.text_at) >> 2
        assert base is not None and self.text[k][1] == ENTER, "unlink_point"
        self.text[k] = (self.program[k], OWN)
        base.state = "retired"
        for r in self.at_point[point]:
            if r.base is base and r.state == "live":
                r.state = "retired"
        self._event("unlink_point", point)

    def inside_point(self, point):
        return any(self.inside[h] and self.owner[self.pc[h]].block.point == point for h in range(self.harts))

    def free(self, point):
        if self.inside_point(point):
            return False
        for r in [r for r in self.at_point.get(point, ()) if r.state == "retired"]:
            self.at_point[point].remove(r)
            for k in range(len(r.block.words)):
                del self.owner[r.block.at + 4 * k]
        self._event("free", point)
        return True

    def quiet(self):
        return not any(self.inside)

    def settle(self):
        extra = 0
        for h in range(self.harts):
            while self.inside[h]:
                if not self.turn(h):
                    extra += 1
        return extra

    def arm(self, i):
        if not self.quiet():
            return False
        for at, mini in i.sites:
            if not self.point_linked(at):
                return False
            if not any(r.block.at == mini and r.state == "live" and not r.block.base
                       for r in self.at_point.get(at, ())):
                return False
        for h in range(self.harts):
            values = opening(self, i, h)
            for v, s, n in zip(i.vars, i.slots, values):
                if v.timer:
                    self.bank[h][s + 1] = n
                    self.bank[h][s] = -self.tick[h] & MASK64 if n else 0
                else:
                    self.bank[h][s] = n
        self._event("arm", i)
        return True

    def reading(self, i, h):
        """What the instrument's own variable shows of hart h."""
        s = i.slots[0]
        v = self.bank[h][s]
        if i.vars[0].timer and self.bank[h][s + 1]:
            v += self.tick[h]
        return v & MASK64

    def sample(self, i):
        """One reading for each hart; None where a hart stands in a trampoline."""
        if not self.quiet():
            return None
        self._event("sample", i)
        return [self.reading(i, h) for h in range(self.harts)]

    def _event(self, *what):
        if self.watch:
            self.watch(what)
