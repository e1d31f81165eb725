"""A patched machine beside the plain one: what has to be the same behind each tick, and what patches have to keep."""
from paradyn.patched_machine import jal_target
from paradyn.plain_machine import PlainMachine
from paradyn.relocation import shape
from paradyn.statement_code import ENTER, OWN, TOOL
from .definitions import need


def saved_and_rebuilt(m, h):
    """Whether x5 stands saved where hart h is in a block, and the register that is being rebuilt there, or None."""
    block = m.owner[m.pc[h]].block
    k = (m.pc[h] - block.at) // 4
    if not block.base or k in (1, 2):
        return True, None
    word = m.program[(block.point - m.text_at) >> 2]
    form = shape(word)
    begins = {"auipc": (0, 1), "jal": (0, 2), "jalr": (1, 3)}.get(form)
    if begins and begins[0] <= k - 3 <= begins[1]:
        return False, (word >> 7) & 31
    return False, None


def hart_difference(m, plain, h):
    """What differs of hart h, or None."""
    mine, other = (m.tick[h], m.stopped[h], m.at(h)), (plain.tick[h], plain.stopped[h], plain.pc[h])
    if mine != other:
        return "hart %d: %r not %r" % (h, mine, other)
    if m.stopped[h] is not None:
        return "hart %d stopped inside" % h if m.inside[h] else None
    saved, rebuilt = saved_and_rebuilt(m, h) if m.inside[h] else (False, None)
    for r in range(1, 31):
        value = m.bank[h][1] if r == 5 and saved else m.regs[h][r]
        if r != rebuilt and value != plain.regs[h][r]:
            return "hart %d: x%d is %#x not %#x at %#x" % (h, r, value, plain.regs[h][r], plain.pc[h])
    return None


def difference(m, plain):
    """What differs of the program, or None."""
    for h in range(m.harts):
        found = hart_difference(m, plain, h)
        if found:
            return found
    if m.mem.dump() != plain.mem.dump():
        return "memory"
    if m.out.data != plain.out.data:
        return "output"
    return "reservations" if m.reservations.at != plain.reservations.at else None


class Blocks:
    """The blocks of a machine, and what has to hold of them."""

    def __init__(self, m):
        self.m = m
        self.all = [r for records in m.at_point.values() for r in records]
        self.bases = [r for r in self.all if r.block.base]
        self.minis = [r for r in self.all if not r.block.base]
        self.by_at = {r.block.at: r for r in self.all}

    def words(self):
        """No word of a block changes but the one that leads on."""
        m = self.m
        for r in self.all:
            leads = m._next_at(r)
            for k, word in enumerate(r.block.words):
                at = r.block.at + 4 * k
                need(at == leads or m.tool[at] == word, "a word of a block changed", hex(at))
                need(m.owner.get(at) is r, "an owner", hex(at))
            need(m.tool[leads][1] == TOOL, "the mark of a word that leads on")

    def text(self):
        """Each word of the text is the program's, or leads to the live base block of its point."""
        m, live = self.m, {b.block.point: b for b in self.bases if b.state == "live"}
        for k, (word, mark) in enumerate(m.text):
            p = m.text_at + 4 * k
            if mark == ENTER:
                need(p in live and jal_target(word, p) == live[p].block.at, "a jump to a trampoline", hex(p))
            else:
                need((word, mark) == (m.program[k], OWN), "a word of the text", hex(p))

    def chain(self, r):
        """The blocks from the next of r to its base block's second part; each is older than the one before."""
        base = r if r.block.base else r.base
        out, at, last = [], self.m.next_of(r), r.order
        while at != base.block.at + 8:
            n = self.by_at.get(at)
            need(n is not None and n.base is base and n.state in ("live", "retired"), "a next", hex(at))
            need(last is None or n.order < last, "a next that isn't older", hex(at))
            out.append(n)
            last, at = n.order, self.m.next_of(n)
        return out

    def chains(self):
        for r in self.minis:
            if r.state not in ("live", "retired"):
                continue
            chain = self.chain(r)
            need(r.state != "live" or all(x.state == "live" for x in chain[:1]), "a live block leads to a retired one")
            for x in self.minis:
                if x.base is r.base and x.state == "live" and x.order < r.order:
                    need(sum(y is x for y in chain) == 1, "an older live block isn't in the chain")
        for b in self.bases:
            chain = self.chain(b)
            live = sorted((x for x in self.minis if x.base is b and x.state == "live"), key=lambda x: -x.order)
            if b.state != "retired":
                need(chain == live, "the chain of a base block")
            else:
                need(not chain or chain[0].state == "retired", "a retired base block leads to a live block")

    def harts(self):
        """A hart inside stands in a block that is live or retired, and has ticks left where its own word is still to
        come."""
        m = self.m
        for h in range(m.harts):
            if m.inside[h]:
                r = m.owner.get(m.pc[h])
                need(m.stopped[h] is None and r is not None and r.state in ("live", "retired"), "a hart inside", h)
                own = [k for k, word in enumerate(r.block.words) if word[1] == OWN]
                before = not r.block.base or (m.pc[h] - r.block.at) // 4 <= max(own)
                need(not before or m.tick[h] < m.budget, "a hart inside at its budget", h)

    def check(self):
        self.words()
        self.text()
        self.chains()
        self.harts()


class Watch:
    """Steps a plain machine beside a session's, and looks at each patch; at each turn too where it is close."""

    def __init__(self, session, close=False):
        self.m = session.machine
        self.plain = PlainMachine(self.m.image, self.m.harts, self.m.budget)
        self.inner = self.m.on_tick
        self.m.on_tick, self.m.watch = self.tick, self.event
        if close:
            self.turns, self.m.turns = self.m.turns, self.watched_turns

    def tick(self, h):
        need(self.plain.runnable(h), "a tick of a hart that is done", h)
        self.plain.step(h)
        self.inner(h)

    def watched_turns(self, h, most):
        own = other = 0
        while own + other < most and self.m.runnable(h):
            ticks, others = self.turns(h, 1)
            own, other = own + ticks, other + others
            found = hart_difference(self.m, self.plain, h)
            need(found is None, "behind a turn", found)
        return own, other

    def event(self, what):
        found = difference(self.m, self.plain)
        need(found is None, "behind a patch", what[0], found)
        Blocks(self.m).check()
