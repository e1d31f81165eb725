"""A second reading of a session: it takes the quanta of a log again and makes the report.

It shares the patched machine, the code of statements and the second reading of measures with the rest, and nothing
with `session`, `instruments`, `search`, `histogram` and `report`. A sample is what a plan measures on the plain run,
and no slot is looked at. What is taken of a space is a plain list of ranges. """
from paradyn.patched_machine import BANK_SLOTS, Machine, Placed
from paradyn.plain_machine import PlainMachine
from paradyn.plans import Var
from paradyn.relocation import Unmovable, move_word, shape
from paradyn.statement_code import compile_stmts
from paradyn.trampolines import base_block, mini_block, set_next
from . import definitions
from .definitions import Nodes, Plan

CAUSES = {"no constraint": "no constraint for %s", "too many sites": "too many sites %d",
          "too many statements": "too many statements at 0x%x", "over cost": "over cost %d",
          "too many": "too many instruments", "no slot": "no slot for %d", "no room": "no room for %d words",
          "unmovable": "unmovable at 0x%x", "already shown": "already shown", "not shown": "not shown"}
WORDS = {"up": 4, "down": 5, "put": 4, "start": 12, "stop": 12}
MOVED = {"auipc": 3, "jal": 3, "jal0": 1, "jalr": 4, "jalr0": 1, "branch": 3, "other": 2}


def cause_text(cause):
    text = CAUSES[cause[0]]
    return (text % cause[1] if "%" in text else text).encode()


class Refused(Exception):
    def __init__(self, *cause):
        super().__init__(cause)
        self.cause = cause


def lowest(taken, n, low, high):
    """The lowest place of n units that overlap no taken range, or None."""
    at = low
    for a, k in sorted(taken):
        if a - at >= n:
            break
        at = max(at, a + k)
    return at if at + n <= high else None


def cost(plan):
    return sum(1 + sum(WORDS[a[0]] + sum(3 if c[0][0] == "arg" else 5 for c in conditions) for conditions, a in stmts)
               for stmts in plan.sites.values())


class Instrument:
    """state: placing, armed, leaving or gone."""

    def __init__(self, plan, metric, focus, harts):
        self.plan, self.metric, self.focus, self.cost = plan, metric, focus, cost(plan)
        self.harts = [h for h in range(harts) if focus.hart in (None, h)]
        self.state, self.node, self.is_shown, self.samples, self.begins = "placing", None, False, [], None
        self.running = self.ticks = self.ticks_before = 0

    def level(self):
        return self.running if self.plan.timers[0] else sum(self.values[h][0] for h in self.harts)

    def arm(self, t, plain):
        self.state, self.begins, self.at = "armed", t, t
        self.values = [definitions.opening(self.plan, plain, h) for h in range(plain.harts)]
        self.before = self.level()

    def tick(self, plain, h):
        stmts = self.plan.sites.get(plain.pc[h])
        if stmts:
            definitions.act(stmts, self.values[h], plain.regs[h][10:18])
        if h in self.harts:
            self.ticks += 1
            self.running += self.plan.timers[0] and self.values[h][0] > 0

    def sample(self, t):
        """The node's sample."""
        now = self.level()
        value, ticks = (now - self.before) % 2 ** 64, self.ticks - self.ticks_before
        from_ = self.at
        self.samples.append((from_, t, value))
        self.before, self.at, self.ticks_before = now, t, self.ticks
        return self.node, from_, value, ticks


class Book:
    """What is taken of the tool text and the slots, and the patches that are due."""

    def __init__(self, machine, image, most):
        self.machine, self.image, self.most = machine, image, most
        self.rooms, self.slots, self.base_at, self.agenda, self.all = [], [], {}, [], []

    def alive(self):
        return [i for i in self.all if i.state != "gone"]

    def admit(self, i, limit=None):
        """Takes room for an instrument, or Refused."""
        if limit is not None and i.cost > limit:
            raise Refused("over cost", i.cost)
        if len(self.alive()) >= self.most:
            raise Refused("too many")
        n = sum(2 if t else 1 for t in i.plan.timers)
        first = lowest(self.slots, n, 2, BANK_SLOTS)
        if first is None:
            raise Refused("no slot", n)
        i.slot_range, i.slot, k = (first, n), [], first
        for t in i.plan.timers:
            i.slot.append(k)
            k += 2 if t else 1
        self.place(i)
        self.slots.append(i.slot_range)
        self.all.append(i)

    def room(self, rooms, words):
        at = lowest(rooms, 4 * words, self.machine.tool_at, self.machine.tool_end)
        if at is None:
            raise Refused("no room", words)
        rooms.append((at, 4 * words))
        return at

    def place(self, i):
        rooms, bases, i.minis, events = list(self.rooms), {}, {}, []
        for point in sorted(i.plan.sites):
            fresh = point not in self.base_at
            if fresh:
                word = self.image.word(point)
                bases[point] = self.room(rooms, 3 + MOVED[shape(word)])
                try:
                    moved = move_word(word, point, bases[point] + 12)
                except Unmovable:
                    raise Refused("unmovable", point) from None
                events.append(("write", base_block(point, bases[point], moved)))
            body = compile_stmts(i.plan.sites[point], i.slot)
            at = self.room(rooms, len(body) + 1)
            i.minis[point] = (at, 4 * (len(body) + 1))
            events += [("write", mini_block(point, at, body, at)), ("link mini", point, at)]
            events += [("link point", point)] if fresh else []
        i.held, i.coming, self.rooms = dict(i.minis), len(events), rooms
        self.base_at.update(bases)
        self.agenda += [e + (i,) for e in events]

    def drop(self, i):
        i.state = "leaving"
        for point in sorted(i.plan.sites):
            self.agenda.append(("unlink mini", point, i.minis[point][0], i))
            if not any(j.state in ("placing", "armed") and point in j.plan.sites for j in self.all):
                del self.base_at[point]
                self.agenda.append(("unlink point", point, i))
            self.agenda.append(("free", point, i))
        if not i.plan.sites:
            self.gone(i)

    def gone(self, i):
        i.state = "gone"
        self.slots.remove(i.slot_range)

    def do(self, e):
        m, kind = self.machine, e[0]
        if kind == "free":
            if not self.free(e[1]):
                self.agenda.append(e)
        elif kind == "write":
            if not e[1].base:
                set_next(e[1], m.head(e[1].point))
            m.write(e[1])
        else:
            getattr(m, kind.replace(" ", "_"))(*e[1:-1])
        if kind in ("write", "link mini", "link point"):
            e[-1].coming -= 1

    def free(self, point):
        """Whether the retired blocks of the point could be freed. The book follows the machine."""
        retired = [r.block for r in self.machine.at_point.get(point, ()) if r.state == "retired"]
        if not self.machine.free(point):
            return False
        for block in retired:
            room = (block.at, 4 * len(block.words))
            self.rooms.remove(room)
            for i in self.alive():
                if i.held.get(point) == room:
                    del i.held[point]
                    if not i.held:
                        self.gone(i)
        return True

    def free_all(self):
        """Frees what can be freed where no hart is inside: not before what unlinks there."""
        at, blocked = 0, set()
        while at < len(self.agenda):
            e = self.agenda[at]
            if e[0] in ("unlink mini", "unlink point"):
                blocked.add(e[1])
            if e[0] == "free" and e[1] not in blocked:
                del self.agenda[at]
                assert self.free(e[1])
            else:
                at += 1


class SecondSession:
    def __init__(self, inputs):
        self.image, self.checked, self.tree, self.procs, _, self.settings = inputs
        s = self.settings
        self.machine = Machine(self.image, s.harts, s.budget)
        self.plain = PlainMachine(self.image, s.harts, s.budget)
        self.machine.on_tick = self.tick
        self.book = Book(self.machine, self.image, s.instruments)
        self.refused, self.shows, self.count, self.sampled_at = [], [], 0, 0
        self.extra, self.observed, self.due, self.worked = 0, 0, s.width, False
        numbered = sorted(enumerate(self.checked.wishes), key=lambda p: (p[1].at, p[0]))
        self.wishes = [w for _, w in numbered]
        self.nodes = None
        while self.wishes and self.wishes[0].at == 0:
            self.show(self.wishes.pop(0))
        if self.checked.search is not None:
            self.nodes = Nodes(self.checked, self.tree)
            self.admit_nodes()
        while self.book.agenda:
            self.book.do(self.book.agenda.pop(0))
        self.arm()

    def tick(self, h):
        for i in self.book.all:
            if i.state == "armed":
                i.tick(self.plain, h)
        self.plain.step(h)

    def time(self):
        return sum(self.plain.tick)

    def planned(self, metric, focus):
        """An instrument that isn't admitted, or Refused."""
        p = Plan(self.checked, metric, focus, self.tree, self.procs, self.image)
        if p.refusal is not None:
            raise Refused(*p.refusal)
        if not self.settings.warm:
            p.opens = []
        return Instrument(p, metric, focus, self.settings.harts)

    def show(self, w):
        i = self.planned(w.metric, w.focus)
        self.book.admit(i)
        i.is_shown = True
        self.shows.append(i)

    def wish(self, w):
        there = [i for i in self.shows if i.is_shown and (i.metric, i.focus) == (w.metric, w.focus)]
        try:
            if w.show and there:
                raise Refused("already shown")
            if w.show:
                self.show(w)
            elif not there:
                raise Refused("not shown")
            else:
                there[0].is_shown = False
                self.book.drop(there[0])
        except Refused as f:
            self.refused.append((w, self.time(), f.cause))

    def admit_nodes(self):
        if self.observed > self.checked.search.observed:
            return
        for n in self.nodes.waiting()[:64]:
            if len(self.book.alive()) >= self.book.most:
                return
            self.admit_node(n)

    def admit_node(self, n):
        x, limit = self.nodes.list[n], self.checked.search.cost
        names = [m.name for m in self.checked.metrics]
        try:
            i = self.planned(names.index(self.checked.hypotheses[x.hyp].metric), x.focus)
            together = sum(j.cost for j in self.book.alive() if j.node is not None)
            if i.cost <= limit < i.cost + together:
                return
            self.book.admit(i, limit)
        except Refused as f:
            x.state, x.cause = "Barred", f.cause
            return
        i.node, x.state = n, "Active"

    def quantum(self, hart, turns):
        """How many of the turns were ticks."""
        if self.worked:
            self.worked = False
            while self.wishes and self.wishes[0].at <= self.time():
                self.wish(self.wishes.pop(0))
            if self.nodes is not None:
                self.admit_nodes()
        before, took = self.time(), 0
        while took < turns and self.machine.runnable(hart):
            self.machine.turn(hart)
            took += 1
        owns = self.time() - before
        self.extra += took - owns
        for _ in range(8):
            if self.book.agenda:
                self.book.do(self.book.agenda.pop(0))
        if self.time() >= self.due:
            self.due_work()
        return owns

    def due_work(self):
        samples = self.settle_and_sample()
        self.book.free_all()
        self.arm()
        self.step(samples)
        self.due = (self.time() // self.settings.width + 1) * self.settings.width
        self.worked = True

    def settle_and_sample(self):
        """The samples of the search's nodes."""
        for h in range(self.settings.harts):
            while self.machine.inside[h]:
                self.extra += not self.machine.turn(h)
        t = self.time()
        self.count += 1
        samples = [i.sample(t) for i in self.book.all if i.state == "armed"]
        self.observed = self.extra * 1000 // (t - self.sampled_at)
        self.extra, self.sampled_at = 0, t
        return sorted(s for s in samples if s[0] is not None)

    def arm(self):
        for i in self.book.all:
            if i.state == "placing" and i.coming == 0:
                variables = [Var(b"", t, n) for t, n in zip(i.plan.timers, i.plan.initially)]
                sites = [(p, i.minis[p][0]) for p in sorted(i.plan.sites)]
                assert self.machine.arm(Placed(variables, i.slot, sites, i.plan.opens))
                i.arm(self.time(), self.plain)

    def step(self, samples):
        if self.nodes is None:
            return
        active = [n for n, x in enumerate(self.nodes.list) if x.state == "Active"]
        self.nodes.step(self.time(), samples)
        ended = [n for n in active if self.nodes.list[n].state != "Active"]
        for states in (("Confirmed", "Rejected"), ("Unfinished",)):
            for n in ended:
                if self.nodes.list[n].state in states:
                    self.book.drop(next(i for i in self.book.all if i.node == n))

    def close(self):
        for h in range(self.settings.harts):
            while self.machine.inside[h]:
                self.extra += not self.machine.turn(h)
        if self.time() > self.sampled_at:
            self.step(self.settle_and_sample())
        if self.nodes is not None:
            self.nodes.end()

    # The report.

    def hart_line(self, h):
        stop, ticks = self.plain.stopped[h], self.plain.tick[h]
        if stop is None:
            end = "budget" if ticks == self.settings.budget else "cut"
        else:
            end = " ".join([stop[0]] + [("%d" if stop[0] == "exit" else "0x%x") % x for x in stop[1:]])
        return b"hart %d ticks %d %s at 0x%x" % (h, ticks, end.encode(), self.plain.pc[h])

    def pair(self, x):
        return self.checked.metrics[x.metric].name + b" " + self.tree.focus_text(x.focus)

    def histogram_lines(self, i):
        bins, width = definitions.bins_of(i.samples, self.settings.bins)
        begins = b"none" if i.begins is None else b"%d" % i.begins
        units = self.checked.metrics[i.metric].units
        head = b"histogram %s units %s from %s bins %d width %d" % (self.pair(i), units, begins, len(bins), width)
        return [head] + [b"bin %d from %d to %d value %d" % (k, *b) for k, b in enumerate(bins)]

    def node_line(self, n, x):
        phase = ([b"global"] + [p.name for p in self.checked.phases])[x.phase]
        parent = b"none" if x.parent is None else b"%d" % x.parent
        head = b"node %d phase %s parent %s %s %s " % (
            n, phase, parent, self.checked.hypotheses[x.hyp].name, self.tree.focus_text(x.focus))
        if x.state == "Barred":
            return head + b"barred " + cause_text(x.cause)
        if x.state == "Unfinished":
            return head + b"waiting seen %d of %d" % (x.seen, self.checked.search.window)
        verdict = b"true" if x.state == "Confirmed" else b"false"
        return head + verdict + b" value %d ticks %d from %d to %d" % (x.value, x.ticks, x.from_, x.to)

    def report(self, skipped):
        harts, output = self.settings.harts, bytes(self.plain.out.data)
        lines = [b"paradyn report 1",
                 b"harts %d ticks %d samples %d skipped %d" % (harts, self.time(), self.count, skipped)]
        lines += [self.hart_line(h) for h in range(harts)] + [b"output %d" % len(output), output]
        for w, t, cause in self.refused:
            word = b"show" if w.show else b"drop"
            lines.append(b"refused %s %s at %d: %s" % (word, self.pair(w), t, cause_text(cause)))
        for i in self.shows:
            lines += self.histogram_lines(i)
        if self.nodes is not None:
            full = b" full" if len(self.nodes.list) >= 4096 else b""
            lines.append(b"search nodes %d%s" % (len(self.nodes.list), full))
            lines += [self.node_line(n, x) for n, x in enumerate(self.nodes.list)]
        return b"\n".join(lines) + b"\n"
