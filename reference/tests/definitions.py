"""A second reading of what is measured, on the plain machine alone.

From the harts of a run's ticks, in their order, it computes anew: the plans, by selection from all insertions; the
values of variables behind each tick; what a plan measures over an interval; the bins; and the nodes of the search. It
never looks at a patch or a slot. """
from paradyn.instructions import M64
from paradyn.plain_machine import PlainMachine
from paradyn.relocation import imm_j
from paradyn.resources import Focus
from paradyn.search import MOST_NODES

MOST_FRAMES = 64


class Mismatch(Exception):
    """Two readings differ."""


def need(holds, *what):
    if not holds:
        raise Mismatch(*what)


# Plans

def is_call(word):
    op, rd = word & 127, word >> 7 & 31
    return rd in (1, 5) and (op == 0x6F or op == 0x67 and (word >> 12 & 7) == 0)


def event_kinds(image, proc, at):
    """The kinds of the point at an address of a procedure, from the words alone."""
    word, out = image.word(at), []
    if at == proc.start:
        out.append("entry")
    if at - 4 >= proc.start and is_call(image.word(at - 4)):
        out.append("after")
    op, rd, rs1 = word & 127, word >> 7 & 31, word >> 15 & 31
    if op == 0x67 and (word >> 12 & 7) == 0 and rd == 0 and word >> 20 == 0 and rs1 in (1, 5):
        out.append("return")
    if op == 0x6F and rd == 0 and not proc.start <= at + imm_j(word) < proc.start + proc.len:
        out.append("return")
    return out + (["call"] if is_call(word) else [])


class Plan:
    """The plan of a metric at a focus. Its refusal is a cause, else None."""

    def __init__(self, checked, metric, focus, tree, procs, image):
        self.metric, self.focus, self.tree, self.procs, self.image = checked.metrics[metric], focus, tree, procs, image
        below = {"Code": focus.code[0] != "all", "SyncObject": focus.object is not None}
        on, self.refusal = {}, None
        for axis in ("Code", "SyncObject"):
            named = [c for c in checked.constraints
                     if c.name in self.metric.constraints and c.path == b"/" + axis.encode()]
            if below[axis] and not named:
                self.refusal = ("no constraint", axis)
                return
            if below[axis]:
                on[axis] = named[0]
        self.choose(on)
        self.place()

    def choose(self, on):
        """The variables and the sources: where they rank, their variable and their blocks."""
        source = self.metric
        for axis in ("Code", "SyncObject"):
            if axis in on and on[axis].replace:
                source = on[axis]
        counters = [(rank, on[axis]) for rank, axis in ((1, "Code"), (2, "SyncObject"))
                    if axis in on and not on[axis].replace]
        self.names = [self.metric.name] + [c.name for _, c in counters]
        self.timers = [self.metric.timer] + [False] * len(counters)
        self.initially = [source.initially or 0] + [c.initially or 0 for _, c in counters]
        self.guards = [(("counter", 1 + k), "!=", 0) for k in range(len(counters))]
        sources = [(0, 0, source)] + [(rank, 1 + k, c) for k, (rank, c) in enumerate(counters)]
        self.every = [(rank, var, b.set, ins) for rank, var, s in sources for b in s.blocks for ins in b.insertions]

    def covers(self, which, n):
        if which == "all":
            return True
        if which != "focus":
            return self.procs[n].name in which
        code = self.focus.code
        if code[0] == "module":
            return self.procs[n].module == self.tree.modules[code[1]][0]
        return code[0] == "all" or code[1] == n

    def statements(self, var, ins):
        value, out = self.tree.object_at(self.focus), []
        for s in ins.stmts:
            conditions = list(self.guards) if ins.constrained else []
            for c in s.conds:
                left = ("arg", c.left[1]) if c.left[0] == "arg" else ("counter", var)
                conditions.append((left, c.cmp, value if c.right[0] == "value" else c.right[1]))
            out.append((conditions, (s.act[0], var) + tuple(s.act[2:])))
        return out

    def of_kind(self, n, kind):
        """The statements of one kind at a point of procedure n."""
        out = []
        for prepend, ranks in ((True, (1, 2, 0)), (False, (0, 1, 2))):
            for rank in ranks:
                for r, var, which, ins in self.every:
                    if r == rank and ins.prepend == prepend and ins.kind == kind and self.covers(which, n):
                        out += self.statements(var, ins)
        return out

    def place(self):
        self.sites, self.opens = {}, []
        for n, proc in enumerate(self.procs):
            for at in range(proc.start, proc.start + proc.len, 4):
                for kind in event_kinds(self.image, proc, at):
                    part = self.of_kind(n, kind)
                    if part:
                        self.sites[at] = self.sites.get(at, []) + part
                        if kind == "entry":
                            self.opens.append((proc.start, proc.len, part))
        if len(self.sites) > 4096:
            self.refusal = ("too many sites", len(self.sites))
        else:
            many = [at for at in sorted(self.sites) if len(self.sites[at]) > 32]
            self.refusal = ("too many statements", many[0]) if many else None


# Values

def compares(a, sign, b):
    return {"==": a == b, "!=": a != b, "<": a < b, "<=": a <= b, ">": a > b, ">=": a >= b}[sign]


def act(stmts, values, args, skip_args=False):
    """The statements act on the values, one after another."""
    for conditions, a in stmts:
        if skip_args and any(c[0][0] == "arg" for c in conditions):
            continue
        if not all(compares(args[c[0][1]] if c[0][0] == "arg" else values[c[0][1]], c[1], c[2]) for c in conditions):
            continue
        v = a[1]
        if a[0] == "up":
            values[v] = (values[v] + 1) % 2 ** 64
        elif a[0] == "start":
            values[v] += 1
        elif a[0] in ("down", "stop"):
            values[v] = max(values[v] - 1, 0)
        else:
            values[v] = a[2]


def frame_at(s, place):
    """The return address of the frame at a place and the next frame's place, or None."""
    places = [(place - 16 + k) & M64 for k in range(16)]
    if any(s.mem.kind(a) != "data" for a in places):
        return None
    content = [s.mem.byte(a) for a in places]
    following, back = (sum(b << 8 * i for i, b in enumerate(content[k:k + 8])) for k in (0, 8))
    return back, following


def walk(s, h):
    """The addresses of a hart's walk, each with what it is from."""
    if s.stopped[h] is not None:
        return []
    place, link = s.regs[h][8], s.regs[h][1]
    out, first = [(s.pc[h], "pc")], frame_at(s, place)
    if first is None or first[0] != link:
        out.append(((link - 4) & M64, "link"))
    for _ in range(MOST_FRAMES):
        frame = frame_at(s, place)
        if frame is None or not s.text_at <= (frame[0] - 4) & M64 < s.text_end:
            break
        out.append(((frame[0] - 4) & M64, "frame"))
        if frame[1] <= place:
            break
        place = frame[1]
    return out


def opening(p, s, h):
    """The values with which a plan begins at a hart."""
    values = list(p.initially)

    def range_of(a):
        found = [o for o in p.opens if o[0] <= a < o[0] + o[1]]
        return found[0] if found else None
    for a, source in reversed(walk(s, h)):
        o = range_of(a)
        if o is None or source == "pc" and a == o[0] or source == "link" and range_of(s.pc[h]) is o:
            continue
        act(o[2], values, None, skip_args=True)
    return values


# Measures

class Measured:
    """One instrument: its plan, its harts, the tick at which it begins, and the ticks at which its measure is
    wanted."""

    def __init__(self, plan, harts, begin, cuts):
        self.plan, self.harts, self.begin, self.cuts = plan, harts, begin, cuts
        self.level_at, self.ticks_at = {}, {}
        self.values, self.running, self.ticks = None, 0, 0

    def cut(self, k):
        timer = self.plan.timers[0]
        self.level_at[k] = self.running if timer else sum(self.values[h][0] for h in self.harts)
        self.ticks_at[k] = self.ticks

    def tick(self, s, h):
        """Hart h is about to take a turn."""
        stmts = self.plan.sites.get(s.pc[h])
        if stmts is not None:
            act(stmts, self.values[h], s.regs[h][10:18])
        if h in self.harts:
            self.ticks += 1
            if self.plan.timers[0] and self.values[h][0]:
                self.running += 1

    def between(self, a, b):
        return (self.level_at[b] - self.level_at[a]) % 2 ** 64, self.ticks_at[b] - self.ticks_at[a]


def measure_all(image, harts, budget, owns, jobs):
    """The plain machine behind the ticks of these harts; what each job measures is in it."""
    s = PlainMachine(image, harts, budget)
    for k in range(len(owns) + 1):
        for j in jobs:
            if j.begin == k:
                j.values = [opening(j.plan, s, h) for h in range(harts)]
            if k in j.cuts:
                j.cut(k)
        if k < len(owns):
            h = owns[k]
            need(s.runnable(h), "a tick of a hart that is done", k, h)
            for j in jobs:
                if j.values is not None and j.cuts[-1] > k:
                    j.tick(s, h)
            s.step(h)
    return s


def bins_of(samples, most):
    """The bins of samples (from, to, value), and how many each joins."""
    width = 1
    while len(samples) > most * width:
        width *= 2
    parts = [samples[i:i + width] for i in range(0, len(samples), width)]
    return [(p[0][0], p[-1][1], sum(x[2] for x in p) % 2 ** 64) for p in parts], width


# The search

def verdict(value, ticks, threshold):
    return ticks > 0 and value * 1000 >= threshold * ticks


class Node:
    def __init__(self, phase, parent, hyp, focus):
        self.phase, self.parent, self.hyp, self.focus = phase, parent, hyp, focus
        self.state, self.cause = "Waiting", None
        self.seen = self.from_ = self.to = self.value = self.ticks = 0

    def key(self):
        return (self.phase, self.parent, self.hyp, self.focus, self.state, self.cause, self.seen, self.from_, self.to,
                self.value, self.ticks)


def foci_below(focus, axis, tree):
    """The foci one step below along an axis, from the lists of the tree."""
    if axis == "Code":
        if focus.code[0] == "all":
            return [Focus(("module", k), focus.hart, focus.object) for k in range(len(tree.modules))]
        inside = tree.modules[focus.code[1]][1] if focus.code[0] == "module" else []
        return [Focus(("procedure", n), focus.hart, focus.object) for n in inside]
    if axis == "Machine":
        harts = range(tree.hart_count) if focus.hart is None else ()
        return [Focus(focus.code, h, focus.object) for h in harts]
    objects = range(len(tree.objects)) if focus.object is None else ()
    return [Focus(focus.code, focus.hart, k) for k in objects]


def children(hyp, focus, hypotheses, tree):
    out = [(k, focus) for k in range(len(hypotheses)) if hypotheses[k].parent == hypotheses[hyp].name]
    for axis in ("Code", "Machine", "SyncObject"):
        if axis.encode() in hypotheses[hyp].axes:
            out += [(hyp, f) for f in foci_below(focus, axis, tree)]
    return out


class Nodes:
    """The nodes of a search, and how many phases have begun."""

    def __init__(self, checked, tree):
        self.hypotheses, self.declaration, self.phases = checked.hypotheses, checked.search, checked.phases
        self.tree, self.list, self.begun = tree, [], 0
        self.standing = set()
        self.begin_phase()

    def append(self, phase, parent, hyp, focus):
        if len(self.list) < MOST_NODES and (phase, hyp, focus) not in self.standing:
            self.standing.add((phase, hyp, focus))
            self.list.append(Node(phase, parent, hyp, focus))

    def begin_phase(self):
        self.begun += 1
        for k, h in enumerate(self.hypotheses):
            if h.parent is None:
                self.append(self.begun - 1, None, k, Focus())

    def waiting(self):
        return [n for n, x in enumerate(self.list) if x.state == "Waiting" and x.phase == self.begun - 1]

    def sample(self, t, n, from_, value, ticks):
        x = self.list[n]
        need(x.state == "Active", "a sample of a node that isn't active", n)
        if x.seen == 0:
            x.from_ = from_
        x.seen, x.to = x.seen + 1, t
        x.value, x.ticks = (x.value + value) % 2 ** 64, x.ticks + ticks
        if x.seen == self.declaration.window:
            x.state = "Confirmed" if verdict(x.value, x.ticks, self.hypotheses[x.hyp].threshold) else "Rejected"

    def step(self, t, samples):
        """A due work at time t with samples (node, from, value, ticks)."""
        for sample in samples:
            self.sample(t, *sample)
        for n in sorted(s[0] for s in samples):
            x = self.list[n]
            if x.state == "Confirmed":
                for h, f in children(x.hyp, x.focus, self.hypotheses, self.tree):
                    self.append(x.phase, n, h, f)
        while self.begun <= len(self.phases) and self.phases[self.begun - 1].at <= t:
            self.end(self.begun - 1)
            self.begin_phase()

    def end(self, phase=None):
        for x in self.list:
            if phase in (None, x.phase) and x.state in ("Waiting", "Active"):
                x.state = "Unfinished"
