"""The search: nodes of a hypothesis at a focus, what refines them, and when a test ends in a verdict."""
from .resources import Focus

CODE, MACHINE, SYNC = "Code", "Machine", "SyncObject"
AXES = (CODE, MACHINE, SYNC)
MOST_NODES = 4096
WAITING, ACTIVE, CONFIRMED, REJECTED, BARRED, UNFINISHED = \
    "Waiting", "Active", "Confirmed", "Rejected", "Barred", "Unfinished"


def holds(value, ticks, threshold):
    return ticks > 0 and value * 1000 >= threshold * ticks


def children(h, focus, hypotheses, tree):
    """What refines a hypothesis at a focus, in order."""
    out = [(k, focus) for k, y in enumerate(hypotheses) if y.parent == hypotheses[h].name]
    for axis in AXES:
        if axis.encode() in hypotheses[h].axes:
            i = 0
            while True:
                f = tree.child(focus, axis, i)
                if f is None:
                    break
                out.append((h, f))
                i += 1
    return out


def child_node(h, focus, i, hypotheses, tree):
    c = children(h, focus, hypotheses, tree)
    return c[i] if i < len(c) else None


class Node:
    """A hypothesis at a focus, in a phase, and what came of its test."""

    def __init__(self, phase, parent, hypothesis, focus):
        self.phase, self.parent, self.hypothesis, self.focus = phase, parent, hypothesis, focus
        self.state, self.cause = WAITING, None
        self.seen = self.from_ = self.to = self.value = self.ticks = 0


class Search:
    """The nodes, and the phase that is on."""

    def __init__(self, hypotheses, declaration, phases, tree):
        self.hypotheses, self.declaration, self.phases, self.tree = hypotheses, declaration, phases, tree
        self.list = []
        self.index = set()
        self.phase = 0            # 0 is global; phase k is phases[k - 1]
        self.dropped = []
        self._roots()

    def _make(self, parent, h, f):
        key = (self.phase, h, f)
        if len(self.list) < MOST_NODES and key not in self.index:
            self.index.add(key)
            self.list.append(Node(self.phase, parent, h, f))

    def _roots(self):
        for k, h in enumerate(self.hypotheses):
            if h.parent is None:
                self._make(None, k, Focus())

    def waiting(self):
        return [n for n, x in enumerate(self.list) if x.state == WAITING and x.phase == self.phase]

    def admitted(self, n):
        assert self.list[n].state == WAITING
        self.list[n].state = ACTIVE

    def barred(self, n, cause):
        assert self.list[n].state == WAITING
        self.list[n].state, self.list[n].cause = BARRED, cause

    def _take(self, t, n, from_, value, ticks):
        x = self.list[n]
        assert x.state == ACTIVE
        if x.seen == 0:
            x.from_ = from_
        x.seen += 1
        x.value = (x.value + value) % 2 ** 64
        x.ticks += ticks
        x.to = t
        if x.seen == self.declaration.window:
            x.state = CONFIRMED if holds(x.value, x.ticks, self.hypotheses[x.hypothesis].threshold) else REJECTED

    def _end_phase(self):
        """Gives the nodes that were active."""
        active = []
        for n, x in enumerate(self.list):
            if x.phase == self.phase and x.state in (WAITING, ACTIVE):
                if x.state == ACTIVE:
                    active.append(n)
                x.state = UNFINISHED
        self.phase += 1
        self._roots()
        return active

    def on_sample(self, t, samples):
        """Takes samples (node, from, value, ticks) at time t; gives the nodes whose instruments are to be dropped."""
        for sample in samples:
            self._take(t, *sample)
        verdicts = sorted(s[0] for s in samples if self.list[s[0]].state != ACTIVE)
        for n in verdicts:
            x = self.list[n]
            if x.state == CONFIRMED:
                for h, f in children(x.hypothesis, x.focus, self.hypotheses, self.tree):
                    self._make(n, h, f)
        ended = []
        while self.phase < len(self.phases) and self.phases[self.phase].at <= t:
            ended += self._end_phase()
        self.dropped = verdicts + sorted(ended)
        return self.dropped

    def finish(self):
        for x in self.list:
            if x.state in (WAITING, ACTIVE):
                x.state = UNFINISHED

    def phase_name(self, k):
        return b"global" if k == 0 else self.phases[k - 1].name
