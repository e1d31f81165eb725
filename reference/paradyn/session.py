"""A session: a run that is measured while it goes on.

It patches instruments in and out as wishes and the search ask for them, between quanta, and takes samples with the
quanta that bring the time to the next multiple of the width or past it. """
from . import trampolines
from .histogram import Histogram
from .instruments import ARMED, GONE, PLACING, Placer, Refused
from .patched_machine import Machine
from .plain_machine import stop_text
from .plans import PlanFault, World
from .plans import plan as make_plan
from .search import Search
from .turn_order import MOST_QUANTA

MOST_LOOKED_AT = 64
MOST_PATCHES = 8


class BadPick(Exception):
    """A wish at tick 0 that is refused."""

    def __init__(self, metric, focus, cause):
        super().__init__(metric, focus, cause)
        self.metric, self.focus, self.cause = metric, focus, cause


class Record:
    """What is remembered of an admitted instrument."""

    def __init__(self, number, metric, focus, plan, cost):
        self.number, self.metric, self.focus, self.plan, self.cost = number, metric, focus, plan, cost
        self.node = None          # the number of its node of the search, or None
        self.hist = None
        self.armed_at = None
        self.last_t = None
        self.last = None          # readings
        self.last_ticks = None
        self.samples = []         # (from, to, value)
        self.live = True          # not dropped


class Session:
    """A run with its instruments."""

    def __init__(self, image, checked, tree, procs, points, settings, watch=None, most_quanta=MOST_QUANTA):
        self.image, self.checked, self.tree, self.settings = image, checked, tree, settings
        self.harts, self.most_quanta = settings.harts, most_quanta
        self.machine = Machine(image, settings.harts, settings.budget)
        self.owns = []                       # the hart of each tick
        self.machine.on_tick = self.owns.append
        if watch:
            watch(self)
        self.placer = Placer(image, settings.instruments)
        self.world = World(tree, procs, points)
        self._remember_nothing()
        self.pending = sorted(checked.wishes, key=lambda w: w.at)
        self._open()
        self.due = settings.width

    def _remember_nothing(self):
        self.records = []                    # of all instruments
        self.shown = []                      # of those of wishes, in the order of admission
        self.refused = []                    # (show, metric, focus, at, cause)
        self.feed = []                       # (place in shown, from, to, value)
        self.log = []
        self.samples = 0
        self.works = []                      # the time of each sample
        self.last_t = 0
        self.extra = 0                       # turns that weren't ticks since the last sample
        self.observed = 0
        self.work_done = False
        self.closed = False
        self.search = None
        self.admissions = []                 # (time, observed, [(node, what came of it)])

    def _open(self):
        while self.pending and self.pending[0].at == 0:
            w = self.pending.pop(0)
            try:
                self._admit_wish(w)
            except (PlanFault, Refused) as f:
                name = self.checked.metrics[w.metric].name
                raise BadPick(name, self.tree.focus_text(w.focus), f.cause) from None
        if self.checked.search is not None:
            c = self.checked
            self.search = Search(c.hypotheses, c.search, c.phases, self.tree)
            self._admit_search()
        for e in iter(self.placer.next, None):
            assert self._do(e)
        self._arm_all()
        assert all(r.armed_at == 0 for r in self.records)

    def time(self):
        return self.machine.time()

    def plan_of(self, metric, focus):
        p = make_plan(self.checked, metric, focus, self.world)
        return p if self.settings.warm else p.cold()

    def _record(self, number, metric, focus, plan):
        r = Record(number, metric, focus, plan, self.placer.predicted(plan))
        self.records.append(r)
        return r

    def _admit_wish(self, w):
        p = self.plan_of(w.metric, w.focus)
        n = self.placer.admit(p)
        r = self._record(n, w.metric, w.focus, p)
        r.hist = Histogram(self.settings.bins)
        self.shown.append(r)

    def _wish(self, w):
        now = [r for r in self.shown if r.live and r.metric == w.metric and r.focus == w.focus]
        assert len(now) <= 1
        cause = None
        if w.show:
            if now:
                cause = ("already shown",)
            else:
                try:
                    self._admit_wish(w)
                except (PlanFault, Refused) as f:
                    cause = f.cause
        else:
            if now:
                now[0].live = False
                self.placer.drop(now[0].number)
            else:
                cause = ("not shown",)
        if cause is not None:
            self.refused.append((w.show, w.metric, w.focus, self.time(), cause))

    def _search_cost(self):
        return sum(r.cost for r in self.records if r.node is not None
                   and self.placer.state(r.number) != GONE)

    def _admit_search(self):
        s, results = self.search, []
        self.admissions.append((self.time(), self.observed, results))
        if self.observed > s.declaration.observed:
            return
        for n in s.waiting()[:MOST_LOOKED_AT]:
            if self.placer.not_gone() >= self.placer.most:
                break
            results.append((n, self._admit_node(n)))

    def _admit_node(self, n):
        """What comes of a waiting node: `active`, `waits` or the cause for which it is barred."""
        s, x = self.search, self.search.list[n]
        names = [m.name for m in self.checked.metrics]
        metric = names.index(s.hypotheses[x.hypothesis].metric)
        try:
            p = self.plan_of(metric, x.focus)
            cost = self.placer.predicted(p)
            if cost <= s.declaration.cost < cost + self._search_cost():
                return "waits"
            number = self.placer.admit(p, s.declaration.cost)
        except (PlanFault, Refused) as f:
            s.barred(n, f.cause)
            return f.cause
        s.admitted(n)
        self._record(number, metric, x.focus, p).node = n
        assert self._search_cost() <= s.declaration.cost
        return "active"

    def _do(self, e):
        """Makes a patch; gives whether it could be made."""
        m, kind = self.machine, e[0]
        if kind == "write base":
            m.write(e[1])
        elif kind == "write mini":
            trampolines.set_next(e[1], m.head(e[1].point))
            m.write(e[1])
        elif kind == "free":
            if not m.free(e[1]):
                self.placer.put_back(e)
                return False
            self.placer.freed(e[1])
        else:
            getattr(m, kind.replace(" ", "_"))(*e[1:])
        return True

    def _arm_all(self):
        t = self.time()
        for r in self.records:
            if self.placer.state(r.number) == PLACING and self.placer.all_linked(r.number):
                placed = self.placer.placed(r.number)
                assert self.machine.arm(placed)
                self.placer.armed(r.number)
                r.armed_at = r.last_t = t
                r.last = [self.machine.reading(placed, h) for h in range(self.harts)]
                r.last_ticks = list(self.machine.tick)

    def runnable(self, h):
        return self.machine.runnable(h)

    def done(self):
        return len(self.log) >= self.most_quanta or not any(self.runnable(h) for h in range(self.harts))

    def quantum(self, worker, hart, turns):
        """Lets a hart take a quantum. Gives the log's entry, or None where the hart can't take a turn."""
        assert not self.closed and 1 <= turns <= 10000
        if not self.runnable(hart) or len(self.log) >= self.most_quanta:
            return None
        if self.work_done:
            self.work_done = False
            while self.pending and self.pending[0].at <= self.time():
                self._wish(self.pending.pop(0))
            if self.search:
                self._admit_search()
        owns = self._turns(hart, turns)
        for _ in range(MOST_PATCHES):
            e = self.placer.next()
            if e is None:
                break
            self._do(e)
        if self.time() >= self.due:
            self._due_work()
        q = (worker, hart, turns, owns)
        self.log.append(q)
        return q

    def _turns(self, hart, turns):
        """How many of the turns were ticks."""
        owns, extra = self.machine.turns(hart, turns)
        self.extra += extra
        return owns

    def _sample_all(self):
        """Takes a sample of each armed instrument; gives those of the search."""
        t = self.time()
        assert t > self.last_t
        self.samples += 1
        self.works.append(t)
        nodes = []
        for r in self.records:
            if self.placer.state(r.number) != ARMED:
                continue
            from_, value, ticks = self._sample(r, t)
            if r.node is None:
                r.hist.push(value, from_, t)
                self.feed.append((self.shown.index(r), from_, t, value))
            else:
                nodes.append((r.node, from_, value, ticks))
        self.observed = self.extra * 1000 // (t - self.last_t)
        self.extra = 0
        self.last_t = t
        return nodes

    def _sample(self, r, t):
        """The instrument's sample up to time t: where it begins, its value, and the ticks of the focus's harts."""
        now = self.machine.sample(self.placer.placed(r.number))
        first, count = self.tree.harts(r.focus)
        value = sum(now[h] - r.last[h] for h in range(first, first + count)) % 2 ** 64
        ticks = sum(self.machine.tick[h] - r.last_ticks[h] for h in range(first, first + count))
        from_ = r.last_t
        r.samples.append((from_, t, value))
        r.last, r.last_t, r.last_ticks = now, t, list(self.machine.tick)
        return from_, value, ticks

    def _search_step(self, nodes):
        if self.search is None:
            return
        for n in self.search.on_sample(self.time(), nodes):
            [r] = [r for r in self.records if r.node == n]
            r.live = False
            self.placer.drop(r.number)

    def _due_work(self):
        self.extra += self.machine.settle()
        nodes = self._sample_all()
        while True:
            p = self.placer.next_free()
            if p is None:
                break
            assert self.machine.free(p)
            self.placer.freed(p)
        self._arm_all()
        self._search_step(nodes)
        w = self.settings.width
        self.due = (self.time() // w + 1) * w
        self.work_done = True

    def close(self):
        assert not self.closed
        self.extra += self.machine.settle()
        if self.time() > self.last_t:
            self._search_step(self._sample_all())
        if self.search:
            self.search.finish()
        self.closed = True

    def hart_part(self, h):
        """Ticks, end and pc of a hart."""
        m = self.machine
        c = m.stopped[h]
        if c is not None:
            end = stop_text(c)
        else:
            end = "budget" if m.tick[h] >= m.budget else "cut"
        return m.tick[h], end, m.at(h)
