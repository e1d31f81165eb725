"""The check of a configuration against a program: what it means, or the first item that is at fault."""
from .configuration import (METRIC, Constraint, Hypothesis, Include, Metric, PhaseDecl, SearchDecl, Wish, _node)
from .shipped import spread
from .tokens import BAD_FOCUS, CYCLIC_PARENT, TWICE_NAMED, UNKNOWN_NAME, WRONG_KIND


class CheckFault(Exception):
    """The first faulty item: its line, and the kind of the fault."""

    def __init__(self, line, kind):
        super().__init__(line, kind)
        self.line, self.kind = line, kind


Checked = _node("Checked", ["metrics", "constraints", "hypotheses", "search", "phases", "wishes"])
CheckedWish = _node("CheckedWish", ["at", "show", "metric", "focus"])

AXIS_OF_PATH = {b"/Code": "Code", b"/SyncObject": "SyncObject"}
AXES = (b"Code", b"Machine", b"SyncObject")
ORDER = (TWICE_NAMED, UNKNOWN_NAME, WRONG_KIND, CYCLIC_PARENT, BAD_FOCUS)


def _stmts(item):
    for b in item.blocks:
        for i in b.insertions:
            for s in i.stmts:
                yield s


def _vars(s):
    for c in s.conds:
        if c.left[0] == "var":
            yield c.left[1]
    yield s.act[1]


def _misused(s, name, timer):
    """Whether the statement uses the variable `name` against its kind."""
    if timer and any(c.left[0] == "var" and c.left[1] == name for c in s.conds):
        return True
    if s.act[1] == name:
        return (s.act[0] in ("start", "stop")) != timer
    return False


def first(items, name):
    """The number of the first item with a name, or None."""
    for k, x in enumerate(items):
        if x.name == name:
            return k
    return None


class Check:
    """What is known of the items so far. Each method gives the faults of one item."""

    def __init__(self, items, focus_of):
        self.metrics = [i for _, i in items if isinstance(i, Metric)]
        self.constraints = [i for _, i in items if isinstance(i, Constraint)]
        self.hypotheses = [i for _, i in items if isinstance(i, Hypothesis)]
        self.focus_of = focus_of
        self.measures, self.tested, self.spans = set(), set(), {b"global"}
        self.includes, self.searches, self.last_phase = set(), 0, 0
        self.opening, self.wishes, self.phases, self.search = [], [], [], None

    def _new(self, names, name):
        """The fault of a name that stands already; it stands from then on."""
        found = {TWICE_NAMED} if name in names else set()
        names.add(name)
        return found

    def faults(self, i):
        for kind, of in ((Include, self.include), (Metric, self.metric), (Constraint, self.constraint),
                         (Hypothesis, self.hypothesis), (SearchDecl, self.search_item), (PhaseDecl, self.phase),
                         (Wish, self.wish)):
            if isinstance(i, kind):
                return of(i)
        return set()

    def include(self, i):
        return self._new(self.includes, i.metrics)

    def metric(self, i):
        found, axes = self._new(self.measures, i.name), []
        for c in i.constraints:
            k = first(self.constraints, c)
            if k is None:
                found.add(UNKNOWN_NAME)
                continue
            axis = AXIS_OF_PATH.get(self.constraints[k].path)
            if axis is not None and axis in axes:
                found.add(TWICE_NAMED)
            axes.append(axis)
            if self.constraints[k].replace and any(
                    _misused(s, METRIC, i.timer) for s in _stmts(self.constraints[k])):
                found.add(WRONG_KIND)
        return found | self.statements(i, i.name, None, i.timer)

    def constraint(self, i):
        found, axis = self._new(self.measures, i.name), AXIS_OF_PATH.get(i.path)
        if axis is None:
            found.add(WRONG_KIND)
        return found | self.statements(i, METRIC if i.replace else i.name, axis, False)

    @staticmethod
    def statements(i, own, axis, timer):
        """What is wrong with the statements of a metric or a constraint, whose variable is `own`. The one of a
        replacement is judged at the metrics that take it."""
        found = set()
        for s in _stmts(i):
            if any(v != own for v in _vars(s)):
                found.add(UNKNOWN_NAME)
            if own is not METRIC and _misused(s, own, timer):
                found.add(WRONG_KIND)
            for c in s.conds:
                if c.right == ("value",) and axis != "SyncObject" or c.left[0] == "arg" and c.left[1] > 7:
                    found.add(WRONG_KIND)
        return found

    def hypothesis(self, i):
        found = self._new(self.tested, i.name)
        if i.parent is not None and first(self.hypotheses, i.parent) is None:
            found.add(UNKNOWN_NAME)
        if first(self.metrics, i.metric) is None or any(a not in AXES for a in i.axes):
            found.add(UNKNOWN_NAME)
        seen, p = set(), i.parent
        while p is not None and p not in seen:
            if p == i.name:
                found.add(CYCLIC_PARENT)
                break
            seen.add(p)
            k = first(self.hypotheses, p)
            p = self.hypotheses[k].parent if k is not None else None
        return found

    def search_item(self, i):
        self.searches += 1
        self.search = i
        found = {TWICE_NAMED} if self.searches > 1 else set()
        return found | ({WRONG_KIND} if i.window == 0 else set())

    def phase(self, i):
        found = self._new(self.spans, i.name)
        if i.at <= self.last_phase:
            found.add(WRONG_KIND)
        self.last_phase = max(self.last_phase, i.at)
        self.phases.append(i)
        return found

    def wish(self, i):
        found = set()
        m, f = first(self.metrics, i.metric), self.focus_of(i.focus)
        if m is None:
            found.add(UNKNOWN_NAME)
        if f is None:
            found.add(BAD_FOCUS)
        if i.at == 0 and not i.show:
            found.add(WRONG_KIND)
        if i.at == 0 and i.show and m is not None and f is not None:
            if (m, f) in self.opening:
                found.add(TWICE_NAMED)
            self.opening.append((m, f))
        self.wishes.append(CheckedWish(i.at, i.show, m, f))
        return found


def check(conf, ship, focus_of):
    """What the configuration means, or CheckFault. focus_of(text) gives a focus, or None where the text selects
    nothing."""
    items = spread(conf, ship)
    c = Check(items, focus_of)
    for line, i in items:
        found = c.faults(i)
        for kind in ORDER:
            if kind in found:
                raise CheckFault(line, kind)
    return Checked(c.metrics, c.constraints, c.hypotheses, c.search, c.phases, c.wishes)
