"""The plan of a metric at a focus: its variables, and the statements at the addresses of its sites."""
from .canonical import statement_text
from .checking import AXIS_OF_PATH
from .configuration import METRIC, Condition
from .trampolines import predicted

MOST_SITES = 4096
MOST_STATEMENTS = 32


class PlanFault(Exception):
    """cause: ('no constraint', axis), ('too many sites', n) or ('too many statements', address)"""

    def __init__(self, cause):
        super().__init__(cause)
        self.cause = cause


class Var:
    """A counter or a timer."""

    __slots__ = ("name", "timer", "initially")

    def __init__(self, name, timer, initially):
        self.name, self.timer, self.initially = name, timer, initially

    def key(self):
        return (self.name, self.timer, self.initially)


class Plan:
    """vars; sites, pairs of an address and statements; opens, the procedures (start, length, statements) at whose
    entries statements stand."""

    def __init__(self, vars_, sites, opens=()):
        self.vars, self.sites, self.opens = vars_, sites, list(opens)

    def cold(self):
        return Plan(self.vars, self.sites, [])

    def predicted(self):
        return predicted(self.sites)

    def slots(self):
        return sum(2 if v.timer else 1 for v in self.vars)


KINDS = ("entry", "after", "return", "call")


def resolve(stmt, own, own_index, guards, value):
    """The statement over the numbers of variables, with the guards before its own conditions."""
    conds = [(("counter", g), "!=", 0) for g in guards]
    for c in stmt.conds:
        if c.left[0] == "arg":
            left = ("arg", c.left[1])
        else:
            assert c.left[1] == own
            left = ("counter", own_index)
        right = value if c.right[0] == "value" else c.right[1]
        conds.append((left, c.cmp, right))
    act = (stmt.act[0], own_index) + tuple(stmt.act[2:])
    assert stmt.act[1] == own
    return conds, act


def active(checked, metric, code_below, object_below):
    """The constraint of each axis along which the focus goes down, or None where the metric has none."""
    m = checked.metrics[metric]
    found = {}
    for name in m.constraints:
        for c in checked.constraints:
            if c.name == name:
                found[AXIS_OF_PATH[c.path]] = c
                break
    out = {}
    for axis, below in (("Code", code_below), ("SyncObject", object_below)):
        if below:
            out[axis] = found.get(axis)
    return out


class World:
    """What plans ask of a program: its procedures, its points, and what a focus selects."""

    def __init__(self, tree, procs, points):
        self.tree = tree
        self.procs = [(p.name, p.start, p.len) for p in procs]
        self.points_of = {}
        for q in points:
            self.points_of.setdefault(q.proc_no, []).append((q.at, set(q.kinds())))


class Source:
    """Blocks with the variable on which their statements act."""

    def __init__(self, blocks, own, variable):
        self.blocks, self.own, self.variable = blocks, own, variable


def variables(m, active_constraints):
    """The variables of a plan, the source of the metric's statements, and those of the counters."""
    source, initially = Source(m.blocks, m.name, 0), m.initially
    vars_, counters = [Var(m.name, m.timer, 0)], []
    for axis in ("Code", "SyncObject"):       # a later replacement stands in the place of an earlier one
        c = active_constraints.get(axis)
        if c is None:
            continue
        if c.replace:
            source, initially = Source(c.blocks, METRIC, 0), c.initially
        else:
            counters.append(Source(c.blocks, c.name, len(vars_)))
            vars_.append(Var(c.name, False, c.initially or 0))
    vars_[0].initially = initially or 0
    return vars_, source, counters


class Gathering:
    """The statements at each address, by kind, by whether they are prepended, and by their source."""

    def __init__(self, world, focus, guards):
        self.world, self.guards = world, guards
        self.value = world.tree.object_at(focus)
        self.focus_procs = list(world.tree.procs_of(focus))
        self.at = {}

    def procs(self, which):
        everything = range(len(self.world.procs))
        if which == "focus":
            return self.focus_procs
        if which == "all":
            return everything
        return [n for n in everything if self.world.procs[n][0] in set(which)]

    def add(self, source, prepend, place):
        for b in source.blocks:
            procs = self.procs(b.set)
            for ins in b.insertions:
                if ins.prepend == prepend and ins.stmts:
                    self.insert(source, ins, procs, place)

    def insert(self, source, ins, procs, place):
        guards = self.guards if ins.constrained else []
        stmts = [resolve(s, source.own, source.variable, guards, self.value) for s in ins.stmts]
        key = (KINDS.index(ins.kind), 0 if ins.prepend else 1, place)
        for n in procs:
            for at, kinds in self.world.points_of.get(n, []):
                if ins.kind in kinds:
                    self.at.setdefault(at, {}).setdefault(key, []).extend(stmts)

    def sites_and_opens(self):
        sites, opens = [], []
        by_start = {p[1]: p for p in self.world.procs}
        for at in sorted(self.at):
            keys = sorted(self.at[at])
            sites.append((at, [s for k in keys for s in self.at[at][k]]))
            entry = [s for k in keys if k[0] == 0 for s in self.at[at][k]]
            if entry:
                opens.append((by_start[at][1], by_start[at][2], entry))
        return sites, opens


def plan(checked, metric, focus, world):
    """The plan, or PlanFault."""
    m, tree = checked.metrics[metric], world.tree
    constraints = active(checked, metric, tree.below_code(focus), tree.below_sync(focus))
    for axis in ("Code", "SyncObject"):
        if axis in constraints and constraints[axis] is None:
            raise PlanFault(("no constraint", axis))
    vars_, own, counters = variables(m, constraints)
    gathering = Gathering(world, focus, [c.variable for c in counters])
    for prepend, sources in ((True, counters + [own]), (False, [own] + counters)):
        for place, source in enumerate(sources):
            gathering.add(source, prepend, place)
    sites, opens = gathering.sites_and_opens()
    if len(sites) > MOST_SITES:
        raise PlanFault(("too many sites", len(sites)))
    for at, stmts in sites:
        if len(stmts) > MOST_STATEMENTS:
            raise PlanFault(("too many statements", at))
    return Plan(vars_, sites, opens)


def plan_text(p, metric_name, focus_text):
    out = b"plan " + metric_name + b" " + focus_text + b" words %d\n" % p.predicted()
    for v in p.vars:
        out += b"variable " + v.name + (b" timer" if v.timer else b" counter") + b" initially %d\n" % v.initially
    for at, stmts in p.sites:
        for conds, act in stmts:
            cs = [Condition(("arg", l[1]) if l[0] == "arg" else ("var", l[1]), cmp, ("num", r)) for l, cmp, r in conds]
            out += b"at 0x%x " % at + statement_text(cs, act, lambda n: p.vars[n].name) + b"\n"
    return out
