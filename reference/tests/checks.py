"""What a closed session has to agree in with the second reading."""
from paradyn.plain_machine import stop_text
from paradyn.resources import Focus
from paradyn.search import MOST_NODES
from . import definitions as d
from .definitions import need


def check_plan(r, p):
    need(p.refusal is None, "a refused plan was admitted", p.refusal)
    need([v.key() for v in r.plan.vars] == list(zip(p.names, p.timers, p.initially)), "variables")
    need(r.plan.sites == sorted(p.sites.items()), "sites")
    need([tuple(o) for o in r.plan.opens] == p.opens, "opens")


def jobs_of(session, inputs):
    """Each armed instrument's record with what has to be measured."""
    image, checked, tree, procs, _, settings = inputs
    jobs = []
    for r in session.records:
        p = d.Plan(checked, r.metric, r.focus, tree, procs, image)
        if not settings.warm:
            p.opens = []
        check_plan(r, p)
        if r.armed_at is None:
            need(not r.samples, "samples of what isn't armed")
            continue
        cuts = [r.armed_at]
        for a, b, _ in r.samples:
            need(a == cuts[-1] and b > a, "samples don't join", r.samples)
            cuts.append(b)
        harts = range(settings.harts) if r.focus.hart is None else [r.focus.hart]
        jobs.append((r, d.Measured(p, harts, r.armed_at, cuts)))
    return jobs


def check_search(session, jobs, inputs):
    """The nodes, from the samples and the admissions."""
    nodes = d.Nodes(inputs[1], inputs[2])
    by_time = {}
    for r, j in jobs:
        for a, b, _ in r.samples if r.node is not None else ():
            by_time.setdefault(b, []).append((r.node, a, *j.between(a, b)))
    need(session.admissions[0][0] == 0, "the opening's admission")
    admit(nodes, session.admissions[0][2])
    for k, t in enumerate(session.works):
        nodes.step(t, sorted(by_time.get(t, [])))
        if k + 1 < len(session.admissions):
            need(session.admissions[k + 1][0] == t, "an admission at another time", t)
            admit(nodes, session.admissions[k + 1][2])
    nodes.end()
    got = [(x.phase, x.parent, x.hypothesis, x.focus, x.state, x.cause, x.seen, x.from_, x.to, x.value, x.ticks)
           for x in session.search.list]
    need(got == [x.key() for x in nodes.list], "nodes", got, [x.key() for x in nodes.list])
    check_shape(nodes)
    check_verdicts(nodes, jobs)


def admit(nodes, results):
    waiting, last = nodes.waiting()[:64], -1
    for n, what in results:
        need(n in waiting and n > last, "an admission out of order", n)
        last = n
        if what == "active":
            nodes.list[n].state = "Active"
        elif what != "waits":
            nodes.list[n].state, nodes.list[n].cause = "Barred", what
    need([n for n, _ in results] == waiting[:len(results)], "an admission skipped a node")


def check_shape(nodes):
    """Each node is a root or refines a true one, none stands twice, and where there is room none is missing."""
    standing, hypotheses = {(x.phase, x.hyp, x.focus) for x in nodes.list}, nodes.hypotheses
    need(len(standing) == len(nodes.list), "a node twice")
    for n, x in enumerate(nodes.list):
        if x.parent is None:
            need(hypotheses[x.hyp].parent is None and x.focus == Focus() and x.phase < nodes.begun, "a root", n)
        else:
            y = nodes.list[x.parent]
            need(x.parent < n and y.state == "Confirmed" and y.phase == x.phase, "a parent", n)
            need((x.hyp, x.focus) in d.children(y.hyp, y.focus, hypotheses, nodes.tree), "a child", n)
        need(x.state != "Unfinished" or x.seen < nodes.declaration.window, "unfinished", n)
        if x.state == "Confirmed" and len(nodes.list) < MOST_NODES:
            for k, f in d.children(x.hyp, x.focus, hypotheses, nodes.tree):
                need((x.phase, k, f) in standing, "no child", n)


def check_verdicts(nodes, jobs):
    of_node = {r.node: (r, j) for r, j in jobs if r.node is not None}
    for n, x in enumerate(nodes.list):
        if x.state in ("Confirmed", "Rejected"):
            r, j = of_node[n]
            need(r.armed_at == x.from_ and r.samples[-1][1] == x.to, "interval", n)
            need(len(r.samples) == nodes.declaration.window, "window", n)
            need((x.value, x.ticks) == j.between(x.from_, x.to), "value", n)
            threshold = nodes.hypotheses[x.hyp].threshold
            need((x.state == "Confirmed") == d.verdict(x.value, x.ticks, threshold), "verdict", n)


def check_harts(session, plain, settings):
    for h in range(settings.harts):
        t, end, pc = session.hart_part(h)
        need(t == plain.tick[h] and pc == plain.pc[h], "a hart's end", h)
        stop = plain.stopped[h]
        need(end == (stop_text(stop) if stop else "budget" if t == settings.budget else "cut"), "why a hart ended", h)


def check_works(session, width):
    """A due work comes with the quantum that brings the time to the next multiple of the width or past it."""
    last = 0
    for k, t in enumerate(session.works):
        need(t > last, "due works don't ascend")
        need(k + 1 == len(session.works) or t // width > last // width, "a due work too early", t, last)
        last = t
    need(session.samples == len(session.works), "samples")


def check_session(session, inputs):
    """The whole of a closed session."""
    image, checked, tree, procs, points, settings = inputs
    kinds = [(a, d.event_kinds(image, p, a)) for p in procs for a in range(p.start, p.start + p.len, 4)]
    need([(q.at, q.kinds()) for q in points] == [(a, k) for a, k in kinds if k], "points")
    jobs = jobs_of(session, inputs)
    plain = d.measure_all(image, settings.harts, settings.budget, session.owns, [j for _, j in jobs])
    for r, j in jobs:
        for a, b, value in r.samples:
            name = checked.metrics[r.metric].name
            need(value == j.between(a, b)[0], "a sample", name, tree.focus_text(r.focus), a, b)
        if r.hist is not None:
            need(d.bins_of(r.samples, settings.bins) == (r.hist.bins(), r.hist.width()), "bins")
    if session.search is not None:
        check_search(session, jobs, inputs)
    check_harts(session, plain, settings)
    check_works(session, settings.width)
