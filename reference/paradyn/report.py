"""The text of a report, and why something couldn't be measured."""
from .search import BARRED, CONFIRMED, MOST_NODES, REJECTED, UNFINISHED

CAUSES = {"no constraint": b"no constraint for %s", "too many sites": b"too many sites %d",
          "too many statements": b"too many statements at 0x%x", "over cost": b"over cost %d",
          "too many": b"too many instruments", "no slot": b"no slot for %d", "no room": b"no room for %d words",
          "unmovable": b"unmovable at 0x%x", "already shown": b"already shown", "not shown": b"not shown"}


def cause_text(cause):
    numbers = tuple(x.encode() if isinstance(x, str) else x for x in cause[1:])
    return CAUSES[cause[0]] % numbers


def _head_lines(s, skipped):
    parts = [s.hart_part(h) for h in range(s.harts)]
    lines = [b"paradyn report 1", b"harts %d ticks %d samples %d skipped %d" % (
        s.harts, sum(p[0] for p in parts), s.samples, skipped)]
    lines += [b"hart %d ticks %d %s at 0x%x" % (h, t, end.encode(), pc) for h, (t, end, pc) in enumerate(parts)]
    text = bytes(s.machine.out.data)
    return lines + [b"output %d" % len(text), text]


def pair_text(s, metric, focus):
    return s.checked.metrics[metric].name + b" " + s.tree.focus_text(focus)


def _refused_lines(s):
    return [b"refused %s %s at %d: %s" % (
        b"show" if show else b"drop", pair_text(s, metric, focus), at, cause_text(cause))
        for show, metric, focus, at, cause in s.refused]


def _histogram_lines(s, r):
    head = b"histogram " + pair_text(s, r.metric, r.focus) + b" units " + s.checked.metrics[r.metric].units
    if r.armed_at is None:
        return [head + b" from none bins 0 width 1"]
    bins = r.hist.bins()
    return [head + b" from %d bins %d width %d" % (r.armed_at, len(bins), r.hist.width())] + [
        b"bin %d from %d to %d value %d" % (k, a, b, v) for k, (a, b, v) in enumerate(bins)]


def _state_text(s, x):
    if x.state in (CONFIRMED, REJECTED):
        verdict = b"true" if x.state == CONFIRMED else b"false"
        return verdict + b" value %d ticks %d from %d to %d" % (x.value, x.ticks, x.from_, x.to)
    if x.state == BARRED:
        return b"barred " + cause_text(x.cause)
    assert x.state == UNFINISHED
    return b"waiting seen %d of %d" % (x.seen, s.search.declaration.window)


def _search_lines(s):
    nodes = s.search.list
    lines = [b"search nodes %d%s" % (len(nodes), b" full" if len(nodes) == MOST_NODES else b"")]
    for k, x in enumerate(nodes):
        parent = b"none" if x.parent is None else b"%d" % x.parent
        lines.append(b"node %d phase %s parent %s %s %s " % (
            k, s.search.phase_name(x.phase), parent, s.search.hypotheses[x.hypothesis].name, s.tree.focus_text(x.focus))
            + _state_text(s, x))
    return lines


def report(s, skipped):
    """The report of a closed session."""
    lines = _head_lines(s, skipped) + _refused_lines(s)
    for r in s.shown:
        lines += _histogram_lines(s, r)
    if s.search is not None:
        lines += _search_lines(s)
    return b"".join(x + b"\n" for x in lines)


def views_text(s, views):
    """What so many views of a closed session were given."""
    samples = b""
    for n, a, b, value in s.feed:
        r = s.shown[n]
        samples += b"sample %s from %d to %d value %d\n" % (pair_text(s, r.metric, r.focus), a, b, value)
    head = b"paradyn visi 1\nviews %d samples %d\n" % (views, len(s.feed))
    return head + b"".join(b"view %d\n" % v + samples for v in range(views))
