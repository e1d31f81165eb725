"""Directives: what changes the hypotheses before the search begins."""
from .configuration import Conf, Hypothesis, Include, Parser
from .shipped import with_line
from .tokens import TOO_LONG, UNKNOWN_NAME, WRONG_KIND, ParseFault

FILE_MOST = 1048576


class DirectiveFault(Exception):
    """The first fault of directives: its kind, and where it stands."""

    def __init__(self, line, col, kind):
        super().__init__(line, col, kind)
        self.line, self.col, self.kind = line, col, kind


def _directive(p):
    """The next one: its line, its kind, its hypothesis, and the axis or number."""
    line, extra = p.look().line, None
    kind = p.one_of(b"prune", b"threshold", b"first").decode()
    name = p.name()
    if kind == "prune" and p.maybe(b"axis"):
        kind, extra = "axis", p.name()
    elif kind == "threshold":
        extra = p.number()
    p.take(b";")
    return line, kind, name, extra


def read_directives(text):
    """The directives of a text, or DirectiveFault."""
    if len(text) > FILE_MOST:
        raise DirectiveFault(0, 0, TOO_LONG)
    p, out = Parser(text), []
    try:
        while p.look() is not None:
            out.append(_directive(p))
    except ParseFault as f:
        raise DirectiveFault(f.line, f.col, f.kind) from None
    return out


def spread_hypotheses(conf, ship):
    """The items, with the shipped hypotheses in the place of their include."""
    items = []
    for i in conf.items:
        if isinstance(i, Include) and not i.metrics:
            items += [with_line(j, i.line) for j in ship.items if isinstance(j, Hypothesis)]
        else:
            items.append(i)
    return items


def without(items, name):
    """The items without a hypothesis and those that have it as an ancestor."""
    gone = {name}
    while True:
        more = {i.name for i in items if isinstance(i, Hypothesis) and i.parent in gone} - gone
        if not more:
            return [i for i in items if not (isinstance(i, Hypothesis) and i.name in gone)]
        gone |= more


def act(items, directive):
    """The items behind one directive, or DirectiveFault."""
    line, kind, name, extra = directive
    places = [k for k, i in enumerate(items) if isinstance(i, Hypothesis)]
    there = [k for k in places if items[k].name == name]
    if not there:
        raise DirectiveFault(line, 0, UNKNOWN_NAME)
    k, h = there[0], items[there[0]]
    if kind == "prune":
        return without(items, name)
    if kind == "first":
        items = items[:k] + items[k + 1:]
        return items[:places[0]] + [h] + items[places[0]:]
    if kind == "axis" and extra not in h.axes:
        raise DirectiveFault(line, 0, WRONG_KIND)
    axes = [a for a in h.axes if a != extra] if kind == "axis" else h.axes
    threshold = extra if kind == "threshold" else h.threshold
    return items[:k] + [Hypothesis(h.line, h.name, h.parent, h.metric, threshold, axes)] + items[k + 1:]


def apply(conf, ship, directives):
    """The configuration that the directives make of one, or DirectiveFault."""
    items = spread_hypotheses(conf, ship)
    for d in directives:
        items = act(items, d)
    return Conf(items)
