"""Configurations: the items that a text spells, or its first fault."""
from .tokens import TOO_DEEP, UNEXPECTED, LexFault, ParseFault, Scanner

ITEMS = (b"include", b"sync", b"metric", b"constraint", b"hypothesis", b"search", b"phase", b"at")
MOST_CONDITIONS = 16


def _node(name, fields):
    def __init__(self, *args):
        assert len(args) == len(fields), (name, args)
        for f, a in zip(fields, args):
            setattr(self, f, a)

    def __eq__(self, other):
        return type(self) is type(other) and all(getattr(self, f) == getattr(other, f) for f in fields)

    def __repr__(self):
        return name + "(" + ", ".join(f"{f}={getattr(self, f)!r}" for f in fields) + ")"

    return type(name, (), {"__slots__": tuple(fields), "__init__": __init__, "__eq__": __eq__,
                           "__repr__": __repr__, "__hash__": None, "fields": tuple(fields)})


Conf = _node("Conf", ["items"])
Include = _node("Include", ["line", "metrics"])
SyncDecl = _node("SyncDecl", ["line", "name"])
Metric = _node("Metric", ["line", "name", "units", "constraints", "timer", "initially", "blocks"])
Constraint = _node("Constraint", ["line", "name", "path", "replace", "initially", "blocks"])
Block = _node("Block", ["line", "set", "insertions"])            # set: 'focus' | 'all' | [names]
Insertion = _node("Insertion", ["line", "prepend", "kind", "constrained", "stmts"])
Statement = _node("Statement", ["line", "conds", "act"])
# left: ('var', V) or ('arg', n), where V is bytes or METRIC; right: ('num', n) or ('value',)
Condition = _node("Condition", ["left", "cmp", "right"])
# act: ('up', V) ('down', V) ('put', V, n) ('start', V) ('stop', V)
Hypothesis = _node("Hypothesis", ["line", "name", "parent", "metric", "threshold", "axes"])
SearchDecl = _node("SearchDecl", ["line", "window", "cost", "observed"])
PhaseDecl = _node("PhaseDecl", ["line", "name", "at"])
Wish = _node("Wish", ["line", "at", "show", "metric", "focus"])
METRIC = None        # the variable $metric


class Parser:
    """The items of a text, taken token by token."""

    def __init__(self, text):
        self.s = Scanner(text)
        self.tok = None
        self.advance()

    def advance(self):
        old = self.tok
        try:
            self.tok = self.s.next()
        except LexFault as f:
            self.tok = f          # raised when looked at
        return old

    def look(self):
        if isinstance(self.tok, LexFault):
            raise ParseFault(self.tok.line, self.tok.col, self.tok.kind)
        return self.tok

    def bad(self):
        t = self.look()
        if t is None:
            line, col = self.s.place()
            raise ParseFault(line, col, UNEXPECTED)
        raise ParseFault(t.line, t.col, UNEXPECTED)

    def is_(self, text):
        t = self.look()
        return t is not None and t.kind in ("NAME", "SIGN", "WORD") and t.text == text

    def take(self, text):
        if not self.is_(text):
            self.bad()
        return self.advance()

    def maybe(self, text):
        if self.is_(text):
            return self.advance()
        return None

    def kind(self, kind):
        t = self.look()
        if t is None or t.kind != kind:
            self.bad()
        return self.advance()

    def name(self):
        return self.kind("NAME").text

    def number(self):
        return int(self.kind("NUMBER").text)

    def one_of(self, *texts):
        for x in texts:
            if self.is_(x):
                return self.advance().text
        self.bad()

    def conf(self):
        items = []
        while self.look() is not None:
            items.append(self.item())
        return Conf(items)

    def item(self):
        line = self.look().line
        word = self.one_of(*ITEMS)
        return getattr(self, word.decode())(line)

    def include(self, line):
        w = self.one_of(b"metrics", b"hypotheses")
        self.take(b";")
        return Include(line, w == b"metrics")

    def sync(self, line):
        n = self.name()
        self.take(b";")
        return SyncDecl(line, n)

    def constraint(self, line):
        n = self.name()
        path = self.kind("FOCUS").text
        self.take(b"is")
        w = self.one_of(b"counter", b"replace")
        initially = self.number() if self.maybe(b"initially") else None
        return Constraint(line, n, path, w == b"replace", initially, self.blocks())

    def names(self):
        """Names between commas."""
        out = [self.name()]
        while self.maybe(b","):
            out.append(self.name())
        return out

    def hypothesis(self, line):
        n = self.name()
        self.take(b"{")
        parent, axes = None, []
        if self.maybe(b"parent"):
            parent = self.name()
            self.take(b";")
        self.take(b"metric")
        metric = self.name()
        self.take(b";")
        threshold = self.named_number(b"threshold")
        if self.maybe(b"axes"):
            axes = self.names()
            self.take(b";")
        self.take(b"}")
        return Hypothesis(line, n, parent, metric, threshold, axes)

    def named_number(self, word):
        self.take(word)
        n = self.number()
        self.take(b";")
        return n

    def search(self, line):
        self.take(b"{")
        numbers = [self.named_number(word) for word in (b"window", b"cost", b"observed")]
        self.take(b"}")
        return SearchDecl(line, *numbers)

    def phase(self, line):
        n = self.name()
        return PhaseDecl(line, n, self.named_number(b"at"))

    def at(self, line):
        a = self.number()
        show = self.one_of(b"show", b"drop") == b"show"
        m = self.name()
        f = self.kind("FOCUS").text
        self.take(b";")
        return Wish(line, a, show, m, f)

    def metric(self, line):
        n = self.name()
        self.take(b"{")
        self.take(b"units")
        units = self.kind("STRING").text[1:-1]
        self.take(b";")
        cs = []
        while self.maybe(b"constraint"):
            cs.append(self.name())
            self.take(b";")
        self.take(b"base")
        self.take(b"is")
        timer = self.one_of(b"counter", b"timer") == b"timer"
        ini = self.number() if self.maybe(b"initially") else None
        blocks = self.blocks()
        self.take(b"}")
        return Metric(line, n, units, cs, timer, ini, blocks)

    def blocks(self):
        self.take(b"{")
        out = []
        while not self.maybe(b"}"):
            line = self.look().line if self.look() is not None else None
            for word in (b"foreach", b"func", b"in"):
                self.take(word)
            which = self.set_of()
            self.take(b"{")
            ins = []
            while not self.maybe(b"}"):
                ins.append(self.insertion())
            out.append(Block(line, which, ins))
        return out

    def set_of(self):
        if self.maybe(b"$focus"):
            return "focus"
        if self.maybe(b"$all"):
            return "all"
        self.take(b"[")
        names = self.names()
        self.take(b"]")
        return names

    def insertion(self):
        t = self.look()
        w = self.one_of(b"prepend", b"append")
        k = self.one_of(b"entry", b"return", b"call", b"after")
        c = self.maybe(b"constrained") is not None
        self.take(b"(*")
        stmts = []
        while not self.maybe(b"*)"):
            stmts.append(self.stmt())
        return Insertion(t.line, w == b"prepend", k.decode(), c, stmts)

    def stmt(self):
        if self.look() is None:
            self.bad()
        line, conds = self.look().line, []
        while self.is_(b"if"):
            if len(conds) == MOST_CONDITIONS:
                raise ParseFault(self.look().line, self.look().col, TOO_DEEP)
            conds.append(self.condition())
        return Statement(line, conds, self.action())

    def condition(self):
        self.take(b"if")
        self.take(b"(")
        if self.maybe(b"$arg"):
            self.take(b"[")
            left = ("arg", self.number())
            self.take(b"]")
        else:
            left = ("var", self.var())
        sign = self.one_of(b"==", b"!=", b"<", b"<=", b">", b">=").decode()
        right = ("value",) if self.maybe(b"$value") else ("num", self.number())
        self.take(b")")
        return Condition(left, sign, right)

    def action(self):
        for w in (b"start", b"stop"):
            if self.maybe(w):
                self.take(b"(")
                v = self.var()
                self.take(b")")
                self.take(b";")
                return (w.decode(), v)
        v = self.var()
        w = self.one_of(b"++", b"--", b"=")
        act = ("put", v, self.number()) if w == b"=" else ("up" if w == b"++" else "down", v)
        self.take(b";")
        return act

    def var(self):
        if self.maybe(b"$metric"):
            return METRIC
        return self.name()


def parse(text):
    return Parser(text).conf()
