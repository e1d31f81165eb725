"""The rows of `test_language` on words, logs, samples and searches."""
import binascii
import re

from paradyn import command_words, quanta_log
from paradyn.configuration import Hypothesis, PhaseDecl, SearchDecl
from paradyn.histogram import Histogram
from paradyn.points import Proc
from paradyn.resources import Focus, Tree
from paradyn.search import ACTIVE, WAITING, Search, child_node, holds
from . import debug

SETTINGS = "harts {harts} budget {budget} bins {bins} width {width} {start} instruments {instruments}"
REQUESTS = {
    "run": "run [{0}] [{1}] " + SETTINGS + " seed {seed} quantum {quantum}",
    "live": "live [{0}] [{1}] " + SETTINGS + " workers {workers} quantum {quantum}",
    "replay": "replay [{0}] [{1}] [{2}]",
    "plan": "plan [{0}] [{1}] [{2}] [{3}] harts {harts}",
    "stress": "stress procs {n} seed {seed_word}",
    "blocks": "blocks [{0}] harts {harts} budget {budget} seed {seed} quantum {quantum}",
    "profile": "profile [{0}] harts {harts} budget {budget} seed {seed} quantum {quantum} also {also} show {show} top {top}",
    "show": "show [{0}] columns {columns} format {format}",
    "diff": "diff [{0}] [{1}]",
    "ask": "ask [{0}] [{1}] harts {harts} budget {budget} seed {seed} quantum {quantum} each {each} under [{under}] from {from} until {until} "
           "instruments {instruments}",
    "annotate": "annotate [{0}] harts {harts} budget {budget} seed {seed} quantum {quantum} also {also} by {by}",
    "visi": "visi [{0}] [{1}] " + SETTINGS + " seed {seed} quantum {quantum} views {views}",
    "direct": "direct [{0}] [{1}] [{2}] " + SETTINGS + " seed {seed} quantum {quantum}",
    "asm": "asm [{0}]", "points": "points [{0}]", "relog": "relog [{0}]", "advise": "advise [{0}]",
}


def command(row):
    """What words ask for."""
    words = row.split(" ") if row else []
    w = command_words.parse(words)
    if w is None:
        return ["usage"]
    text = REQUESTS[w["command"]].format(*w["positional"], **{k: v for k, v in w.items() if k != "positional"})
    if w.get("procedure") is not None:
        text += " procedure [%s]" % w["procedure"]
    log = command_words.log_name(words)
    return [text if log is None else "%s log [%s]" % (text, log)]


def log_text(content):
    """What bytes are as a log, and the log that is written of it."""
    try:
        s, quanta = quanta_log.read(content)
    except quanta_log.LogFault as f:
        return f.kind if f.kind == "bad head" else "%s %d" % (f.kind, f.place)
    head = "harts %d budget %d bins %d width %d %s %d" % (
        s.harts, s.budget, s.bins, s.width, "warm" if s.warm else "cold", s.instruments)
    entries = "".join(" (%d %d %d %d)" % q for q in quanta)
    return head + entries + " " + binascii.hexlify(quanta_log.write(s, quanta)).decode()


def hist_text(bins, sums):
    h = Histogram(bins)
    for k, value in enumerate(sums):
        h.push(value, 10 * k, 10 * k + 10)
    return "width %d" % h.width() + "".join(" (%d %d %d)" % b for b in h.bins())


def record(row):
    word, _, rest = row.partition(" ")
    if word == "log":
        try:
            return [log_text(binascii.unhexlify(rest))]
        except binascii.Error:
            return ["no bytes"]
    if word != "hist":
        return ["no words"]
    bins, *sums = rest.split(" ")
    return [hist_text(int(bins), [int(x) for x in sums if x])]


# the sizes of searches: hypotheses, modules, procedures in each, harts, window, and the tick of the second phase
SIZES = {"Small": (1, 1, 2, 1, 2, 10000), "Phases": (3, 1, 2, 2, 2, 800), "Full": (1, 3, 2000, 1, 1, 1000)}
FEW = 16


class Steps:
    """A search that is taken through steps. Each step's method gives the lines that are printed of it."""

    def __init__(self):
        self.search = None

    def begin(self, case):
        count, modules, each, harts, window, late = SIZES[case]
        hypotheses = [Hypothesis(1, b"First", None, b"metric", 200, [b"Code"]),
                      Hypothesis(1, b"Second", None, b"metric", 200, [b"Machine"]),
                      Hypothesis(1, b"Third", b"First", b"metric", 200, [b"Code"])][:count]
        procs = [Proc(b"f%d" % n, b"m%d" % (n // each), 0x10000 + 4 * n, 4) for n in range(modules * each)]
        declaration = SearchDecl(1, window, 1000, 1000000)
        self.search = Search(hypotheses, declaration, [PhaseDecl(1, b"late", late)], Tree(procs, [], harts, []))
        return self.state()

    def state(self):
        s = self.search
        nodes, waiting = s.list, s.waiting()
        ended = [sum(x.state == state for x in nodes) for state in ("Confirmed", "Rejected", "Barred", "Unfinished")]
        if len(nodes) > FEW:
            return ["waiting %d drops %r" % (len(waiting), s.dropped),
                    "nodes %d confirmed %d rejected %d barred %d unfinished %d" % (len(nodes), *ended)]
        return ["waiting %r drops %r" % (waiting, s.dropped),
                "nodes" + "".join(" %s %d" % (debug.state(x), x.seen) for x in nodes)]

    def waits(self, n):
        return n < len(self.search.list) and self.search.list[n].state == WAITING

    def holds(self, value, ticks, threshold):
        return [debug.truth(holds(value, ticks, threshold))]

    def child(self, of, n):
        s = self.search
        c = child_node(of, Focus(), n, s.hypotheses, s.tree) if of < len(s.hypotheses) else None
        return [debug.option(c and "(%d, %s)" % (c[0], debug.focus(c[1])))]

    def work(self, t, *samples):
        assert all(self.search.list[s[0]].state == ACTIVE for s in samples)
        self.search.on_sample(t, list(samples))
        return self.state()

    one = two = work

    def admit(self, n):
        if not self.waits(n):
            return ["no step"]
        self.search.admitted(n)
        return self.state()

    def bar(self, n):
        if not self.waits(n):
            return ["no step"]
        self.search.barred(n, ("too many sites", 5000))
        return self.state()

    def each(self, first, behind, value):
        for n in range(first, behind):
            if not self.waits(n):
                return ["no step"]
            self.search.admitted(n)
            self.search.on_sample(100, [(n, 0, value, 100)])
        return self.state()

    def end(self):
        self.search.finish()
        return self.state()

    def nodes(self, first, behind):
        return ["%d %s" % (n, debug.node(x)) for n, x in enumerate(self.search.list) if first <= n < behind]


def steps_of(source, name):
    """The steps of a table, as the source of the test program has them: pairs of a step's text and its parts."""
    body = re.search(r"const %s: \[Row; \d+\] = \[(.*?)\n\];" % name.upper(), source, re.S).group(1)
    for text in re.findall(r"Row::(.+),\n", body + "\n"):
        text = text.replace("Case::", "").replace("_", "")
        word, _, rest = text.partition("(")
        yield text, word.lower(), eval("(%s,)" % rest[:-1], {}, {k: k for k in SIZES}) if rest else ()


def search(row, source):
    """The lines of a table of steps."""
    steps, out = Steps(), []
    for text, word, parts in steps_of(source, row):
        out += [text] + getattr(steps, word)(*parts)
    return out
