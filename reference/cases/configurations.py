"""Random configurations and directives for a random program."""
import re

from paradyn import configuration, shipped, tokens
from paradyn.configuration import Hypothesis, Include
from .programs import NAMES

SHIPPED_METRICS = ["procedure_calls", "calls_made", "cpu_inclusive", "cpu", "sync_wait", "io_wait", "small_io"]
AXES = ["Code", "Machine", "SyncObject"]
SIGNS = ["==", "!=", "<", "<=", ">", ">="]
KINDS = ["entry", "return", "call", "after", "entry", "return"]
# what a changed text gains
TOKENS = [b";", b" if ", b" metric ", b"{", b"}", b" $metric ", b" 5 ", b" 2147483648 ", b'"', b" /Code ", b"/", b"//",
          b"(*", b"*)", b" start ", b"!", b"=", b"\n", b" x ", b"\xff", b"0001", b" at ", b"$", b"[", b",", b"++"]
PIECES = re.compile(rb'\s+|[A-Za-z_$/][A-Za-z0-9_.$/,]*|"[^"]*"|\d+|[^\sA-Za-z0-9]')


# statements with as many conditions as there may be, and as many as a point may have
LARGE = ("if ($arg[0] == 1) " * 16 + "VAR++; ") * 32
BLOCK = "{ foreach func in $all { prepend entry (* %s *) } }"
# items that don't go with a configuration or with each other; %s is one of its metrics
FAULTY = [
    "include metrics;", "include hypotheses;", "phase global at 5;", "phase late at 0;",
    "phase p0 at 7; phase p1 at 7;",
    "search { window 1; cost 1; observed 1; }", "search { window 0; cost 1; observed 1; }",
    "search { window 1; cost 2147483648; observed 1; }", "at 0 drop %s /Code;", "at 5 drop %s /Code/none;",
    "at 5 show none /Code;", "at 0 show %s /Code; at 0 show %s /Code,/Machine;", "at 5 show %s /Code,/Code;",
    "hypothesis C { parent C; metric %s; threshold 1; }", "hypothesis N { metric none; threshold 1; }",
    "hypothesis D { parent E; metric %s; threshold 1; } hypothesis E { parent D; metric %s; threshold 1; }",
    "hypothesis A { metric %s; threshold 1; axes Code, Phase; }",
    "hypothesis H0 { parent none; metric %s; threshold 1; }",
    "constraint m /Machine is counter { }",
    "constraint v /Code is counter " + BLOCK.replace("%s", "if (v == $value) v++;"),
    "constraint w /SyncObject is counter " + BLOCK.replace("%s", "start(w);"),
    'metric a { units "a"; base is counter ' + BLOCK.replace("%s", "if ($arg[8] == 1) a++;") + " }",
    'metric b { units "b"; base is timer ' + BLOCK.replace("%s", "b++;") + " }",
    'metric c { units "c"; base is counter ' + BLOCK.replace("%s", "d++;") + " }",
    'metric d { units "d"; base is counter ' + BLOCK.replace("%s", "if ($arg[0] == 1) " * 17 + "d++;") + " }",
    'metric e { units "e"; base is counter ' + BLOCK.replace("%s", "e++; " * 33) + " } at 5 show e /Code;",
    " ".join('metric g%d { units "g"; base is counter %s } at %d show g%d /Code;' % (
        k, BLOCK.replace("%s", LARGE.replace("VAR", "g%d" % k)), 5 + k, k) for k in range(16)),
    'metric h { units "h"; constraint none; base is counter { } }', "sync if; sync cell; sync buf;",
]


class Configuration:
    """A random configuration as a text."""

    def __init__(self, draw, program):
        self.draw, self.program = draw, program
        self.lines, self.metrics, self.hypotheses = [], [], []
        if draw.random() < 0.7:
            self.lines.append("include metrics;")
            self.metrics += SHIPPED_METRICS
        else:
            self.lines.append("sync %s;" % draw.choice(["lock_", "c", "l"]))
        for k in range(draw.randint(0, 3) if self.metrics else draw.randint(1, 3)):
            self.metric(k)
        if draw.random() < 0.5:
            self.search()
        self.phases()
        self.wishes()
        if draw.random() < 0.1:
            line, metric = draw.choice(FAULTY), draw.choice(self.metrics)
            self.lines.insert(draw.randint(0, len(self.lines)), line % ((metric,) * line.count("%s")))
        self.text = "\n".join(self.lines) + "\n"

    def initially(self):
        return self.draw.choice(["", "", " initially 1", " initially 2", " initially 0"])

    def condition(self, own, timer, axis):
        right = str(self.draw.choice([0, 1, 2, 3, 64, 2147483647, 0x1000000]))
        if axis == "SyncObject" and self.draw.random() < 0.5:
            right = "$value"
        left = "$arg[%d]" % self.draw.randint(0, 7) if timer or self.draw.random() < 0.5 else own
        return "if (%s %s %s) " % (left, self.draw.choice(SIGNS), right)

    def statement(self, own, timer, axis):
        conditions = ""
        while self.draw.random() < 0.25:
            conditions += self.condition(own, timer, axis)
        if timer:
            return conditions + self.draw.choice(["start(%s);", "stop(%s);", "start(%s);"]) % own
        number = self.draw.choice([0, 1, 7, 2147483647])
        return conditions + self.draw.choice(["%s++;", "%s++;", "%s--;", "%s = {};".format(number)]) % own

    def insertion(self, own, timer, axis):
        draw = self.draw
        statements = [self.statement(own, timer, axis) for _ in range(draw.randint(0, 3) or 1)]
        return "%s %s%s (* %s *)" % (draw.choice(["prepend", "append"]), draw.choice(KINDS),
                                     draw.choice(["", " constrained"]), " ".join(statements))

    def blocks(self, own, timer, axis):
        draw, out = self.draw, []
        for _ in range(draw.randint(0, 3)):
            names = ", ".join(draw.choice(NAMES + ["nobody"]) for _ in range(draw.randint(1, 3)))
            which = draw.choice(["$focus", "$all", "[%s]" % names])
            insertions = [self.insertion(own, timer, axis) for _ in range(draw.randint(1, 3))]
            out.append("foreach func in %s { %s }" % (which, "\n".join(insertions)))
        return "{ " + " ".join(out) + " }"

    def metric(self, k):
        draw, timer, named = self.draw, self.draw.random() < 0.5, []
        for axis in ("Code", "SyncObject"):
            if draw.random() < 0.7:
                name, replaces = "c%d%s" % (k, axis[0]), draw.random() < 0.35
                blocks = self.blocks("$metric" if replaces else name, timer and replaces, axis)
                self.lines.append("constraint %s /%s is %s%s %s" % (
                    name, axis, "replace" if replaces else "counter", self.initially(), blocks))
                named.append("constraint %s;" % name)
        draw.shuffle(named)
        kind, initially = "timer" if timer else "counter", self.initially()
        self.lines.append('metric m%d { units "u %d"; %s base is %s%s %s }' % (
            k, k, " ".join(named), kind, initially, self.blocks("m%d" % k, timer, "base")))
        self.metrics.append("m%d" % k)

    def search(self):
        draw = self.draw
        if self.metrics[0] == "procedure_calls" and draw.random() < 0.4:
            self.lines.append("include hypotheses;")
            self.hypotheses.append("CPUbound")
        for k in range(draw.randint(0, 3)):
            axes = [a for a in AXES if draw.random() < 0.5]
            draw.shuffle(axes)
            parent = "parent %s;" % draw.choice(self.hypotheses) if self.hypotheses and draw.random() < 0.4 else ""
            self.lines.append("hypothesis H%d { %s metric %s; threshold %d; %s }" % (
                k, parent, draw.choice(self.metrics), draw.choice([0, 1, 5, 50, 100, 200, 500, 1000, 3000]),
                "axes %s;" % ", ".join(axes) if axes else ""))
            self.hypotheses.append("H%d" % k)
        self.lines.append("search { window %d; cost %d; observed %d; }" % (
            draw.randint(1, 4), draw.choice([5, 20, 60, 200, 1000, 100000]),
            draw.choice([0, 100, 1000, 5000, 1000000, 1000000])))

    def phases(self):
        at = 0
        for k in range(self.draw.choice([0, 0, 1, 3])):
            at += self.draw.randint(1, 400)
            self.lines.append("phase p%d at %d;" % (k, at))

    def foci(self):
        program, draw = self.program, self.draw
        foci = program.foci + ["/Code", "/Code/program", "/Machine", "/Code,/Machine,/SyncObject"]
        foci += ["/Code/program/" + n for n in program.names] * 2
        objects = ["/SyncObject/" + o for o in program.objects if o.startswith("lock_")]
        if any(x.startswith(("include", "sync l")) for x in self.lines):
            foci += objects
        foci = [f for f in foci if f not in program.gone]
        for f in list(foci):
            if f.startswith("/Code") and "," not in f and draw.random() < 0.2:
                foci.append(f + ",/Machine/hart0")
                foci += [f + "," + o for o in objects if o in foci]
        return foci

    def wishes(self):
        draw, opening = self.draw, set()
        foci = self.foci()
        pairs = [(draw.choice(self.metrics), draw.choice(foci)) for _ in range(draw.randint(1, 5))]
        for _ in range(draw.choice([0, 1, 2, 6, 12, 30])):
            metric, focus = draw.choice(pairs)
            at = draw.choice([0, draw.randint(0, 60), draw.randint(0, 1000)])
            if at == 0:
                refined = metric.startswith("m") and focus.count("/") > 1 or "SyncObject/" in focus
                if (metric, focus) in opening or refined and draw.random() < 0.8:
                    continue
                opening.add((metric, focus))
            word = "show" if at == 0 or draw.random() < 0.6 else "drop"
            self.lines.append("at %d %s %s %s;" % (at, word, metric, focus))


def changed(draw, text):
    """The text with some tokens taken out, put in or changed for others."""
    pieces = PIECES.findall(text)
    for _ in range(draw.randint(1, 3)):
        if not pieces:
            break
        k, kind = draw.randrange(len(pieces)), draw.random()
        if kind < 0.3:
            del pieces[k]
        elif kind < 0.6:
            pieces.insert(k, draw.choice(TOKENS))
        else:
            j = draw.randrange(len(pieces))
            pieces[k], pieces[j] = pieces[j], pieces[k]
    return b"".join(pieces)


def configuration_file(draw, program):
    """A random configuration, and the bytes of its file."""
    conf = Configuration(draw, program)
    content = conf.text.encode()
    if draw.random() < 0.07:
        content = changed(draw, content)
    return conf, content


def axes_of(conf):
    """The axes of each hypothesis of a configuration."""
    try:
        items = configuration.parse(conf).items
    except tokens.ParseFault:
        return {}
    out = {}
    for i in items:
        if isinstance(i, Include) and not i.metrics:
            out.update((j.name, list(j.axes)) for j in shipped.shipped().items if isinstance(j, Hypothesis))
        elif isinstance(i, Hypothesis):
            out[i.name] = list(i.axes)
    return out


class Directives:
    """A random file of directives. A bold one also names what doesn't stand."""

    def __init__(self, draw, conf):
        self.draw, self.axes, self.bold = draw, axes_of(conf), draw.random() < 0.2
        lines = [self.one() for _ in range(draw.choice([0, 1, 1, 2, 3, 4, 6]))]
        between = draw.choice([b"\n", b" ", b"\n// x\n"])
        self.text = between.join(x for x in lines if x) + draw.choice([b"\n", b""])
        if draw.random() < 0.15 and self.text.strip():
            self.text = changed(draw, self.text)

    def one(self):
        draw, kind = self.draw, self.draw.random()
        if self.bold and draw.random() < 0.3:
            name = draw.choice([b"H0", b"CPUbound", b"nobody"])
        elif self.axes:
            name = draw.choice(sorted(self.axes))
        else:
            return b""
        if kind < 0.15:
            if not self.bold:
                del self.axes[name]
            return b"prune %s;" % name
        if kind < 0.35 and (self.bold or self.axes[name]):
            axis = draw.choice([b"Code", b"Machine", b"SyncObject", b"x"] if self.bold else self.axes[name])
            if not self.bold:
                self.axes[name].remove(axis)
            return b"prune %s axis %s;" % (name, axis)
        if kind < 0.7:
            return b"threshold %s %d;" % (name, draw.choice([0, 1, 5, 50, 200, 500, 1000, 3000, 2147483647]))
        return b"first %s;" % name
