"""Advice: what the verdicts of a report say for the next search."""
import re

REPORT_MOST = 33554432


class BadReport(Exception):
    """A report that can't be read: where its first bad line begins."""

    def __init__(self, place):
        super().__init__(place)
        self.place = place


NUM = rb"([0-9]{1,20})"
FIRST = re.compile(rb"paradyn report 1")
SECOND = re.compile(rb"harts " + NUM + rb" ticks " + NUM + rb" samples " + NUM + rb" skipped " + NUM)
OUTPUT = re.compile(rb"output " + NUM)
NODES = re.compile(rb"search nodes " + NUM + rb"( full)?")
NAME = rb"[A-Za-z_][A-Za-z0-9_.]*"
GOOD = rb"[!-+\--.0-:<-~]{1,200}"         # 0x21 to 0x7e without / , ;
NODE = re.compile(rb"node " + NUM + rb" phase " + NAME + rb" parent (none|[0-9]{1,20}) (" + NAME + rb") "
                  rb"/Code(?:/" + GOOD + rb"(?:/" + GOOD + rb")?)?,/Machine(?:/" + GOOD + rb")?,/SyncObject(?:/"
                  + GOOD + rb")? "
                  rb"(?:(true|false) value " + NUM + rb" ticks " + NUM + rb" from " + NUM + rb" to " + NUM
                  + rb"|barred [^\n]*|waiting seen " + NUM + rb" of " + NUM + rb")", re.S)


class Reader:
    """The lines of a report, one after another."""

    def __init__(self, data):
        self.data, self.at = data, 0

    def line(self):
        """The present line without its end, or None where it has none."""
        k = self.data.find(b"\n", self.at)
        return None if k < 0 else self.data[self.at:k]

    def take(self, form):
        """The match of the present line, which is left behind."""
        t = self.line()
        m = form.fullmatch(t) if t is not None else None
        if m is None or any(g is not None and g.isdigit() and int(g) >= 2 ** 64 for g in m.groups()):
            raise BadReport(self.at)
        self.at += len(t) + 1
        return m

    def take_beginning(self, *heads):
        """Whether the present line begins with one of these; it is left behind then."""
        t = self.line()
        if t is None or not t.startswith(heads):
            return False
        self.at += len(t) + 1
        return True

    def take_bytes(self, n):
        """Bytes with an LF behind them, which are one line."""
        if self.data[self.at + n:self.at + n + 1] != b"\n":
            raise BadReport(self.at)
        self.at += n + 1


def _verdict(reader):
    """The hypothesis, whether it is true, the value and the ticks of the next node; None where it has no verdict."""
    begin = reader.at
    x = reader.take(NODE)
    if x.group(4) is None:
        return None
    holds, value, ticks = x.group(4) == b"true", int(x.group(5)), int(x.group(6))
    if holds and ticks == 0:
        raise BadReport(begin)
    return x.group(3), holds, value, ticks


def read_verdicts(data):
    """The verdicts of a report, or BadReport."""
    if len(data) > REPORT_MOST:
        raise BadReport(REPORT_MOST)
    r = Reader(data)
    r.take(FIRST)
    for _ in range(int(r.take(SECOND).group(1))):
        if not r.take_beginning(b"hart "):
            raise BadReport(r.at)
    r.take_bytes(int(r.take(OUTPUT).group(1)))
    while r.take_beginning(b"refused ", b"histogram ", b"bin "):
        pass
    verdicts = []
    if r.at < len(data):
        verdicts = [_verdict(r) for _ in range(int(r.take(NODES).group(1)))]
    if r.at != len(data):
        raise BadReport(r.at)
    return [v for v in verdicts if v is not None]


def advise(verdicts):
    """The text of the directives."""
    order = []
    for v in verdicts:
        if v[0] not in order:
            order.append(v[0])
    prunes, thresholds, firsts = [], [], []
    for name in order:
        true = [(v[2], v[3]) for v in verdicts if v[0] == name and v[1]]
        if true:
            n = min(min(a * 1000 // b for a, b in true), 2147483647)
            thresholds.append(b"threshold %s %d;\n" % (name, n))
            firsts.append(b"first %s;\n" % name)
        else:
            prunes.append(b"prune %s;\n" % name)
    return b"".join(prunes + thresholds + firsts[::-1])
