"""Reading a report: each line as it is printed, and nothing else."""
import re

from .advice import BadReport, REPORT_MOST

NODES_MOST = 4096
N64 = 2 ** 64
NUM = r"(0|[1-9][0-9]{0,19})"
HEX = r"0x(0|[1-9a-f][0-9a-f]{0,15})"
WORD = rb"[^ \n]*"
STOP = rf"(?:exit {NUM}|illegal|break|misaligned|access {HEX}|text-access {HEX}|fetch-outside|budget|cut)"
BAR = (rf"(?:no constraint for (?:Code|Machine|SyncObject)|too many sites {NUM}|too many statements at {HEX}|over cost {NUM}"
       rf"|no slot for {NUM}|no room for {NUM} words|unmovable at {HEX})")
CAUSE = rf"(?:{BAR}|too many instruments|already shown|not shown)"
SHORT = ("too many sites ", "no slot for ", "no room for ")


def form(text):
    """A form of lines: N a number, W a word, and what else stands in it."""
    text = text.replace("STOP", f"({STOP})").replace("CAUSE", f"({CAUSE})").replace("BAR", f"({BAR})")
    return re.compile(re.sub(rb"\bW\b", b"(" + WORD.replace(b"\\", b"\\\\") + b")", re.sub(r"\bN\b", NUM, re.sub(r"\bX\b", HEX, text)).encode()), re.S)


SECOND = form("harts N ticks N samples N skipped N")
HART = form("hart N ticks N STOP at X")
LENGTH = form("output N")
REFUSED = form("refused (show|drop) W W at N: CAUSE")
HISTOGRAM = form(r"histogram W W units ([^\n]*) from (none|0|[1-9][0-9]{0,19}) bins N width N")
BIN = form("bin N from N to N value N")
SEARCH = form("search nodes N( full)?")
NODE = form("node N phase W parent (none|0|[1-9][0-9]{0,9}) W W "
            "(?:(true|false) value N ticks N from N to N|barred BAR|waiting seen N of N)")


def is_small(cause):
    """Whether the numbers of a cause have as many bits as there may be."""
    if cause is None:
        return True
    text = cause.decode()
    n = re.search(r"0x([0-9a-f]+)|([0-9]+)", text)
    if n is None:
        return True
    value = int(n[1], 16) if n[1] else int(n[2])
    return value < (2 ** 32 if text.startswith(SHORT) else N64)


class Reader:
    """The lines of a report."""

    def __init__(self, data):
        self.data, self.at = data, 0

    def fault(self):
        raise BadReport(self.at)

    def line(self):
        k = self.data.find(b"\n", self.at)
        if k < 0:
            self.fault()
        return self.data[self.at:k]

    def take(self, form):
        """The groups of the present line, which must have the form."""
        m = form.fullmatch(self.line())
        if m is None:
            self.fault()
        return m

    def done(self, line):
        self.at += len(line) + 1


def below(reader, limit, *numbers):
    if any(int(n) >= limit for n in numbers):
        reader.fault()


def read_hart(r, number, harts):
    m = r.take(HART)
    below(r, N64, m[2])
    stop = m[3].decode()
    if int(m[1]) != number or (stop.startswith("exit") and int(stop[5:]) > 255):
        r.fault()
    harts.append((int(m[2]), stop, m[0].split(b" ")[-1].decode()))
    r.done(m[0])


def read_bins(r, count):
    bins = []
    for k in range(count):
        m = r.take(BIN)
        below(r, N64, *m.groups())
        if int(m[1]) != k:
            r.fault()
        bins.append(tuple(int(x) for x in m.groups()[1:]))
        r.done(m[0])
    return bins


def read_node(r, number, window):
    m = r.take(NODE)
    phase, parent, hypothesis, focus, verdict = m[2], m[3], m[4], m[5], m[6]
    node = {"phase": phase, "parent": None if parent == b"none" else int(parent), "hypothesis": hypothesis, "focus": focus}
    if int(m[1]) != number or (node["parent"] or 0) >= 2 ** 32:
        r.fault()
    if verdict:
        sums = [int(x) for x in m.groups()[6:10]]
        below(r, N64, *sums)
        node.update(state=verdict.decode(), value=sums[0], ticks=sums[1], begin=sums[2], end=sums[3])
    elif m[11]:
        if not is_small(m[11]):
            r.fault()
        node.update(state="barred", cause=m[11].decode())
    else:
        seen, of = m.groups()[-2:]
        below(r, 2 ** 32, seen, of)
        node.update(state="waiting", seen=int(seen))
        if window is None:
            window = int(of)
        if int(of) != window:
            r.fault()
    r.done(m[0])
    return node, window


def read_report(data):
    """What a report says, or BadReport."""
    if len(data) > REPORT_MOST:
        raise BadReport(REPORT_MOST)
    r = Reader(data)
    title = r.line()
    if title != b"paradyn report 1":
        r.fault()
    r.done(title)
    m = r.take(SECOND)
    count, ticks, samples, skipped = (int(x) for x in m.groups())
    below(r, N64, ticks, samples)
    if count > 32 or skipped >= 2 ** 32:
        r.fault()
    second = r.at
    r.done(m[0])
    harts = []
    for n in range(count):
        read_hart(r, n, harts)
    m = r.take(LENGTH)
    below(r, N64, m[1])
    length = int(m[1])
    r.done(m[0])
    if data[r.at + length:r.at + length + 1] != b"\n":
        r.fault()
    output = data[r.at:r.at + length]
    r.at += length + 1
    refused, shown, search = [], [], None
    while r.at < len(data):
        line = r.line()
        if line.startswith(b"refused ") and shown:
            r.fault()
        if line.startswith(b"refused "):
            m = r.take(REFUSED)
            below(r, N64, m[4])
            if not is_small(m[5]):
                r.fault()
            refused.append(line)
            r.done(line)
        elif line.startswith(b"histogram "):
            m = r.take(HISTOGRAM)
            below(r, N64, m[5], m[6], *([] if m[4] == b"none" else [m[4]]))
            r.done(line)
            shown.append({"metric": m[1], "focus": m[2], "units": m[3], "from": m[4], "width": int(m[6]),
                          "bins": read_bins(r, int(m[5]))})
        else:
            m = r.take(SEARCH)
            if int(m[1]) > NODES_MOST:
                r.fault()
            r.done(line)
            nodes, window = [], None
            for n in range(int(m[1])):
                node, window = read_node(r, n, window)
                nodes.append(node)
            search = {"full": m[2] is not None, "window": window, "nodes": nodes}
            if r.at < len(data):
                r.fault()
    if sum(h[0] for h in harts) != ticks:
        raise BadReport(second)
    return {"harts": harts, "samples": samples, "skipped": skipped, "output": output, "refused": refused, "shown": shown,
            "search": search}
