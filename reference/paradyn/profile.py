"""Profiles: for each word of the text a number, which follows from the counts of the blocks and from how the harts
ended; and the texts of a profile."""
from . import basic_blocks, disassembler
from .instructions import decode, is_call, jump_target
from .plain_machine import stop_text


class Start:
    """An address at which a block begins beside those that the program tells."""

    def __init__(self, at):
        self.start = at


def ends_block(word):
    i = decode(word)
    return i is None or i.op in ("jal", "jalr") or i.fmt == "B"


class Profile:
    """The numbers of a program's words along its run."""

    def __init__(self, program, w):
        self.image, self.procs = program.image, program.procs
        self.also = w["also"]
        starts = self.procs + [Start(a) for a in self.also]
        self.machine, self.blocks = basic_blocks.count(
            self.image, starts, w["harts"], w["budget"], w["seed"], w["quantum"])
        self.harts, self.budget = w["harts"], w["budget"]
        self.at, words = self.image.text_at, self.image.text_len // 4
        self.words = [self.image.word(self.at + 4 * k) for k in range(words)]
        self.ends = [(self.machine.stopped[h] is not None, self.machine.at(h)) for h in range(self.harts)]
        self.numbers = self.flow()
        self.ticks = self.machine.time()
        self.outside = sum(stopped and not self.has_word(pc) for stopped, pc in self.ends)
        self.untold = self.ticks - sum(self.numbers) - self.outside
        assert self.untold >= 0

    def has_word(self, a):
        return self.at <= a < self.at + 4 * len(self.words) and a % 4 == 0

    def flow(self):
        """What flows from word to word: all that don't stop at one, or wait at the next."""
        counts = {at: c for at, _, c in self.blocks}
        numbers, flow = [], 0
        for k, word in enumerate(self.words):
            a = self.at + 4 * k
            stopped = sum(s and pc == a for s, pc in self.ends)
            waiting = sum(not s and pc == a + 4 for s, pc in self.ends)
            count = counts.get(a)
            n = max(flow, stopped) if count is None else count
            numbers.append(n)
            flow = 0 if ends_block(word) else max(0, n - stopped - waiting)
        return numbers

    def number(self, a):
        return self.numbers[(a - self.at) // 4]

    def between(self, first, end):
        """The ticks at words of a range."""
        return sum(self.numbers[(first - self.at) // 4:(end - self.at) // 4])

    def owner(self, a):
        return next((p for p in self.procs if p.start <= a < p.start + p.len), None)

    def places(self, p=None):
        """The addresses of a procedure's words, or of those that none has."""
        if p is not None:
            return range(p.start, p.start + p.len, 4)
        return [self.at + 4 * k for k in range(len(self.words)) if self.owner(self.at + 4 * k) is None]

    def rows(self):
        """The procedures with their ticks, by descending ticks, ties by address."""
        return sorted(((p, self.between(p.start, p.start + p.len)) for p in self.procs), key=lambda r: -r[1])

    def rest(self):
        return sum(self.number(a) for a in self.places())

    def instruction(self, a):
        return disassembler.text(a, self.words[(a - self.at) // 4])


def path(p):
    return p.module + b"/" + p.name


# ---- lines

def procedure_line(r, p, ticks):
    return b"procedure %s at 0x%x words %d entered %d ticks %d\n" % (
        path(p), p.start, p.len // 4, r.number(p.start), ticks)


def call_lines(r):
    for k, word in enumerate(r.words):
        a, n = r.at + 4 * k, r.numbers[k]
        target = jump_target(word, a) if is_call(word) else None
        if n and target is not None:
            p, q = r.owner(a), next((q for q in r.procs if q.start == target), None)
            yield b"call %s 0x%x %s %d\n" % (path(p) if p else b"-", a, path(q) if q else b"0x%x" % target, n)


def loop_lines(r):
    for k, word in enumerate(r.words):
        b, n = r.at + 4 * k, r.numbers[k]
        a = None if is_call(word) else jump_target(word, b)
        p = r.owner(b)
        if a is None or p is None or not n or a > b or a % 4 or not p.start <= a < p.start + p.len:
            continue
        yield b"loop %s 0x%x to 0x%x first %d last %d ticks %d\n" % (path(p), a, b, r.number(a), n, r.between(a, b + 4))


def hart_lines(r):
    m = r.machine
    for h in range(r.harts):
        c = m.stopped[h]
        stop = stop_text(c) if c is not None else "budget" if m.tick[h] >= r.budget else "cut"
        yield b"hart %d ticks %d %s at 0x%x\n" % (h, m.tick[h], stop.encode(), m.at(h))


def lines(r, has_words):
    out = b"profile harts %d ticks %d untold %d outside %d\n" % (r.harts, r.ticks, r.untold, r.outside)
    out += b"".join(hart_lines(r))
    out += b"".join(procedure_line(r, p, t) for p, t in r.rows())
    out += b"rest words %d ticks %d\n" % (len(r.places()), r.rest())
    out += b"".join(call_lines(r)) + b"".join(loop_lines(r))
    if has_words:
        for places in [r.places(p) for p, _ in r.rows()] + [r.places()]:
            out += b"".join(b"word 0x%x %d %s\n" % (a, r.number(a), r.instruction(a)) for a in places)
    return out


# ---- a table

def share(n, every):
    mille = n * 1000 // every if every else 0
    return b"%d.%d%%" % (mille // 10, mille % 10)


def columns(a, b, c, name):
    return a.rjust(7) + b.rjust(12) + c.rjust(12) + b"  " + name + b"\n"


def table(r, top):
    harts = b"1 hart" if r.harts == 1 else b"%d harts" % r.harts
    told = b"all told: each number is exact" if not r.untold else (
        b"%d untold: each number is that or more, together at most %d more" % (r.untold, r.untold))
    out = b"ticks %d on %s, %s\n" % (r.ticks, harts, told) + columns(b"share", b"ticks", b"entered", b"procedure")
    rows = r.rows()
    for p, t in rows[:top]:
        out += columns(share(t, r.ticks), b"%d" % t, b"%d" % r.number(p.start), path(p))
    more = [t for _, t in rows[top:]]
    if more:
        name = b"and %d more procedure%s" % (len(more), b"" if len(more) == 1 else b"s")
        out += columns(share(sum(more), r.ticks), b"%d" % sum(more), b"", name)
    for n, name in ((r.rest(), b"in no procedure"), (r.outside, b"outside of the text"), (r.untold, b"untold")):
        if n:
            out += columns(share(n, r.ticks), b"%d" % n, b"", name)
    return out


# ---- callgrind

def costs(r, file, name, places):
    some = [a for a in places if r.number(a)]
    if not some:
        return b""
    return b"fl=%s\nfn=%s\n" % (file, name) + b"".join(b"0x%x %d\n" % (a, r.number(a)) for a in some) + b"\n"


def callgrind(r):
    out = (b"# callgrind format\nversion: 1\ncreator: paradyn\ncmd: program\npositions: instr\nevents: Ticks\n"
           b"summary: %d\n\n" % r.ticks)
    for p in r.procs:
        out += costs(r, p.module, p.name, r.places(p))
    return out + costs(r, b"???", b"???", r.places())


# ---- instructions with their numbers

def annotated_procedure(r, p, ticks):
    heads = {at for at, _, _ in r.blocks}
    out = procedure_line(r, p, ticks)
    for a in r.places(p):
        n = r.number(a)
        target = jump_target(r.words[(a - r.at) // 4], a)
        q = next((q for q in r.procs if q.start == target), None)
        out += (b"\n" if a in heads else b"") + number_columns(r, n) + b"0x%x  " % a + r.instruction(a)
        out += (b"  # " + path(q) if q else b"") + b"\n"
    return out


def is_named(p, name):
    return name in (p.name, path(p))


def number_columns(r, n):
    mark = b" * " if n and n * 20 >= r.ticks else b"   "
    return (b"%d" % n).rjust(12) + share(n, r.ticks).rjust(8) + mark


def sourced_procedure(r, p, ticks, table):
    """A procedure by its lines of source, words without one last."""
    sums = {}
    for a in r.places(p):
        source = table.source_at(a)
        sums[source] = sums.get(source, 0) + r.number(a)
    out = procedure_line(r, p, ticks) + b"\n"
    for source in sorted(sums, key=lambda s: (s is None, s)):
        out += number_columns(r, sums[source]) + (b"?" if source is None else table.source_text(source)) + b"\n"
    return out


def annotated(r, name, table):
    """The procedures, or those of a name: their words, or their lines of source where there is a table of these."""
    rows = [(p, t) for p, t in r.rows() if name is None or is_named(p, name)]
    if table is not None:
        return b"\n".join(sourced_procedure(r, p, t, table) for p, t in rows)
    return b"\n".join(annotated_procedure(r, p, t) for p, t in rows)
