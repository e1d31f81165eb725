"""Procedures, and the points at which a program can be instrumented."""
from dataclasses import dataclass

from .image import good_name
from .instructions import is_call, is_return


@dataclass
class Proc:
    """A procedure."""

    name: bytes
    module: bytes
    start: int
    len: int


@dataclass
class Point:
    """An address at which statements can stand, and what kinds of points it is."""

    at: int
    proc_no: int
    entry: bool
    after: bool
    ret: bool
    call: bool

    def kinds(self):
        """In their order: entry, after, return, call."""
        return [k for k, on in (("entry", self.entry), ("after", self.after),
                                ("return", self.ret), ("call", self.call))
                if on]


def procedures(image):
    funcs = [s for s in image.symbols if s.kind == "func"]
    funcs.sort(key=lambda s: s.at)              # stable: ties keep their order
    kept, names, skipped, last_end = [], set(), 0, 0
    for s in funcs:
        ok = (good_name(s.name)
              and s.at % 4 == 0
              and s.size > 0 and s.size % 4 == 0
              and image.text_at <= s.at and s.at + s.size <= image.text_end
              and s.at >= last_end              # kept ones ascend
              and (s.module, s.name) not in names)
        if ok:
            kept.append(Proc(s.name, s.module, s.at, s.size))
            names.add((s.module, s.name))
            last_end = s.at + s.size
        else:
            skipped += 1
    return kept, skipped


def points(image, procs):
    found = []
    for no, p in enumerate(procs):
        was_call = False                        # the call of the same procedure
        for at in range(p.start, p.start + p.len, 4):
            word = image.word(at)
            call = is_call(word)
            q = Point(at, no, at == p.start, was_call,
                      is_return(word, at, p.start, p.len), call)
            if q.entry or q.after or q.ret or q.call:
                found.append(q)
            was_call = call
    found.sort(key=lambda q: q.at)
    return found


def points_text(image):
    procs, skipped = procedures(image)
    pts = points(image, procs)
    lines = [b"points %d skipped %d\n" % (len(pts), skipped)]
    for q in pts:
        p = procs[q.proc_no]
        lines.append(b"0x%x %s/%s %s\n" % (q.at, p.module, p.name,
                                           " ".join(q.kinds()).encode()))
    return b"".join(lines)
