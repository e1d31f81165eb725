"""The rows of `test_language` on numbers, tokens, configurations, foci, checks and plans."""
import re

from paradyn import assembly, checking, command_words, configuration, plans, resources, shipped, tokens
from paradyn.canonical import print_conf
from paradyn.image import Symbol
from paradyn.points import Point, Proc
from . import debug

MOST = 65536
# a small text of items that come with the program, in place of the shipped ones
SMALL = (b'sync lock_; metric calls { units "units"; base is counter { foreach func in $all '
         b"{ prepend entry (* calls++; *) } } }")
# procedures of three modules by turns, and objects
THREE = [(b"b.c", b"f", 0), (b"program", b"main", 4), (b"b.c", b"g", 8), (b"a.c", b"f", 12), (b"program", b"f", 16)]
MAIN = [(b"program", b"main", 0x10000)]
OBJECTS = [(b"lock_b", 0x20000), (b"count", 0x20008), (b"lock_a", 0x20010), (b"lock b", 0x20018), (b"lock_b", 0x20020),
           (b"queue", 0x20028), (b"que", 0x20030)]
# a procedure of two words that calls first and returns then
POINTS = [Point(0x10000, 0, True, False, False, True), Point(0x10004, 0, False, True, True, False)]


def bytes_of(text):
    """The bytes for which a text stands, in which `%` and two digits are a byte."""
    return re.sub(rb"%([0-9A-Fa-f]{2})", lambda m: bytes([int(m.group(1), 16)]), text.encode())[:MOST]


def shown(content):
    """The text that stands for bytes: those from 0x20 to 0x7E stand for themselves."""
    return "".join(chr(b) if 0x20 <= b <= 0x7E else "%%%02X" % b for b in content)


def procedures(table):
    return [Proc(name, module, at, 4) for module, name, at in table]


def three():
    objects = [Symbol(name, "object", at, 8, b"program") for name, at in OBJECTS]
    return resources.Tree(procedures(THREE), objects, 32, [b"lock_", b"queue"])


def one():
    return resources.Tree(procedures(MAIN), [], 2, [])


def tree_and_rest(rest):
    name, _, text = rest.partition(" ")
    return (one() if name == "one" else three()), text


def selected(tree, text):
    try:
        return tree.focus(bytes_of(text))
    except resources.FocusFault:
        return None


def number(rest):
    limit, _, text = rest.partition(" ")
    digits = bytes_of(text).decode("latin-1")
    found = command_words.number(digits, 0, int(limit))
    return [debug.option(found)]


def lines(rest):
    return ["[%s]" % shown(line) for line in assembly.split_lines(bytes_of(rest))]


def token_lines(rest):
    scanner, out = tokens.Scanner(bytes_of(rest)), []

    def next_text():
        try:
            t = scanner.next()
        except tokens.LexFault as f:
            return "Err(%s(%s))" % (debug.FAULTS[f.kind], debug.place(f.place, f.line, f.col))
        return "Ok(%s)" % debug.token(t)
    while not out or out[-1].startswith("Ok(Some"):
        out.append(next_text())
    again = next_text()
    return out + ["then %s at %s" % (again, debug.place(scanner.at, *scanner.place()))]


def with_configuration(text, answer):
    """What is printed of the configuration, or its fault."""
    try:
        conf = configuration.parse(bytes_of(text))
    except tokens.ParseFault as f:
        return ["Fault(ParseFault { line: %d, col: %d, kind: %s })" % (f.line, f.col, debug.FAULTS[f.kind])]
    return answer(conf)


def parsed(rest):
    return with_configuration(rest, lambda conf: ["%d items" % len(conf.items)])


def printed(rest):
    return with_configuration(rest, lambda conf: [shown(print_conf(conf))])


def ships(rest):
    text = print_conf(shipped.shipped())

    def spells(content):
        try:
            return print_conf(configuration.parse(content)) == text
        except tokens.ParseFault:
            return False
    return ["same %s again %s" % (debug.truth(spells(bytes_of(rest))), debug.truth(spells(text)))]


def focus(rest):
    tree, text = tree_and_rest(rest)
    try:
        f = tree.focus(bytes_of(text))
    except resources.Form as fault:
        return ["Err(Form(%d))" % fault.place, "selects nothing"]
    except resources.NoSuchNode as fault:
        return ["Err(NoSuchNode(%d))" % fault.part, "selects nothing"]
    selects = "selects %r %r %s" % (tree.procs_of(f), tree.harts(f), debug.option(tree.object_at(f)))
    return ["Ok(%s)" % debug.focus(f), selects]


def written(rest):
    tree, text = tree_and_rest(rest)
    f = selected(tree, text)
    if f is None:
        return ["no focus"]
    written_text = tree.focus_text(f)
    return [shown(written_text), "Ok(%s)" % debug.focus(tree.focus(written_text))]


def child(rest):
    tree, text = tree_and_rest(rest)
    axis, n, text = text.split(" ", 2)
    f = selected(tree, text)
    if f is None:
        return ["no focus"]
    c = tree.child(f, axis, int(n))
    return [debug.option(c and debug.focus(c))]


def names(rest):
    count = int(rest)
    tree = resources.Tree([Proc(b"f%d" % n, b"m%d" % (n % 7), n, 4) for n in range(count)], [], 1, [])
    found = 0
    for n in range(count):
        f = resources.Focus(("procedure", n))
        path = b"/Code/m%d/f%d" % (n % 7, n)
        found += tree.focus(path) == f and tree.child(resources.Focus(("module", n % 7)), "Code", n // 7) == f
    return ["%d found" % found]


def small():
    return configuration.parse(SMALL)


def checked_lines(conf):
    tree = one()

    def focus_of(text):
        try:
            return tree.focus(text)
        except resources.FocusFault:
            return None
    try:
        c = checking.check(conf, small(), focus_of)
    except checking.CheckFault as f:
        return ["Fault(CheckFault { line: %d, kind: %s })" % (f.line, debug.FAULTS[f.kind])]
    wish = "CheckedWish { at: %d, show: %s, metric: %d, focus: %s }"
    return ["metric %s line %d" % (shown(m.name), m.line) for m in c.metrics] + [
        wish % (w.at, debug.truth(w.show), w.metric, debug.focus(w.focus)) for w in c.wishes]


def check(rest):
    return with_configuration(rest, checked_lines)


def prefixes(rest):
    return with_configuration(rest, lambda conf: [shown(p) for p in shipped.prefixes(conf, small())])


def plan(rest):
    metric, _, number_ = rest.partition(" ")
    procs = procedures(MAIN)
    tree = resources.Tree(procs, [], 1, [])
    tree.object_at = lambda f: None if f.object is None else 0      # an object is asked for that the tree doesn't have
    checked = checking.check(configuration.parse(b"include metrics;"), shipped.shipped(), tree.focus)
    f = resources.Focus(("all",), None, int(number_) if number_ else None)
    try:
        p = plans.plan(checked, int(metric), f, plans.World(tree, procs, POINTS))
    except plans.PlanFault as fault:
        return ["Fault(%s)" % debug.cause(fault.cause)]
    return (["variable " + shown(v.name) for v in p.vars]
            + ["at %#x statements %d" % (at, len(stmts)) for at, stmts in p.sites]
            + ["open %#x length %d statements %d" % (start, length, len(stmts)) for start, length, stmts in p.opens])


CALLS = {"number": number, "lines": lines, "tokens": token_lines, "parse": parsed, "print": printed, "ships": ships,
         "focus": focus, "written": written, "child": child, "names": names, "check": check, "prefixes": prefixes,
         "plan": plan}


def answer(row):
    """The lines that are printed of a row, which is the first."""
    call, _, rest = row.partition(" ")
    return [row] + (CALLS[call](rest) if call in CALLS else ["no call"])
