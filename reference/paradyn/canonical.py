"""The canonical text of a configuration."""
from .configuration import METRIC, Constraint, Hypothesis, Include, Metric, PhaseDecl, SearchDecl, SyncDecl


def _var(v):
    return b"$metric" if v is METRIC else v


def statement_text(conds, act, var=_var):
    """The text of a statement; var gives the text of a variable."""
    out = b""
    for c in conds:
        left = b"$arg[%d]" % c.left[1] if c.left[0] == "arg" else var(c.left[1])
        right = b"$value" if c.right[0] == "value" else b"%d" % c.right[1]
        out += b"if (" + left + b" " + c.cmp.encode() + b" " + right + b") "
    k = act[0]
    if k == "up":
        return out + var(act[1]) + b"++;"
    if k == "down":
        return out + var(act[1]) + b"--;"
    if k == "put":
        return out + var(act[1]) + b" = %d;" % act[2]
    return out + k.encode() + b"(" + var(act[1]) + b");"


def _print_blocks(blocks, level, lines):
    ind = b"  " * level
    for b in blocks:
        if b.set == "focus":
            s = b"$focus"
        elif b.set == "all":
            s = b"$all"
        else:
            s = b"[" + b", ".join(b.set) + b"]"
        lines.append(ind + b"foreach func in " + s + b" {")
        for i in b.insertions:
            st = b" ".join([statement_text(x.conds, x.act) for x in i.stmts])
            lines.append(ind + b"  " + (b"prepend " if i.prepend else b"append ") + i.kind.encode()
                         + (b" constrained" if i.constrained else b"") + b" (* " + (st + b" " if st else b"") + b"*)")
        lines.append(ind + b"}")


def _initially(item):
    return b" initially %d" % item.initially if item.initially is not None else b""


def _metric_lines(i):
    lines = [b"metric " + i.name + b" {", b'  units "' + i.units + b'";']
    lines += [b"  constraint " + c + b";" for c in i.constraints]
    lines.append(b"  base is " + (b"timer" if i.timer else b"counter") + _initially(i) + b" {")
    _print_blocks(i.blocks, 2, lines)
    return lines + [b"  }", b"}"]


def _constraint_lines(i):
    kind = b"replace" if i.replace else b"counter"
    lines = [b"constraint " + i.name + b" " + i.path + b" is " + kind + _initially(i) + b" {"]
    _print_blocks(i.blocks, 1, lines)
    return lines + [b"}"]


def _hypothesis_lines(i):
    lines = [b"hypothesis " + i.name + b" {"]
    if i.parent is not None:
        lines.append(b"  parent " + i.parent + b";")
    lines += [b"  metric " + i.metric + b";", b"  threshold %d;" % i.threshold]
    if i.axes:
        lines.append(b"  axes " + b", ".join(i.axes) + b";")
    return lines + [b"}"]


def _item_lines(i):
    if isinstance(i, Include):
        return [b"include " + (b"metrics;" if i.metrics else b"hypotheses;")]
    if isinstance(i, SyncDecl):
        return [b"sync " + i.name + b";"]
    if isinstance(i, Metric):
        return _metric_lines(i)
    if isinstance(i, Constraint):
        return _constraint_lines(i)
    if isinstance(i, Hypothesis):
        return _hypothesis_lines(i)
    if isinstance(i, SearchDecl):
        return [b"search {", b"  window %d;" % i.window, b"  cost %d;" % i.cost, b"  observed %d;" % i.observed, b"}"]
    if isinstance(i, PhaseDecl):
        return [b"phase " + i.name + b" at %d;" % i.at]
    return [b"at %d " % i.at + (b"show " if i.show else b"drop ") + i.metric + b" " + i.focus + b";"]


def print_conf(conf):
    """The canonical text."""
    return b"".join(x + b"\n" for i in conf.items for x in _item_lines(i))


def but_for_lines(x):
    """The same as nested tuples, without the lines."""
    if isinstance(x, (list, tuple)):
        return tuple(but_for_lines(y) for y in x)
    if hasattr(x, "fields"):
        return (type(x).__name__,) + tuple(but_for_lines(getattr(x, f)) for f in x.fields if f != "line")
    return x
