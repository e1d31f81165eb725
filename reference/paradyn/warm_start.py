"""The values with which an instrument's variables begin: under a warm start as if the hart had passed the entries of
the procedures in which it is, by a walk along its frames."""
from .statement_code import MASK64

MOST_FRAMES = 64


def _frame(mem, fp):
    """The return address of the frame at fp and the next frame's place, or None."""
    a = [(fp - 16 + k) & MASK64 for k in range(16)]
    if any(mem.kind(x) != "data" for x in a):
        return None
    raw = bytes(mem.byte(x) for x in a)
    return int.from_bytes(raw[8:], "little"), int.from_bytes(raw[:8], "little")


def _range_of(opens, at):
    """The number of the range that holds an address, or None."""
    for n, (start, length, _) in enumerate(opens):
        if start <= at < start + length:
            return n
    return None


def _frame_calls(core, fp):
    """The calls of the frames from fp on."""
    out = []
    while len(out) < MOST_FRAMES:
        f = _frame(core.mem, fp)
        at = None if f is None else (f[0] - 4) & MASK64
        if at is None or not core.text_at <= at < core.text_end:
            break
        out.append(at)
        if not f[1] > fp:
            break
        fp = f[1]
    return out


def acting(core, opens, h):
    """The numbers of the ranges whose entries act, from the pc to the last frame."""
    regs, pc, out = core.regs[h], core.pc[h], []
    own = _range_of(opens, pc)
    if own is not None and pc > opens[own][0]:
        out.append(own)
    first = _frame(core.mem, regs[8])
    if first is None or first[0] != regs[1]:
        n = _range_of(opens, (regs[1] - 4) & MASK64)
        if n is not None and n != own:
            out.append(n)
    calls = [_range_of(opens, at) for at in _frame_calls(core, regs[8])]
    return out + [n for n in calls if n is not None]


def opening(core, placed, h):
    """The values of the variables at hart h. Without opens each is its initial value, and nothing is read."""
    values = [v.initially for v in placed.vars]
    if not placed.opens or core.stopped[h] is not None:
        return values
    for n in reversed(acting(core, placed.opens, h)):
        for conditions, action in placed.opens[n][2]:
            if any(c[0][0] == "arg" for c in conditions):
                continue
            if all(compare(values[c[0][1]], c[1], c[2]) for c in conditions):
                do_act(values, action)
    return values


def compare(a, cmp, b):
    return {"==": a == b, "!=": a != b, "<": a < b, "<=": a <= b, ">": a > b, ">=": a >= b}[cmp]


def do_act(values, act):
    k, v = act[0], act[1]
    if k in ("up", "start"):
        values[v] = (values[v] + 1) & MASK64
    elif k in ("down", "stop"):
        if values[v]:
            values[v] -= 1
    else:
        values[v] = act[2]
