"""What differs between two reports, or between two profiles that are taken as reports."""
from .show import ALL, counted, percent, short, signed, text_of


def row(old, new, difference, share, label):
    return f" {old:>15} {new:>15} {difference:>15} {share:>8}  {label}\n"


def heading(label):
    return row("old", "new", "difference", "percent", label)


def sign(n):
    return "+" if n > 0 else "-" if n < 0 else ""


def change(old, new, label, difference):
    """A row on two numbers and their difference."""
    share = "-" if old == 0 else sign(difference) + percent(abs(difference), abs(old))
    return row(old, new, sign(difference) + str(abs(difference)), share, label)


def run(a, b):
    old, new = a["harts"], b["harts"]
    rows = "".join(change(x[0], y[0], f"hart {n}", y[0] - x[0]) for n, (x, y) in enumerate(zip(old, new)) if x[0] != y[0])
    sums = [sum(h[0] for h in harts) for harts in (old, new)]
    out = ""
    if rows or sums[0] != sums[1]:
        out += heading("ticks") + change(*sums, "all harts", sums[1] - sums[0])
        if max(len(old), len(new)) > 1:
            out += rows
    out += "".join(f"hart {n}: {x[1]} -> {y[1]}\n" for n, (x, y) in enumerate(zip(old, new)) if x[1] != y[1])
    for name, mine, other in ("OLD", old, new), ("NEW", new, old):
        out += "".join(f"only in {name}: hart {n}, {h[0]} ticks, {h[1]}\n" for n, h in list(enumerate(mine))[len(other):])
    return out


def output(a, b):
    old, new = a["output"], b["output"]
    if old == new:
        return ""
    same = next((k for k, (x, y) in enumerate(zip(old, new)) if x != y), min(len(old), len(new)))
    return f"output: {counted(len(old), 'byte')} -> {counted(len(new), 'byte')}, different behind {counted(same, 'byte')}\n"


def by_name(things, name):
    """The things by their names; of equal names the first counts."""
    out = {}
    for thing in things:
        out.setdefault(name(thing), thing)
    return out


def label(name, focus):
    return text_of(name) + ", " + short(focus)


def section(old, new, name, line, lone, same):
    """Lines on the things of a name that stand in both, how many are the same, and what `lone` says of the others."""
    old, new = by_name(old, name), by_name(new, name)
    lines = [line(x, new[key]) for key, x in old.items() if key in new]
    alone = [lone(where, [x for key, x in mine.items() if key not in other]) for where, mine, other in (("OLD", old, new), ("NEW", new, old))]
    changes, equal = [x for x in lines if x], sum(not x for x in lines)
    if not changes and not any(alone):
        return ""
    return "".join(changes), f"{same(equal)}\n" if equal else "", "".join(alone)


def total(shown):
    return signed(sum(b[2] for b in shown["bins"]) % ALL)


def histograms(a, b):
    def line(x, y):
        old, new = total(x), total(y)
        difference = signed((new - old) % ALL)
        return "" if old == new else change(old, new, label(x["metric"], x["focus"]), difference)

    def lone(where, shown):
        return "".join(f"only in {where}: {label(s['metric'], s['focus'])}\n" for s in shown)
    parts = section(a["shown"], b["shown"], lambda s: (s["metric"], s["focus"]), line, lone, lambda n: "same sum: " + counted(n, "pair"))
    return parts and (heading("metric, focus") if parts[0] else "") + "".join(parts)


def wishes(a, b):
    def key(line):
        return tuple(line.split(b" ")[1:4])
    old, new = by_name(a["refused"], key), by_name(b["refused"], key)
    out = ""
    for where, mine, other in ("OLD", old, new), ("NEW", new, old):
        out += "".join(f"only in {where}: refused {k[0].decode()} {label(k[1], k[2])}\n" for k in mine if k not in other)
    return out


def nodes(a, b):
    def name(n):
        return f"{text_of(n['phase'])} {label(n['hypothesis'], n['focus'])}"

    def line(x, y):
        return "" if x["state"] == y["state"] else f"{x['state']} -> {y['state']}: {name(x)}\n"

    def lone(where, found):
        out = f"only in {where}: {counted(len(found), 'node')}\n" if found else ""
        return out + "".join(f"only in {where}: true {name(n)}\n" for n in found if n["state"] == "true")
    old, new = ([] if r["search"] is None else r["search"]["nodes"] for r in (a, b))
    return "".join(section(old, new, lambda n: (n["phase"], n["hypothesis"], n["focus"]), line, lone, lambda n: "same state: " + counted(n, "node")))


def diff(old, new):
    text = run(old, new) + output(old, new) + histograms(old, new) + wishes(old, new) + nodes(old, new)
    return (text or "nothing differs\n").encode("latin-1")
