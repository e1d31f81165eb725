"""A report as a table of comma-separated values. Cells are bytes, since a name may be any."""
from .report_json import whole

COLUMNS = ["record", "number", "name", "focus", "units", "phase", "parent", "state", "samples", "from", "to", "value", "ticks", "pc", "text"]


def cell(value):
    text = b"" if value is None else value.encode("latin-1") if isinstance(value, str) else b"%d" % value
    return b'"' + text.replace(b'"', b'""') + b'"' if any(c in b',"\r\n' for c in text) else text


def line(**cells):
    assert set(cells) <= set(COLUMNS)
    return b",".join(cell(cells.get(name)) for name in COLUMNS) + b"\n"


def search_lines(s):
    out = line(record="search", state="full" if s["full"] else None, samples=s["window"])
    for k, n in enumerate(s["nodes"]):
        out += line(record="node", number=k, name=n["hypothesis"], samples=n["seen"], text=n["cause"],
                    **{key: n[key] for key in ("focus", "phase", "parent", "state", "from", "to", "value", "ticks")})
    return out


def text(report):
    r = whole(report)
    out = ",".join(COLUMNS).encode() + b"\n" + line(record="format", number=1, name="paradyn report")
    out += line(record="skipped", value=r["skipped"]) + line(record="samples", samples=r["samples"])
    for k, h in enumerate(r["harts"]):
        out += line(record="hart", number=k, state=h["stop"], value=h["code"], ticks=h["ticks"], pc=h["pc"])
    out += line(record="output", text=r["output"])
    for k, w in enumerate(r["refused"]):
        out += line(record="refused", number=k, name=w["metric"], focus=w["focus"], state=w["wish"], text=w["cause"], **{"from": w["at"]})
    for k, s in enumerate(r["shown"]):
        out += line(record="shown", number=k, name=s["metric"], focus=s["focus"], units=s["units"], samples=s["width"], **{"from": s["from"]})
        for i, b in enumerate(s["bins"]):
            out += line(record="bin", number=i, parent=k, **b)
    return out + (search_lines(r["search"]) if r["search"] else b"")
