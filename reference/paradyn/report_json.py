"""A report as JSON."""
import json
import re

from .show import signed, text_of


def number(text):
    return int(text, 0) if text else None


def hart(h):
    ticks, stop, pc = h
    code = re.search(r"(?<= )(0x)?[0-9a-f]+$", stop)
    return {"ticks": ticks, "stop": stop, "code": number(code and code[0]), "pc": number(pc)}


def refused(line):
    _, wish, metric, focus, _, rest = line.split(b" ", 5)
    at, cause = rest.split(b": ", 1)
    return {"wish": wish.decode(), "metric": text_of(metric), "focus": text_of(focus), "at": int(at), "cause": cause.decode()}


def shown(s):
    return {"metric": text_of(s["metric"]), "focus": text_of(s["focus"]), "units": text_of(s["units"]),
            "from": None if s["from"] == b"none" else int(s["from"]), "width": s["width"],
            "bins": [{"from": a, "to": b, "value": signed(v)} for a, b, v in s["bins"]]}


def node(n):
    out = {"phase": text_of(n["phase"]), "parent": n["parent"], "hypothesis": text_of(n["hypothesis"]), "focus": text_of(n["focus"]),
           "state": n["state"], "seen": n.get("seen")}
    out.update({name: n.get(key) for name, key in (("value", "value"), ("ticks", "ticks"), ("from", "begin"), ("to", "end"), ("cause", "cause"))})
    return out


def search(s):
    return s and {"full": s["full"], "window": s["window"] or 0, "nodes": [node(n) for n in s["nodes"]]}


def whole(report):
    return {"format": "paradyn report 1", "skipped": report["skipped"], "samples": report["samples"],
            "harts": [hart(h) for h in report["harts"]], "output": text_of(report["output"]),
            "refused": [refused(line) for line in report["refused"]], "shown": [shown(s) for s in report["shown"]],
            "search": search(report["search"])}


def text(report):
    return (json.dumps(whole(report), separators=(",", ":"), ensure_ascii=False) + "\n").encode()
