"""A report as a person looks at it in a terminal."""
HALF, ALL = 2 ** 63, 2 ** 64
SIGNS = " .:;=+*#@"
OUTPUT_MOST = 1000
ENDS = {
    "illegal": "what stands there is no instruction",
    "break": "an ebreak stands there",
    "misaligned": "an address wasn't aligned",
    "access": "it touched memory that isn't there",
    "text-access": "it touched the program's own text",
    "fetch-outside": "it left the program's text",
    "budget": "its budget was spent",
    "cut": "the run was cut off",
}
CAUSES = [
    ("no constraint", "the metric can't be confined so"),
    ("too many sites", "too many places to instrument"),
    ("too many statements", "too many statements at one place"),
    ("over cost", "the cost alone is above the limit"),
    ("no slot", "no room for variables"),
    ("no room", "no room for instruments"),
    ("unmovable", "a word there can't be moved"),
]


def signed(v):
    return v if v < HALF else v - ALL


def quotient(v, n):
    return f"-{(ALL - v) // n}" if v >= HALF else str(v // n)


def counted(n, one):
    return f"{n} {one}" if n == 1 else f"{n} {one}s"


def short(focus):
    parts = [p for p in focus.decode("latin-1").split(",") if "/" in p[1:]]
    return ",".join(parts) or "the whole program"


def folded_bins(room, bins):
    """The bins in as many as have room, and how many each joins: two, four, and so on."""
    w = 1
    while w * room < len(bins):
        w *= 2
    parts = [bins[k:k + w] for k in range(0, len(bins), w)]
    return w, [(p[0][0], p[-1][1], sum(b[2] for b in p) % ALL) for p in parts]


def folded(room, bins):
    return [b[2] for b in folded_bins(room, bins)[1]]


def bars(style, room, bins):
    values = folded(room, bins)
    most = max([signed(v) for v in values if v < HALF], default=0)
    out = ""
    for v in values:
        n = v * 8 // most if most and v < HALF else 0
        out += "-" if v >= HALF else SIGNS[n] if style == "ascii" else " " if n == 0 else chr(0x2580 + n)
    return out


def run(report):
    harts = report["harts"]
    out = f"ticks {sum(h[0] for h in harts)} on {counted(len(harts), 'hart')}, {counted(report['samples'], 'sample')}\n"
    for n, (ticks, stop, at) in enumerate(harts):
        word = stop.split()[0]
        why = ENDS.get(word, "" if stop == "exit 0" else "it ended itself, and told that something failed")
        out += f"  hart {n}{ticks:>14} ticks, {stop} at {at}{': ' + why if why else ''}\n"
    output = report["output"]
    if not output:
        return out + "no output\n"
    text = "".join("\n  | " if b == 10 else chr(b) if 32 <= b <= 126 else "." for b in output[:OUTPUT_MOST].removesuffix(b"\n"))
    out += f"output {counted(len(output), 'byte')}\n  | {text}\n"
    if len(output) > OUTPUT_MOST:
        out += f"  and {len(output) - OUTPUT_MOST} bytes more\n"
    return out


def text_of(raw):
    return raw.decode("latin-1")


def single(style, columns, s):
    out = f"\n{text_of(s['metric'])} in {text_of(s['units'])}, {short(s['focus'])}\n"
    bins = s["bins"]
    if not bins:
        return out + "  its instrument was never armed\n"
    values = [b[2] for b in bins]
    total = sum(values) % ALL
    return (out + f"  |{bars(style, max(1, columns - 4), bins)}|\n"
            f"  {counted(len(bins), 'bin')} of {counted(s['width'], 'sample')} from {bins[0][0]} to {bins[-1][1]}\n"
            f"  sum {quotient(total, 1)}, least {min(map(signed, values))}, mean {quotient(total, len(bins))},"
            f" greatest {max(map(signed, values))}\n")


def table(style, group):
    s = group[0]
    out = f"\n{text_of(s['metric'])} in {text_of(s['units'])}\n{'sum':>16}{'greatest bin':>16}\n"
    for s in group:
        values = [b[2] for b in s["bins"]]
        most = max(map(signed, values), default=0)
        picture = f"|{bars(style, 16, s['bins'])}|" if values else "never armed"
        out += f"{quotient(sum(values) % ALL, 1):>16}{most:>16}  {picture}  {short(s['focus'])}\n"
    return out


def histograms(style, columns, report):
    out = "".join(text_of(line) + "\n" for line in report["refused"])
    seen = []
    for s in report["shown"]:
        if s["metric"] in seen:
            continue
        seen.append(s["metric"])
        group = [t for t in report["shown"] if t["metric"] == s["metric"]]
        out += single(style, columns, s) if len(group) == 1 else table(style, group)
    return out


def tree(nodes):
    """The true nodes with their depths, each below the node that it refines."""
    rows = []
    for number, node in enumerate(nodes):
        if node["state"] != "true":
            continue
        place = next((k for k, (n, _) in enumerate(rows) if n == node["parent"]), None)
        if place is None:
            rows.append((number, 0))
            continue
        depth = rows[place][1]
        end = place + 1
        while end < len(rows) and rows[end][1] > depth:
            end += 1
        rows.insert(end, (number, depth + 1))
    return rows


def percent(value, ticks):
    mille = value * 1000 // ticks if ticks else 0
    return f"{mille // 10}.{mille % 10}%"


def tree_line(node, depth):
    name = text_of(node["hypothesis"]) + ", " if depth == 0 else ""
    return (f"{percent(node['value'], node['ticks']):>9}  {'  ' * depth}{name}{short(node['focus'])}"
            f" ({node['begin']} to {node['end']})\n")


def causes(nodes, rows):
    """What was true at all harts, where nothing that refines it was: the deepest first."""
    at_all = {k for k, n in enumerate(nodes)
              if n["state"] == "true" and not any(p.startswith(b"/Machine/") for p in n["focus"].split(b","))}
    refined = {nodes[k]["parent"] for k in at_all}
    found = [(k, depth) for k, depth in rows if k in at_all and k not in refined]
    found.sort(key=lambda row: -row[1])
    head = "causes at all harts, the deepest first\n" if found else ""
    return head + "".join(tree_line(nodes[k], 0) for k, _ in found)


def search(s):
    nodes = s["nodes"]
    out = f"\nsearch of {counted(len(nodes), 'node')}\n"

    def line(count, what):
        return f"  {counted(count, 'node')} {what}\n" if count else ""

    def of(state):
        return [n for n in nodes if n["state"] == state]

    out += line(len(of("true")), "true") + line(len(of("false")), "false")
    for head, why in CAUSES:
        out += line(sum(n["cause"].startswith(head) for n in of("barred")), "not tested: " + why)
    waiting = len(of("waiting"))
    out += line(waiting, "not tested to the end")
    if waiting and waiting * 4 >= len(nodes):
        out += "  a smaller --width or window, a greater cost, or a longer run lets more of them end\n"
    if s["full"]:
        out += "  there was no room for more nodes\n"
    rows = tree(nodes)
    out += causes(nodes, rows)
    phase = None
    for number, depth in rows:
        n = nodes[number]
        if depth == 0:
            if n["phase"] != phase:
                phase = n["phase"]
                out += f"phase {text_of(phase)}\n"
        out += tree_line(n, depth)
    return out


def show(report, columns=80, style="blocks"):
    text = run(report) + histograms(style, columns, report)
    if report["search"] is not None:
        text += search(report["search"])
    return b"".join(c.encode("latin-1") if ord(c) < 256 else c.encode() for c in text)
