"""A report as a picture in SVG, and as a page in HTML. Texts are bytes here, since a name may be any."""
from .show import ALL, folded_bins, percent, quotient, short, signed, tree

ENTITIES = {38: b"&amp;", 60: b"&lt;", 62: b"&gt;", 34: b"&quot;"}
STEPS_MOST = 512
NAME_MOST = 90
MARK_STEPS = [m * 10 ** k for k in range(19) for m in (1, 2, 5)]
STYLE = b"""body{max-width:1100px;margin:0 auto;padding:0 1em;font:14px/1.5 monospace;color:#222;background:#fff}
h3{margin:1em 0 0}
p{margin:0 0 0 2em}
details{margin-left:1em}
p,summary{overflow-wrap:anywhere}
table{border-collapse:collapse;max-width:100%}
th,td{padding:0 1em 0 0;text-align:left}
div{max-width:100%;overflow-x:auto}
svg{display:block;width:100%;min-width:800px}
"""


def is_utf8(text):
    try:
        text.decode()
        return True
    except UnicodeDecodeError:
        return False


def escaped(text):
    whole = is_utf8(text) and 239 not in text
    return b"".join(ENTITIES.get(c) or (bytes([c]) if 32 <= c <= 126 or whole and c >= 128 else b"?") for c in text)


def clipped(text):
    return text if len(text) <= NAME_MOST else text[:NAME_MOST - 3] + b"..."


def short_bytes(focus):
    return short(focus).encode("latin-1")


def node_name(depth, n):
    return (n["hypothesis"] + b", " if depth == 0 else b"") + short_bytes(n["focus"])


def node_window(n):
    return b", ticks %d to %d" % (n["begin"], n["end"])


def pair(name, focus):
    return escaped(name) + b" " + escaped(focus)


def share(n):
    return percent(n["value"], n["ticks"]).encode()


def lines_of(nodes):
    """The lines of the tree: (number,) where a phase begins, and (number, depth, depth of the next node)."""
    rows, phase, out = tree(nodes), None, []
    for k, (number, depth) in enumerate(rows):
        if depth == 0 and nodes[number]["phase"] != phase:
            phase = nodes[number]["phase"]
            out.append((number,))
        out.append((number, depth, rows[k + 1][1] if k + 1 < len(rows) else 0))
    return out


# ---- time lines

def place(last, tick):
    return tick * 9400 // last if last else 0


def marks(height, last):
    step = next((s for s in MARK_STEPS if s * 10 >= last), 0)
    out = b""
    for k in range(11):
        if step * k <= last:
            x = 20 + place(last, step * k) // 10
            out += b'<path d="M%d 34V%d" stroke="#ddd"/>\n<text x="%d" y="30" text-anchor="middle" fill="#555">%d</text>\n' % (x, height, x, step * k)
    return out


def steps(last, bins):
    most = max([signed(v) for _, _, v in bins if signed(v) >= 0], default=0)
    out = b""
    for a, b, v in bins:
        top = 430 if signed(v) < 0 else 400 - (v * 400 // most if most else 0)
        out += b"M%d 400V%dH%dV400z" % (place(last, a), top, place(last, b))
    return out


def time_line(last, n, s):
    name = clipped(s["metric"] + b" in " + s["units"] + b", " + short_bytes(s["focus"]))
    out = (b'<g transform="translate(20 %d)"><title>%s</title>\n<rect width="940" height="80" fill="none" pointer-events="all"/>\n'
           b'<text y="14" font-weight="bold">%s</text>\n' % (n * 84 + 40, pair(s["metric"], s["focus"]), escaped(name)))
    bins = s["bins"]
    if not bins:
        return out + b'<text y="28" fill="#555">its instrument was never armed</text>\n</g>\n'
    joined, drawn = folded_bins(STEPS_MOST, bins)
    values = [b[2] for b in bins]
    sums = "sum %s, greatest bin %d, bins %d, bins in a step %d" % (quotient(sum(values) % ALL, 1), max(map(signed, values)), len(bins), joined)
    return (out + b'<text y="28" fill="#555">%s</text>\n<path transform="translate(0 34) scale(.1)" fill="#2563a8" d="%s"/>\n'
            b'<path d="M0 74.5H940" stroke="#888"/>\n</g>\n' % (sums.encode(), steps(last, drawn)))


def lines_height(shown):
    return len(shown) * 84 + 40


def time_lines(shown):
    if not shown:
        return b""
    last = max((b for s in shown for _, b, _ in s["bins"]), default=0)
    return (b'<text x="20" y="14" fill="#555">time in ticks</text>\n' + marks(lines_height(shown), last)
            + b"".join(time_line(last, n, s) for n, s in enumerate(shown)))


# ---- the picture

def head(height):
    return (b'<svg xmlns="http://www.w3.org/2000/svg" viewBox="0 0 1000 %d" font-family="monospace" font-size="12" fill="#222">\n'
            b'<title>Report of a run</title>\n<rect width="1000" height="%d" fill="#fff"/>\n' % (height, height))


def moved(y, text):
    return b'<g transform="translate(0 %d)">\n%s</g>\n' % (y, text)


def node_row(n, depth, node):
    return (b'<g transform="translate(20 %d)"><title>%s</title>\n<text x="50" text-anchor="end">%s</text>\n<text x="%d">%s%s</text></g>\n'
            % (n * 18 + 40, pair(node["hypothesis"], node["focus"]), share(node), depth * 12 + 62, escaped(clipped(node_name(depth, node))), node_window(node)))


def search_rows(nodes, lines):
    out = b'<text x="20" y="18" fill="#555">what was true, of %d nodes of the search</text>\n' % len(nodes)
    for n, line in enumerate(lines):
        node = nodes[line[0]]
        if len(line) == 1:
            out += b'<text x="20" y="%d" font-weight="bold">phase %s</text>\n' % (n * 18 + 40, escaped(clipped(node["phase"])))
        else:
            out += node_row(n, line[1], node)
    return out


def svg(report):
    harts, shown, search = report["harts"], report["shown"], report["search"]
    lines = lines_of(search["nodes"]) if search else []
    top, middle = len(harts) * 18 + 24, lines_height(shown)
    out = head(top + middle + len(lines) * 18 + 40)
    for n, (ticks, stop, at) in enumerate(harts):
        out += b'<text x="20" y="%d">hart %d: %d ticks, %s at %s</text>\n' % (n * 18 + 24, n, ticks, stop.encode(), at.encode())
    return out + moved(top, time_lines(shown)) + moved(top + middle, search_rows(search["nodes"], lines) if search else b"") + b"</svg>\n"


# ---- the page

def node_line(depth, following, node):
    text = b'<span title="%s">%s %s%s</span>' % (pair(node["hypothesis"], node["focus"]), share(node), escaped(node_name(depth, node)), node_window(node))
    out = b"<details open><summary>%s</summary>\n" % text if following > depth else b"<p>%s</p>\n" % text
    return out + b"</details>\n" * max(0, depth - following)


def search_part(nodes):
    out = b"<h2>What was true, of %d nodes of the search</h2>\n" % len(nodes)
    for line in lines_of(nodes):
        node = nodes[line[0]]
        out += b"<h3>phase %s</h3>\n" % escaped(node["phase"]) if len(line) == 1 else node_line(line[1], line[2], node)
    return out


def html(report):
    out = b"""<!DOCTYPE html>
<html lang="en">
<head>
<meta charset="utf-8">
<meta name="viewport" content="width=device-width, initial-scale=1">
<title>Report of a run</title>
<style>
%s</style>
</head>
<body>
<h1>Report of a run</h1>
<h2>Harts</h2>
<table>
<tr><th>hart</th><th>ticks</th><th>end</th><th>at</th></tr>
""" % STYLE
    for n, (ticks, stop, at) in enumerate(report["harts"]):
        out += b"<tr><td>%d</td><td>%d</td><td>%s</td><td>%s</td></tr>\n" % (n, ticks, stop.encode(), at.encode())
    out += b"</table>\n"
    if report["shown"]:
        out += b"<h2>Time lines</h2>\n<div>\n" + head(lines_height(report["shown"])) + time_lines(report["shown"]) + b"</svg>\n</div>\n"
    return out + (search_part(report["search"]["nodes"]) if report["search"] else b"") + b"</body>\n</html>\n"
