"""Configurations that ask for metrics at foci."""
SHIPPED = b"include metrics;\n"


def inside(code, node):
    """Whether a node of the code, as a list of names, is another or below it."""
    return node[:len(code)] == code


def nodes(each, rows):
    """The procedures that were executed by descending ticks, or their modules, each once."""
    out = []
    for proc, ticks in rows:
        node = [proc.module, proc.name] if each == "procedure" else [proc.module]
        if ticks and (each == "procedure" or node not in out):
            out.append(node)
    return out


def foci(each, tree, focus, rows):
    """The texts of the foci that are asked for."""
    own = tree.focus_text(focus)
    if each is None:
        return [own]
    if each in ("lock", "hart"):
        axis = {"lock": "SyncObject", "hart": "Machine"}[each]
        return [tree.focus_text(f) for f in tree.children(focus, axis)] or [own]
    code, rest = own.split(b",", 1)
    code = code.split(b"/")[2:]
    return [b"/".join([b"/Code"] + n) + b"," + rest for n in nodes(each, rows) if inside(code, n)] or [own]


def text(w, metrics, foci):
    """The shipped metrics, and wishes for the first distinct pairs."""
    pairs = list(dict.fromkeys(m + b" " + f for f in foci for m in metrics))[:w["instruments"]]
    out = SHIPPED + b"".join(b"at %d show %s;\n" % (w["from"], p) for p in pairs)
    if w["until"] is not None:
        out += b"".join(b"at %d drop %s;\n" % (w["until"], p) for p in pairs)
    return out
