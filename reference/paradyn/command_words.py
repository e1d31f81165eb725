"""The words of the command line."""

RUN = ["harts", "seed", "quantum", "budget", "bins", "width", "instruments", "start"]
# how many positional words a command has, and its options
COMMANDS = {
    "run": (2, RUN + ["log"]),
    "live": (2, [x for x in RUN if x != "seed"] + ["workers", "log"]),
    "replay": (3, []),
    "asm": (1, []),
    "points": (1, []),
    "plan": (4, ["harts"]),
    "stress": (2, []),
    "relog": (1, []),
    "blocks": (1, ["harts", "seed", "quantum", "budget"]),
    "visi": (2, RUN + ["views"]),
    "advise": (1, []),
    "direct": (3, RUN),
    "profile": (1, ["harts", "seed", "quantum", "budget", "also", "show", "top", "callgrind"]),
    "annotate": (1, ["harts", "seed", "quantum", "budget", "also", "procedure", "by"]),
    "show": (1, ["columns", "format"]),
    "diff": (2, []),
    "ask": (2, ["harts", "seed", "quantum", "budget", "instruments", "each", "under", "from", "until"]),
}
# options whose value is a name, and is taken as it is
NAMES = ("log", "callgrind", "procedure", "under")
FORMATS = ("blocks", "ascii", "json", "csv", "svg", "html")
KINDS = ("procedure", "module", "lock", "hart")
LAST_TICK = 2147483647
# least, most and default
LIMITS = {"harts": (1, 32, 1), "workers": (1, 16, 2), "seed": (0, 4294967295, 0), "quantum": (1, 10000, 50),
          "budget": (1, 100000000, 1000000), "bins": (2, 1024, 64), "width": (1, 1000000, 1000),
          "instruments": (1, 1024, 64), "views": (1, 8, 2), "top": (1, 1000000, 20), "columns": (20, 1000, 80),
          "from": (0, LAST_TICK, 0)}


def number(text, low, high):
    """The number of 1 to 10 digits in the range, or None."""
    if not 1 <= len(text) <= 10 or any(c not in "0123456789" for c in text):
        return None
    n = int(text)
    return n if low <= n <= high else None


def addresses(text):
    """The addresses of a list, or None."""
    out = []
    for part in text.split(","):
        digits = part[2:]
        if part[:2] != "0x" or not digits or any(c not in "0123456789abcdefABCDEF" for c in digits):
            return None
        out.append(int(digits, 16))
    return out if all(a < 2 ** 64 for a in out) else None


def split(words, known):
    """The positional words and the options' values, or None."""
    positional, given, i = [], {}, 0
    while i < len(words):
        w = words[i]
        i += 1
        if w == "--":
            return positional + words[i:], given
        if w == "-" or not w.startswith("-"):
            positional.append(w)
            continue
        name, sign, value = w[2:].partition("=")
        if not w.startswith("--") or name not in known or name in given:
            return None
        if not sign:
            if i == len(words) or words[i].startswith("-") and words[i] != "-":
                return None
            value = words[i]
            i += 1
        given[name] = value
    return positional, given


def value_of(name, given):
    """The value of an option, or None where it isn't one. (Names are taken as they are.)"""
    if name == "start":
        start = given.get(name, "warm")
        return start if start in ("cold", "warm") else None
    if name == "show":
        shape = given.get(name, "lines")
        return shape if shape in ("lines", "words", "table") else None
    if name == "by":
        unit = given.get(name, "words")
        return unit if unit in ("words", "lines") else None
    if name == "format":
        form = given.get(name, "blocks")
        return form if form in FORMATS else None
    if name == "also":
        return addresses(given[name]) if name in given else []
    low, high, default = LIMITS[name]
    return number(given[name], low, high) if name in given else default


def interval(out, given):
    """Whether `ask` is given a kind and a last tick that are such. These and the focus are put into what its words ask for."""
    out["each"], out["until"], out["under"] = given.get("each"), None, given.get("under", "/Code")
    if out["each"] not in (None,) + KINDS:
        return False
    if "until" in given:
        out["until"] = number(given["until"], out["from"] + 1, LAST_TICK)
        return out["until"] is not None
    return True


def parse(words):
    """What the words ask for, or None. The result has `command`, `positional` and each option of the command;
    `stress` has its numbers as `n` and `seed_word`."""
    words = list(words)
    if not words or words[0] not in COMMANDS:
        return None
    count, known = COMMANDS[words[0]]
    parts = split(words[1:], known)
    if parts is None or len(parts[0]) != count:
        return None
    positional, given = parts
    out = {"command": words[0], "positional": positional}
    for name in known:
        if name in ("each", "until"):
            continue
        out[name] = given.get(name) if name in NAMES else value_of(name, given)
        if name not in NAMES and out[name] is None:
            return None
    if words[0] == "ask" and not interval(out, given):
        return None
    if words[0] == "stress":
        out["n"] = number(positional[0], 1, 200)
        out["seed_word"] = number(positional[1], 0, 4294967295)
        if out["n"] is None or out["seed_word"] is None:
            return None
    return out


def log_name(words):
    """The name of the second text, where the words give one: a log, or what callgrind's tools read."""
    p = parse(words)
    return None if p is None else p.get("callgrind" if words[0] == "profile" else "log")
