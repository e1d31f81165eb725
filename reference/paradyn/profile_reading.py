"""Reading a profile: what its lines say, written anew, has to be its text."""
from .advice import BadReport

N64 = 2 ** 64
OTHERS = (b"call ", b"loop ", b"word ")
PLAIN_STOPS = (b"illegal", b"break", b"misaligned", b"fetch-outside", b"budget", b"cut")


def word(line, place):
    words = line.split(b" ")
    return words[place] if place < len(words) else b""


def number(line, place, most=N64 - 1, digits=20):
    text = word(line, place)
    if not 1 <= len(text) <= digits or any(c not in b"0123456789" for c in text) or int(text) > most:
        return 0
    return int(text)


def address(line, place):
    digits = word(line, place)[2:]
    if any(c not in b"0123456789abcdef" for c in digits):
        return 0
    value = int(digits or b"0", 16)
    return value if value < N64 else 0


def hart(line):
    """A hart's ticks, how it ended and where, as texts."""
    kind = word(line, 4)
    behind = 5
    if kind == b"exit":
        stop, behind = "exit %d" % number(line, 5, 255, 10), 6
    elif kind in (b"access", b"text-access"):
        stop, behind = "%s 0x%x" % (kind.decode(), address(line, 5)), 6
    else:
        stop = kind.decode() if kind in PLAIN_STOPS else "cut"
    return number(line, 3), stop, "0x%x" % address(line, behind + 1)


def procedure(line):
    """A procedure's path, address, words, how often it was entered, and its ticks."""
    path = word(line, 1)
    length = number(line, 5) * 4 % N64
    return path if b"/" in path else path + b"/", address(line, 3), length // 4, number(line, 7), number(line, 9)


def pair(name, focus, value):
    return {"metric": name, "focus": focus, "units": b"", "from": b"none", "width": 1, "bins": [(0, 0, value)]}


def common(one, other):
    return next((k for k, (a, b) in enumerate(zip(one, other)) if a != b), min(len(one), len(other)))


def read_profile(data):
    """A profile as a report, or BadReport."""
    lines = data.split(b"\n")

    def first(text):
        return next((line for line in lines if line.startswith(text)), b"")
    run, rest = first(b"profile "), first(b"rest ")
    harts = [hart(line) for line in lines if line.startswith(b"hart ")]
    procedures = [procedure(line) for line in lines if line.startswith(b"procedure ")]
    ticks, untold, outside = (number(run, k) for k in (4, 6, 8))
    text = b"profile harts %d ticks %d untold %d outside %d\n" % (len(harts), ticks, untold, outside)
    text += b"".join(b"hart %d ticks %d %s at %s\n" % (n, h[0], h[1].encode(), h[2].encode()) for n, h in enumerate(harts))
    text += b"".join(b"procedure %s at 0x%x words %d entered %d ticks %d\n" % p for p in procedures)
    text += b"rest words %d ticks %d\n" % (number(rest, 2), number(rest, 4))
    text += b"".join(line + b"\n" for line in lines if line.startswith(OTHERS))
    if text != data or sum(h[0] for h in harts) != ticks:
        raise BadReport(common(text, data))
    shown = [pair(b"untold", b"/Code", untold), pair(b"outside", b"/Code", outside), pair(b"ticks", b"/Code/-", number(rest, 4))]
    for path, _, _, entered, took in procedures:
        shown += [pair(b"ticks", b"/Code/" + path, took), pair(b"entered", b"/Code/" + path, entered)]
    return {"harts": harts, "samples": 0, "skipped": 0, "output": b"", "refused": [], "shown": shown, "search": None}
