"""The log of quanta, of version 1 and 2."""


class Settings:
    """The settings of a run."""

    def __init__(self, harts=1, budget=1000000, bins=64, width=1000, warm=False, instruments=64):
        self.harts, self.budget, self.bins, self.width = harts, budget, bins, width
        self.warm, self.instruments = warm, instruments

    def key(self):
        return (self.harts, self.budget, self.bins, self.width, self.warm, self.instruments)


class LogFault(Exception):
    """The kind of the fault, and the place where it is told."""

    def __init__(self, kind, place):
        super().__init__(kind, place)
        self.kind, self.place = kind, place


MAGIC1, MAGIC2 = b"PDYNLOG1", b"PDYNLOG2"
MOST_QUANTA = 16777216
# place, bytes, least and most of each number of a head; of each number of an entry, the harts aside
HEAD1 = [(8, 4, 1, 16), (12, 4, 2, 1024), (16, 8, 1, 100000000), (24, 8, 1, 1000000), (32, 8, 0, MOST_QUANTA)]
HEAD2 = [(8, 4, 1, 32)] + HEAD1[1:] + [(40, 4, 0, 1), (44, 4, 1, 1024)]
ENTRY1 = [(0, 4, 15), (4, 4, None), (8, 4, 10000), (12, 4, 65535)]
ENTRY2 = [(0, 1, 15), (1, 1, None), (2, 2, 10000), (4, 2, 65535), (6, 2, 0)]


def _bytes(v, n):
    return v.to_bytes(n, "little")


def _number(data, at, n):
    return int.from_bytes(data[at:at + n], "little")


def write(s, quanta, version=2):
    """The bytes of a log. In version 1 the start and the instruments aren't told."""
    head = _bytes(s.harts, 4) + _bytes(s.bins, 4) + _bytes(s.budget, 8) + _bytes(s.width, 8) + _bytes(len(quanta), 8)
    if version == 1:
        return MAGIC1 + head + b"".join(_bytes(x, 4) for q in quanta for x in q)
    return (MAGIC2 + head + _bytes(1 if s.warm else 0, 4) + _bytes(s.instruments, 4)
            + b"".join(_bytes(w, 1) + _bytes(h, 1) + _bytes(t, 2) + _bytes(o, 2) + b"\0\0" for w, h, t, o in quanta))


def version_of(data):
    """1 or 2, or LogFault where the bytes are shorter than the first ones of a log or begin none."""
    for version, magic in ((1, MAGIC1), (2, MAGIC2)):
        if magic.startswith(data[:8]):
            if len(data) < 8:
                raise LogFault("short", len(data))
            return version
    raise LogFault("bad head", 0)


def _entry(data, at, fields, harts):
    """The numbers of the entry at a place."""
    out = []
    for k, (offset, n, most) in enumerate(fields):
        v = _number(data, at + offset, n)
        if not (1 if k == 2 else 0) <= v <= (harts - 1 if most is None else most):
            raise LogFault("bad field", at + offset)
        out.append(v)
    return tuple(out[:4])


def read(data):
    """The settings and the quanta of a log, or LogFault."""
    version = version_of(data)
    head, size, fields, entry = (40, 16, HEAD1, ENTRY1) if version == 1 else (48, 8, HEAD2, ENTRY2)
    if len(data) < head:
        raise LogFault("short", len(data))
    for at, n, low, high in fields:
        if not low <= _number(data, at, n) <= high:
            raise LogFault("bad field", at)
    harts, count = _number(data, 8, 4), _number(data, 32, 8)
    if len(data) < head + size * count:
        raise LogFault("short", len(data))
    quanta = [_entry(data, head + size * k, entry, harts) for k in range(count)]
    if len(data) > head + size * count:
        raise LogFault("trailing", head + size * count)
    s = Settings(harts, _number(data, 16, 8), _number(data, 12, 4), _number(data, 24, 8))
    if version == 2:
        s.warm, s.instruments = _number(data, 40, 4) == 1, _number(data, 44, 4)
    return s, quanta
