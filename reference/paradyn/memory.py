"""The memory of a run, the reservations of its harts and its output.

A cause is a tuple: ('exit', n) ('illegal',) ('break',) ('misaligned',) ('access', address) ('text-access', address)
('fetch-outside',).
"""
from .instructions import M64

HEAP_AT = 0x60000000
HEAP_LEN = 1048576
STACK_AT = 0x70000000
STACK_STEP = 0x20000
STACK_LEN = 65536
OUTPUT_MOST = 1048576
WRITE_MOST = 4096


class Memory:
    """The segments, the heap, and one stack for each hart."""

    def __init__(self, image, harts):
        self.text_at = image.text_at
        self.text_end = image.text_at + image.text_len
        parts = []                       # [low, high, bytearray]
        for s in image.segments:
            buf = bytearray(s.bytes)
            buf.extend(bytes(s.size - len(s.bytes)))
            parts.append((s.at, s.at + s.size, buf))
        parts.append((HEAP_AT, HEAP_AT + HEAP_LEN, bytearray(HEAP_LEN)))
        for h in range(harts):
            at = STACK_AT + h * STACK_STEP
            parts.append((at, at + STACK_LEN, bytearray(STACK_LEN)))
        self.parts = parts
        # pieces outside text, for the quick path: (low, high, base, buf)
        self.pieces = []
        for low, high, buf in parts:
            if low <= self.text_at and self.text_end <= high:
                if low < self.text_at:
                    self.pieces.append((low, self.text_at, low, buf))
                if self.text_end < high:
                    self.pieces.append((self.text_end, high, low, buf))
            else:
                self.pieces.append((low, high, low, buf))
        self._last = self.pieces[-1]

    def kind(self, at):
        """'data', 'text' or None (unmapped) for one byte's address."""
        if self.text_at <= at < self.text_end:
            return "text"
        for low, high, _ in self.parts:
            if low <= at < high:
                return "data"
        return None

    def _piece(self, at, n):
        """The piece that holds all n bytes, or None."""
        p = self._last
        if p[0] <= at and at + n <= p[1]:
            return p
        for p in self.pieces:
            if p[0] <= at and at + n <= p[1]:
                self._last = p
                return p
        return None

    def probe(self, at, n):
        """None, or the cause for which the bytes can't be accessed; no byte is moved."""
        if self._piece(at, n) is not None:
            return None
        for k in range(n):
            a = (at + k) & M64
            kind = self.kind(a)
            if kind is None:
                return ("access", a)
            if kind == "text":
                return ("text-access", a)
        return None

    def byte(self, at):
        """The byte at a mapped address, text included."""
        for low, high, buf in self.parts:
            if low <= at < high:
                return buf[at - low]
        raise KeyError(at)

    def load(self, at, n):
        p = self._piece(at, n)
        if p is not None:
            o = at - p[2]
            return int.from_bytes(p[3][o:o + n], "little")
        cause = self.probe(at, n)
        if cause is not None:
            return cause
        return int.from_bytes(bytes(self.byte((at + k) & M64)
                                    for k in range(n)), "little")

    def store(self, at, n, v):
        raw = (v & ((1 << (8 * n)) - 1)).to_bytes(n, "little")
        p = self._piece(at, n)
        if p is not None:
            o = at - p[2]
            p[3][o:o + n] = raw
            return None
        cause = self.probe(at, n)
        if cause is not None:
            return cause
        for k in range(n):                  # it spans two segments
            a = (at + k) & M64
            for low, high, buf in self.parts:
                if low <= a < high:
                    buf[a - low] = raw[k]
        return None

    def dump(self):
        """(address, bytes) of each part, for comparing two memories."""
        return [(low, bytes(buf)) for low, _, buf in self.parts]


class Reservations:
    """One aligned doubleword's address for each hart, or None."""

    def __init__(self, harts):
        self.at = [None] * harts
        self.some = False           # may a reservation stand?

    def get(self, hart):
        return self.at[hart]

    def put(self, hart, at):
        self.at[hart] = at & ~7
        self.some = True

    def clear(self, hart):
        self.at[hart] = None

    def stored(self, hart, at, n):
        """A store of hart to [at, at + n) breaks the others' that overlap."""
        if not self.some:
            return
        for h, r in enumerate(self.at):
            if h != hart and r is not None and r < at + n and at < r + 8:
                self.at[h] = None


class _NoReservations(Reservations):
    """For tool words, whose stores go to a bank and break nothing."""

    def __init__(self):
        Reservations.__init__(self, 0)

    def stored(self, hart, at, n):
        pass


NO_RESERVATIONS = _NoReservations()


class Output:
    """What the harts have written."""

    def __init__(self):
        self.data = bytearray()

    def bytes(self):
        return bytes(self.data)
