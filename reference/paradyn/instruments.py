"""Instruments: the room that their blocks and variables take, and the agenda of patches that put them in and take
them out.

Rooms and slots are the lowest that fit. An instrument is placing until its last patch is made, then armed; a dropped
one leaves, and is gone when its blocks are freed. """
from .patched_machine import BANK_SLOTS, TOOL_LEN, Placed, tool_start
from .relocation import Unmovable, move_word
from .statement_code import compile_stmts
from .trampolines import base_block, base_len, mini_block, predicted

PLACING, ARMED, LEAVING, GONE = "placing", "armed", "leaving", "gone"


class Refused(Exception):
    """cause: ('over cost', n) ('too many',) ('no slot', n) ('no room', n) ('unmovable', address)"""

    def __init__(self, cause):
        super().__init__(cause)
        self.cause = cause


class Space:
    """Units of room, of which the lowest that fit are taken."""

    def __init__(self, from_, units):
        self.holes = [[from_, units]] if units else []

    def take(self, n):
        for k, h in enumerate(self.holes):
            if h[1] >= n:
                at = h[0]
                h[0] += n
                h[1] -= n
                if h[1] == 0:
                    del self.holes[k]
                return at
        return None

    def give(self, at, n):
        k = 0
        while k < len(self.holes) and self.holes[k][0] < at:
            k += 1
        assert k == 0 or self.holes[k - 1][0] + self.holes[k - 1][1] <= at
        assert k == len(self.holes) or at + n <= self.holes[k][0]
        self.holes.insert(k, [at, n])
        if k + 1 < len(self.holes) and self.holes[k + 1][0] == at + n:
            self.holes[k][1] += self.holes[k + 1][1]
            del self.holes[k + 1]
        if k and self.holes[k - 1][0] + self.holes[k - 1][1] == at:
            self.holes[k - 1][1] += self.holes[k][1]
            del self.holes[k]


class _Instrument:
    """An admitted plan, where its blocks are, and how far it is."""

    def __init__(self, plan, placed, slot, slot_count):
        self.plan, self.placed, self.slot, self.slot_count = plan, placed, slot, slot_count
        self.state = PLACING
        self.minis = {}        # point -> [at, words, retired]
        self.left = 0          # placing events not handed out yet


class _Admission:
    """What one plan takes: its slots, its blocks and its patches."""

    def __init__(self, placer, plan, slot):
        self.placer = placer
        self.slots = []
        for v in plan.vars:
            self.slots.append(slot)
            slot += 2 if v.timer else 1
        self.taken, self.events, self.bases, self.minis = [], [], {}, {}

    def take(self, words):
        """The address of a room of so many words."""
        at = self.placer.rooms.take(words)
        if at is None:
            raise Refused(("no room", words))
        self.taken.append((at, words))
        return at * 4

    def place(self, point, stmts):
        """A mini block at the point, and a base block where it has none."""
        base = self.placer.bases.get(point)
        base_at = self.place_base(point) if base is None else base[0]
        body = compile_stmts(stmts, self.slots)
        at = self.take(len(body) + 1)
        mini = mini_block(point, at, body, base_at + 8)
        self.minis[point] = [at, len(mini.words), False]
        self.events.append(("write mini", mini))
        self.events.append(("link mini", point, at))
        if base is None:
            self.events.append(("link point", point))

    def place_base(self, point):
        word = self.placer.image.word(point)
        at = self.take(base_len(word))
        try:
            block = base_block(point, at, move_word(word, point, at + 12))
        except Unmovable:
            raise Refused(("unmovable", point)) from None
        assert len(block.words) == base_len(word)
        self.bases[point] = [at, len(block.words)]
        self.events.append(("write base", block))
        return at


class Placer:
    """The book of rooms, slots and instruments."""

    def __init__(self, image, most=64, bank=BANK_SLOTS):
        self.image, self.most = image, most
        start = tool_start(image)
        self.rooms = Space(start // 4, TOOL_LEN // 4)
        self.slots = Space(2, bank - 2)
        self.instruments = []
        self.agenda = []       # (event, instrument number)
        self.bases = {}        # point -> [at, words]: no Unlink point in the agenda yet
        self.old_bases = []    # [point, at, words, retired]

    def not_gone(self):
        return sum(1 for i in self.instruments if i.state != GONE)

    def predicted(self, plan):
        return predicted(plan.sites)

    def admit(self, plan, cost=None):
        """The number of the plan's instrument, or Refused. Its patches are in the agenda from then on."""
        if cost is not None and self.predicted(plan) > cost:
            raise Refused(("over cost", self.predicted(plan)))
        if self.not_gone() >= self.most:
            raise Refused(("too many",))
        count = plan.slots()
        slot = self.slots.take(count)
        if slot is None:
            raise Refused(("no slot", count))
        work = _Admission(self, plan, slot)
        try:
            for point, stmts in plan.sites:
                work.place(point, stmts)
        except Refused:
            for at, k in reversed(work.taken):
                self.rooms.give(at, k)
            self.slots.give(slot, count)
            raise
        return self._enter(plan, work, slot, count)

    def _enter(self, plan, work, slot, count):
        number = len(self.instruments)
        placed = Placed(plan.vars, work.slots, [(p, work.minis[p][0]) for p, _ in plan.sites], plan.opens)
        i = _Instrument(plan, placed, slot, count)
        i.minis = work.minis
        i.left = len(work.events)
        self.instruments.append(i)
        self.bases.update(work.bases)
        self.agenda += [(e, number) for e in work.events]
        return number

    def placed(self, i):
        assert self.instruments[i].state != GONE
        return self.instruments[i].placed

    def state(self, i):
        return self.instruments[i].state

    def all_linked(self, i):
        return self.instruments[i].left == 0

    def armed(self, i):
        x = self.instruments[i]
        assert x.state == PLACING and x.left == 0
        x.state = ARMED

    def drop(self, i):
        x = self.instruments[i]
        assert x.state in (PLACING, ARMED)
        x.state = LEAVING
        for point, _ in x.plan.sites:
            self.agenda.append((("unlink mini", point, x.minis[point][0]), i))
            if not any(y.state in (PLACING, ARMED) and point in y.minis for y in self.instruments):
                self.agenda.append((("unlink point", point), i))
                b = self.bases.pop(point)
                self.old_bases.append([point, b[0], b[1], False])
            self.agenda.append((("free", point), i))
        if not x.plan.sites:
            self._gone(x)

    def _gone(self, x):
        x.state = GONE
        self.slots.give(x.slot, x.slot_count)

    def next(self):
        if not self.agenda:
            return None
        e, i = self.agenda.pop(0)
        x = self.instruments[i] if i is not None else None
        if e[0] in ("write base", "write mini", "link mini", "link point"):
            x.left -= 1
        elif e[0] == "unlink mini":
            x.minis[e[1]][2] = True
        elif e[0] == "unlink point":
            [b] = [b for b in self.old_bases if b[0] == e[1] and not b[3]][:1]
            b[3] = True
        return e

    def next_free(self):
        blocked = set()
        for k, (e, _) in enumerate(self.agenda):
            if e[0] in ("unlink mini", "unlink point"):
                blocked.add(e[1])
            elif e[0] == "free" and e[1] not in blocked:
                del self.agenda[k]
                return e[1]
        return None

    def put_back(self, e):
        assert e[0] == "free"
        self.agenda.append((e, None))

    def freed(self, point):
        for b in [b for b in self.old_bases if b[0] == point and b[3]]:
            self.old_bases.remove(b)
            self.rooms.give(b[1] // 4, b[2])
        for x in self.instruments:
            m = x.minis.get(point)
            if x.state != GONE and m is not None and m[2]:
                del x.minis[point]
                self.rooms.give(m[0] // 4, m[1])
                if not x.minis:
                    assert x.state == LEAVING
                    self._gone(x)
