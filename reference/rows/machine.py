"""The rows of `test_machine`: moved words, blocks and the store of code, admissions, and what words mean."""
from paradyn import assembly, instruments, plans
from paradyn.execution import code_of
from paradyn.image import Image, Segment
from paradyn.instructions import LOADS, decode, enc, encode, names_x31
from paradyn.memory import Memory, Output, Reservations
from paradyn.patched_machine import Machine
from paradyn.relocation import Unmovable, move_word, moved_len
from paradyn.statement_code import TOOL
from paradyn.trampolines import base_block, mini_block, set_next
from . import debug

TOP = 1 << 30
# the statement that counts up the variable in slot 2
COUNTER = [(0x00000FB7, TOOL), (0x010FB283, TOOL), (0x00128293, TOOL), (0x005FB823, TOOL)]
NOP = 0x13


def program(words):
    """The image of a text of these words."""
    content = b"".join(w.to_bytes(4, "little") for w in words)
    return Image([Segment(0x10000, content, len(content))], 0x10000, len(content), 0x10000, [])


def word_text(word, mark):
    return "%08x %s" % (word, mark.lower())


def moved(word, from_, to):
    try:
        return move_word(word, from_, to)
    except Unmovable:
        return None


def move(word, from_=0, to=0):
    words = moved(word, from_, to)
    return [str(moved_len(word))] + (["unmovable"] if words is None else [word_text(*w) for w in words])


def block_lines(b):
    head = "%s %x at %x" % ("base" if b.base else "mini", b.point, b.at)
    return [head] + [word_text(*w) for w in b.words]


def base(point, at=0, word=0):
    if at >= TOP - 12:
        return ["too high"]
    words = moved(word, point, at + 12)
    return ["unmovable"] if words is None else block_lines(base_block(point, at, words))


def mini(at, next_=0, _=0):
    return ["too high"] if at >= TOP else block_lines(mini_block(0x10000, at, COUNTER, next_))


def relinked(at, next_=0, other=0):
    if at >= TOP:
        return ["too high"]
    b = mini_block(0x10000, at, COUNTER, next_)
    set_next(b, other)
    return block_lines(b)


def store():
    """A machine in whose tool text three mini blocks of one point stand. Its program is `ret`."""
    m = Machine(program([0x00008067]), 1, 1)
    for at, next_ in ((0x11010, 0x11008), (0x11024, 0x11010), (0x11038, 0x11024)):
        m.write(mini_block(0x10000, at, COUNTER, next_))
    return m


def point_text(record):
    return ["none" if record is None else "%x" % record.block.point]


def owner(at, *_):
    return point_text(store().owner.get(at))


def dropped(at, *_):
    """Whose the word is once the second block was dropped."""
    return ["none"] if 0x11024 <= at < 0x11038 else owner(at)


def fetch(at, inside=0, _=0):
    got = store().fetch(at, inside != 0) if at % 4 == 0 else None
    return ["none" if got is None else word_text(*got)]


CODE = {"move": move, "base": base, "mini": mini, "relinked": relinked, "owner": owner, "dropped": dropped,
        "fetch": fetch}


def code(row):
    call, *numbers = row.split(" ")
    numbers = [int(x, 16) for x in numbers[:3]]
    return [row] + (CODE[call](*numbers) if call in CODE else ["no call"])


def filled(what, most, plan, cost=None):
    """How often the plan is admitted where so many instruments are allowed, and why no more."""
    placer, admitted, refused = instruments.Placer(program([NOP] * 4096), most), 0, None
    for _ in range(most + 1):
        try:
            placer.admit(plan, cost)
            admitted += 1
        except instruments.Refused as f:
            refused = debug.cause(f.cause)
            break
    return ["%s: Filled { admitted: %d, refused: %s }" % (what, min(admitted, most), debug.option(refused))]


def variables(count, timer):
    return plans.Plan([plans.Var(b"", timer, 0) for _ in range(count)], [])


def everywhere():
    """A counter at each word of the program, and for each hart inside it."""
    stmts = [([], ("up", 0))]
    sites = [(0x10000 + 4 * k, stmts) for k in range(4096)]
    return plans.Plan([plans.Var(b"", False, 0)], sites, [(0x10000, 0x4000, stmts)])


def sites(_):
    plan, out = everywhere(), []
    for cost in (None, 20480, 20479):
        what = "4096 sites" + ("" if cost is None else ", %d words allowed" % cost)
        out += filled(what, 64, plan, cost)
    return out


def first_open(_):
    placer = instruments.Placer(program([NOP] * 4096), 1)
    start, length, stmts = placer.placed(placer.admit(everywhere())).opens[0]
    return ["4096 sites, admitted: Some(Opened { start: %d, len: %d, stmts: %d })" % (start, length, len(stmts))]


ADMISSIONS = {
    "counters": lambda _: filled("4095 counters", 64, variables(4095, False)),
    "timers": lambda _: filled("3 timers, 1024 allowed", 1024, variables(3, True)),
    "no-site": lambda _: (filled("no site, 64 allowed", 64, variables(0, True))
                          + filled("no site, 1024 allowed", 1024, variables(0, True))),
    "sites": sites, "open": first_open,
}


def admissions(row):
    return ADMISSIONS[row](row) if row in ADMISSIONS else ["no plans"]


UNWRITTEN = 0x6E6F742073657421
M64 = 2 ** 64


class Unread(Exception):
    """A row that can't be read."""


def number(text, most=M64):
    digits = text[1:] if text.startswith("+") else text
    if not digits or any(c not in "0123456789abcdefABCDEF" for c in digits) or int(digits, 16) >= most:
        raise Unread
    return int(digits, 16)


def optional(text, default):
    return default if text == "-" else number(text)


def choice(text, values):
    if text not in values:
        raise Unread
    return values[text]


def is_instruction(word):
    i = decode(word)
    return i is not None and encode(i) == word


class Judge:
    """Compares rows with what words mean here, and counts them."""

    def __init__(self):
        image = program([0])
        image.segments.append(Segment(0x2000000, b"", 0x100000))
        self.mem, self.out = Memory(image, 1), Output()
        self.counts = {"vectors": [0, 0], "words": [0, 0]}
        self.unknown = 0

    def answer(self, row):
        columns = row.split("\t")
        kinds = {10: ("vectors", self.vector), 5: ("words", self.listed), 2: ("words", self.assembled),
                 3: ("words", self.assembled)}
        kind, judge = kinds.get(len(columns), (None, None))
        try:
            if kind is None:
                raise Unread
            agrees = judge(*columns)
        except Unread:
            self.unknown += 1
            return ["not understood: " + row]
        self.counts[kind][0] += 1
        self.counts[kind][1] += agrees
        return [] if agrees else ["disagrees: " + row]

    def end(self):
        return ["%s %d agree %d" % (kind, *n) for kind, n in self.counts.items()] + ["not understood %d" % self.unknown]

    def listed(self, word, legal, _, x31, *__):
        """A word that is an instruction or isn't, and names x31 or doesn't."""
        word = number(word, 2 ** 32)
        legal = choice(legal, {"legal": True, "illegal": False})
        x31 = choice(x31, {"31": True, "-": False})
        return is_instruction(word) == legal and names_x31(word) == x31

    def vector(self, _, word, first, second, result, pc, next_pc, memory, left, note):
        """What one instruction did on another machine."""
        word = number(word, 2 ** 32)
        first, second, result = number(first), number(second), number(result)
        pc = optional(pc, 0x10000)
        next_pc = optional(next_pc, (pc + 4) % M64)
        memory = optional(memory, None)
        left = optional(left, memory)
        reserved = choice(note, {"reserved": True, "unreserved": False, "-": False})
        if not is_instruction(word):
            return False
        return self.run(word, first, second, pc, memory, reserved) == (result, next_pc, left)

    def run(self, word, first, second, pc, memory, reserved):
        """The result, the next pc and the eight bytes that were accessed; None where the hart stops."""
        i, regs, reservations = decode(word), [0] * 32, Reservations(1)
        for r, value in ((word >> 7, UNWRITTEN), (word >> 20, second), (word >> 15, first)):
            if r % 32:
                regs[r % 32] = value
        place = None
        if i.fmt == "S" or i.op in LOADS.values():
            place = (first + i.imm) % M64
        elif i.fmt == "A":
            place = first
        if place is not None and (memory is None or self.mem.store(place, 8, memory) is not None):
            return None
        if reserved and not self.reserve(i, pc, regs, reservations):
            return None
        next_pc = code_of(word)(pc, 0, regs, self.mem, reservations, self.out)
        bytes_left = None if place is None else self.mem.load(place, 8)
        if isinstance(next_pc, tuple) or isinstance(bytes_left, tuple):
            return None
        result = regs[(word >> 7) % 32]
        if i.fmt == "B":
            result = int(next_pc % M64 == (pc + i.imm) % M64)
        elif i.fmt == "S":
            result = bytes_left
        return result, next_pc % M64, bytes_left

    def reserve(self, i, pc, regs, reservations):
        """Whether the hart could reserve what the instruction accesses."""
        if i.fmt != "A":
            return False
        load = enc("lr" + i.op[-2:], 0, i.rs1)
        return not isinstance(code_of(load)(pc, 0, regs, self.mem, reservations, self.out), tuple)

    def assembled(self, words, text, distance=None):
        """A text of which an assembler made words. Its label `target` stands at a distance from it."""
        first, sign, second = words.partition(" ")
        made = [number(w, 2 ** 32) for w in ([first, second] if sign else [first])]
        lines, place = [text], 0
        if distance is not None:
            digits = distance.removeprefix("-")
            if not digits.isascii() or not digits.isdigit():
                raise Unread
            n = int(digits)
            if distance.startswith("-"):
                lines, place = ["target:"] + ["nop"] * (n // 4) + [text], n
            elif n == 0:
                lines = ["target:", text]
            else:
                lines = [text] + ["nop"] * max(n // 4 - 1, 0) + ["target: nop"]
        if not all(is_instruction(w) for w in made):
            return False
        try:
            image = assembly.assemble("\n".join(lines + [""]).encode())
        except assembly.AsmFault:
            return False
        return image.segments[0].bytes[place:].startswith(b"".join(w.to_bytes(4, "little") for w in made))
