"""Random programs, as assembly texts and as ELF files."""
from paradyn import assembly, elf_writing, points
from paradyn.image import Segment, Symbol, program_last
from paradyn.instructions import names_x31
from paradyn.statement_code import branch, jal

WORK = ["t0", "t1", "t2", "s1", "a0", "a1", "a2", "a3", "s2", "s5", "t3", "t5", "ra", "t0", "t0", "gp"]
NAMES = ["main", "f", "g", "h", "lock_acquire", "write", "read", "barrier_wait"]
OBJECTS = ["lock_a", "lock_b", "cell"]
# lines that may stop a hart, or do what no compiler writes
DEADLY = ["ebreak", ".word 0", "ld a0, 0(zero)", "sd a0, -8(sp)", ".word 0x363", "lr.d a0, (t1)", "jr ra", "jr t1",
          "jalr ra, 2(t1)", "lui t1, 0x11", "la t1, main", "sw t0, 0(t1)", ".word 0x0000100f", ".word 0xffffffff",
          "jalr t0, 0(t0)", "sd zero, 4(sp)", "auipc t1, 0x80000", ".word 0x000002ef", ".word 0x00200067", "ecall",
          "li a7, 93", "sb t1, -1(a2)", "ld t2, -4(a2)"]
# words that can't be moved into a trampoline: a branch to an odd place, and an address that is too far
UNMOVABLE = [".word 0x00000363", "auipc t1, 0x80000", ".word 0x000002ef"]
OPERATIONS = ["add", "sub", "xor", "mul", "div", "remu", "sltu", "sra", "mulhu", "addw", "divw"]
ATOMICS = ["amoadd.d {a}, {b}, ({d})", "amoswap.d {a}, {b}, ({d})", "lr.d {a}, ({d})", "sc.d {a}, {b}, ({d})",
           "lr.w {a}, ({d})", "sc.w {a}, {b}, ({d})", "amomaxu.d {a}, {b}, ({d})",
           "lr.d {a}, ({d})\naddi {b}, {b}, 1\nsc.d {b}, {b}, ({d})"]
PROLOGUE = ["addi sp, sp, -16", "sd ra, 8(sp)", "sd s0, 0(sp)", "addi s0, sp, 16"]
EPILOGUE = ["ld s0, 0(sp)", "ld ra, 8(sp)", "addi sp, sp, 16", "ret"]
DATA = ["buf:", '.ascii "hello, world"', ".zero 20", ".align 3", ".dword 3"]


class Lines:
    """The lines of one random instruction, or of a few that belong together."""

    def __init__(self, draw, program, labels, frame, proc):
        self.draw, self.program, self.labels, self.proc = draw, program, labels, proc
        registers = [x for x in WORK if x != "ra"] if frame or draw.random() < 0.8 else WORK
        self.a, self.b, self.c, self.d = (draw.choice(registers) for _ in range(4))

    def any(self):
        makers = (self.operation, self.immediate, self.constant, self.access, self.heap, self.atomic, self.branch,
                  self.call, self.jump, self.write, self.fence, self.back, self.end, self.relative, self.frame,
                  self.nop)
        weights = (12, 10, 6, 5, 5, 10, 12, 18, 4, 4, 2, 2, 1, 2, 2, 5)
        return self.draw.choices(makers, weights)[0]()

    def label(self):
        own = self.labels or self.program.labels or ["main"]
        return self.draw.choice(own + [self.draw.choice(self.program.labels + self.program.names)])

    def operation(self):
        return ["%s %s, %s, %s" % (self.draw.choice(OPERATIONS), self.a, self.b, self.c)]

    def immediate(self):
        name = self.draw.choice(["addi", "addi", "xori", "andi", "slti", "addiw"])
        return ["%s %s, %s, %d" % (name, self.a, self.b, self.draw.randint(-64, 64))]

    def constant(self):
        return ["li %s, %d" % (self.a, self.draw.choice([0, 1, 2, 3, 5, 40, 64, 100, -1, 70000]))]

    def access(self):
        name = self.draw.choice(["ld", "lw", "lbu", "sd", "sw", "sb", "lh"])
        return ["la %s, %s" % (self.d, self.draw.choice(self.program.objects + ["buf"])),
                "%s %s, 0(%s)" % (name, self.a, self.d)]

    def heap(self):
        return [self.draw.choice(["sd %s, 8(a2)", "ld %s, 8(a2)", "sd %s, -32(sp)", "ld %s, -32(sp)",
                                  "sw %s, -20(sp)"]) % self.a]

    def atomic(self):
        where = self.draw.choice(self.program.objects + ["buf"])
        if where == "buf":
            return ["mv %s, a2" % self.d, "amoadd.w %s, %s, (%s)" % (self.a, self.b, self.d)]
        line = self.draw.choice(ATOMICS).format(a=self.a, b=self.b, d=self.d)
        return ["la %s, %s" % (self.d, where), line]

    def branch(self):
        label = self.label()
        if self.draw.random() < 0.5:
            return ["%s %s, %s, %s" % (self.draw.choice(["beq", "bne", "blt", "bgeu"]), self.a, self.b, label)]
        s = self.draw.choice(["s1", "t3", "s5"])
        return ["addi %s, %s, -1" % (s, s), "andi %s, %s, 7" % (s, s),
                "%s %s, %s" % (self.draw.choice(["bnez", "beqz"]), s, label)]

    def call(self):
        f = self.draw.choice(self.program.names[1:] or ["main"])
        if f == "main":
            return ["nop"]
        lock = self.program.objects and self.draw.random() < 0.5
        direct = (["la a0, " + self.draw.choice(self.program.objects)] if lock else []) + ["call " + f]
        ways = (direct, ["jal t0, " + f], ["la t1, " + f, "jalr ra, 0(t1)"], ["la ra, " + f, "jalr ra, 0(ra)"],
                ["la t0, " + f, "jalr t0, 0(t0)"],
                ["auipc ra, 0", "addi ra, ra, 0", "auipc t0, 0x0", "auipc t2, 0xfffff"])
        return self.draw.choices(ways, (60, 10, 10, 7, 6, 7))[0]

    def jump(self):
        return ["j " + self.label()]

    def write(self):
        text = "la a1, buf" if self.draw.random() < 0.8 else "mv a1, " + self.a
        return ["li a7, %d" % self.draw.choice([64, 64, 64, 1, 63]), "li a0, %d" % self.draw.choice([1, 1, 2, 3]), text,
                "li a2, %d" % self.draw.choice([0, 1, 5, 12]), "ecall", "lui a2, 0x60000"]

    def fence(self):
        return ["fence"]

    def back(self):
        return ["ret"]

    def end(self):
        return ["li a7, 93", "andi t1, %s, 7" % self.a, "bnez t1, %s" % self.proc, "ecall"]

    def relative(self):
        return ["auipc %s, %d" % (self.a, self.draw.choice([0, 1, 0xFFFFF, 0x7FFEF, 0x100]))]

    def frame(self):
        return ["mv s0, " + self.draw.choice(["sp", "a2", "t0", "zero"])]

    def nop(self):
        return ["nop"]


class Text:
    """A random program as a text. Configurations ask for its names and objects."""

    def __init__(self, draw):
        self.draw = draw
        self.names = ["main"] + draw.sample(NAMES[1:], draw.randint(0, 4))
        self.objects = OBJECTS[:draw.randint(0, 3)]
        self.foci, self.gone = [], set()        # of procedures and objects that a changed file has, and has no more
        own = {p: ["%s_l%d" % (p, j) for j in range(draw.randint(0, 2))] for p in self.names}
        self.labels = [x for labels in own.values() for x in labels]
        self.deadly = draw.choice([0, 0, 0, 0.01, 0.05, 0.2])
        self.loops = draw.random() < 0.7
        lines = self.head()
        modules = draw.random() < 0.3
        for p in self.names:
            if modules and draw.random() < 0.4:
                lines.append(".module " + draw.choice(["a.c", "b.c", "program"]))
            lines += self.procedure(p, own[p])
        lines.append(".data")
        for o in self.objects:
            lines += [".object %s 8" % o, ".dword %d" % draw.choice([0, 0, 1, 5])]
        self.text = "\n".join(lines + DATA) + "\n"

    def head(self):
        lines = ["_start:"] if self.draw.random() < 0.1 else []
        return lines + (["nop"] if self.draw.random() < 0.1 else [])

    def procedure(self, p, labels):
        draw = self.draw
        count, frame = draw.randint(1, 9), draw.random() < 0.35
        places = sorted(draw.randint(0, count) for _ in labels)
        lines = [".proc " + p] + ([draw.choice(UNMOVABLE)] if draw.random() < self.deadly else [])
        lines += PROLOGUE if frame else []
        for j in range(count + 1):
            lines += [label + ":" for place, label in zip(places, labels) if place == j]
            if j < count:
                deadly = draw.random() < self.deadly
                lines += [draw.choice(DEADLY)] if deadly else Lines(draw, self, labels, frame, p).any()
        if p == "main" and self.loops:
            lines.append("j main")
        elif frame:
            lines += EPILOGUE
        elif draw.random() < 0.9:
            lines.append(draw.choice(["ret", "ret", "ret", "jr t0", "j " + draw.choice(self.names)]))
        return lines + [".end"] + (["ret"] if draw.random() < 0.05 else [])


def random_register(draw):
    return draw.choice([0, 1, 1, 2, 5, 5, 5, 6, 10, 11, 17, 30, draw.randint(0, 30)])


def random_word(draw):
    """A word that is most often an instruction."""
    if draw.random() < 0.05:
        return draw.getrandbits(32)
    op = draw.choice([0x37, 0x17, 0x6F, 0x67, 0x63, 0x03, 0x23, 0x13, 0x1B, 0x33, 0x3B, 0x0F, 0x73, 0x2F,
                      0x17, 0x6F, 0x67, 0x67, 0x63, 0x63, 0x2F])
    rd, f3, rs1, rs2 = random_register(draw), draw.randint(0, 7), random_register(draw), random_register(draw)
    if op == 0x6F and draw.random() < 0.9:
        return jal(rd, draw.choice([4, 8, -4, 400, 2, 6, -65536, 1048572, draw.randrange(-1048576, 1048574, 2)]))
    if op == 0x63 and draw.random() < 0.9:
        return branch(f3, rs1, rs2, draw.choice([4, 8, -4, 400, 2, draw.randrange(-4096, 4094, 2)]))
    if op == 0x67 and draw.random() < 0.8:
        f3 = 0
    if op == 0x2F:
        f3, rs2 = draw.choice([2, 3]), draw.choice([0, rs2])
    word = op | rd << 7 | f3 << 12 | rs1 << 15 | rs2 << 20 | draw.choice([0, 0, 1, 0x20, draw.getrandbits(7)]) << 25
    if op == 0x17 and draw.random() < 0.5:
        word = word & 0xFFF | draw.choice([0, 1, 0xFFFFF, 0x80000, 0x7FFFF, 0x7FFEF, 0xFFFF0]) << 12
    return draw.choice([0x73, 0x73, 0x100073, word]) if op == 0x73 else word


def put_words(draw, image):
    """Some words of the text become random ones."""
    text, count = image.segments[0], image.text_len // 4
    content = bytearray(text.bytes)
    for _ in range(draw.choice([1, 2, 5])):
        word = random_word(draw)
        if not names_x31(word):
            k = draw.randrange(count)
            content[4 * k:4 * k + 4] = word.to_bytes(4, "little")
    text.bytes = bytes(content)


def put_symbols(draw, image, program):
    """Other symbols; the program's foci of these."""
    count = image.text_len // 4
    kept = [s for s in image.symbols if draw.random() < 0.6 or s.kind == "object"]
    for k in range(draw.randint(1, 6)):
        at = image.text_at + 4 * draw.randrange(count) + (2 if draw.random() < 0.1 else 0)
        name = draw.choice([b"q%d" % k, b"q%d" % k, b"main", b"lock_acquire", b"b,ad", b"read"])
        module = draw.choice([b"program", b"program", b"a.c", b"b.c"])
        kept.append(Symbol(name, "func", at, draw.choice([4, 4, 8, 12, 40, 0, 2, 4 * count]), module))
        program.foci.append("/Code/%s/%s" % (module.decode(), name.decode()))
    if len(image.segments) > 1:
        for k in range(draw.randint(0, 2)):
            at = image.segments[1].at + draw.randint(0, 40)
            module = draw.choice([b"program", b"a.c"])
            kept.append(Symbol(b"lock_%d" % k, "object", at, draw.choice([0, 1, 8]), module))
            program.foci.append("/SyncObject/lock_%d" % k)
    draw.shuffle(kept)
    image.symbols = program_last(kept)


def changed_file(draw, program):
    """An ELF file of the same text with other words, procedures, modules, objects and entry."""
    try:
        image = assembly.assemble(program.text.encode())
    except assembly.AsmFault:
        return program.text.encode()
    if draw.random() < 0.5:
        put_words(draw, image)
    put_symbols(draw, image, program)
    if draw.random() < 0.5:
        image.entry = image.text_at + 4 * draw.randrange(image.text_len // 4)
    if draw.random() < 0.2 and len(image.segments) == 2:
        text, data = image.segments     # the text's segment has data before and behind it
        content = text.bytes + bytes(range(draw.choice([0, 16, 64])))
        image.segments = [Segment(text.at, content, text.size + 100 + draw.choice([0, 64, 4096])), data]
    there = {"/Code/%s/%s" % (p.module.decode(), p.name.decode()) for p in points.procedures(image)[0]}
    program.gone = {"/Code/program/" + x for x in program.names} - there
    if not any(p.startswith("/Code/program/") for p in there):
        program.gone.add("/Code/program")
    program.foci = [x for x in program.foci if x in there] * 2
    return elf_writing.write(image)


def program_file(draw):
    """A random program, and the bytes of its file."""
    program = Text(draw)
    if draw.random() < 1 / 3:
        return program, changed_file(draw, program)
    return program, program.text.encode()
