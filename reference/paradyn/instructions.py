"""Words as instructions: decoding, encoding, and what a word is as a point.

An instruction that isn't in the table of RV64I with M and A is no instruction.
"""

M64 = (1 << 64) - 1
M32 = (1 << 32) - 1

REG_NAMES = ["zero", "ra", "sp", "gp", "tp", "t0", "t1", "t2", "s0", "s1",
             "a0", "a1", "a2", "a3", "a4", "a5", "a6", "a7",
             "s2", "s3", "s4", "s5", "s6", "s7", "s8", "s9", "s10", "s11",
             "t3", "t4", "t5", "t6"]


class Instr:
    """One decoded word.

    fmt: 'U' (lui auipc), 'J' (jal), 'I' (jalr, loads, OP-IMM), 'B', 'S',
         'SH6'/'SH5' (shift immediates), 'R', 'A' (AMO row), 'FENCE', 'SYS'.
    imm: the value as the standard gives it (signed, bytes for B and J; for U
         the signed 32-bit value with its low 12 bits 0; the amount for a
         shift; the raw bits 31..20 for FENCE).
    A field that the format lacks is 0.
    """
    __slots__ = ("op", "fmt", "rd", "rs1", "rs2", "imm", "aq", "rl")

    def __init__(self, op, fmt, rd=0, rs1=0, rs2=0, imm=0, aq=0, rl=0):
        self.op, self.fmt, self.rd, self.rs1, self.rs2 = op, fmt, rd, rs1, rs2
        self.imm, self.aq, self.rl = imm, aq, rl

    def key(self):
        return (self.op, self.fmt, self.rd, self.rs1, self.rs2, self.imm,
                self.aq, self.rl)

    def __eq__(self, other):
        return isinstance(other, Instr) and self.key() == other.key()

    def __hash__(self):
        return hash(self.key())

    def __repr__(self):
        return "Instr%r" % (self.key(),)


BRANCHES = {0: "beq", 1: "bne", 4: "blt", 5: "bge", 6: "bltu", 7: "bgeu"}
LOADS = {0: "lb", 1: "lh", 2: "lw", 3: "ld", 4: "lbu", 5: "lhu", 6: "lwu"}
STORES = {0: "sb", 1: "sh", 2: "sw", 3: "sd"}
OP_IMM = {0: "addi", 2: "slti", 3: "sltiu", 4: "xori", 6: "ori", 7: "andi"}
OP = {0x00: {0: "add", 1: "sll", 2: "slt", 3: "sltu", 4: "xor", 5: "srl",
             6: "or", 7: "and"},
      0x20: {0: "sub", 5: "sra"},
      0x01: {0: "mul", 1: "mulh", 2: "mulhsu", 3: "mulhu", 4: "div",
             5: "divu", 6: "rem", 7: "remu"}}
OP_32 = {0x00: {0: "addw", 1: "sllw", 5: "srlw"},
         0x20: {0: "subw", 5: "sraw"},
         0x01: {0: "mulw", 4: "divw", 5: "divuw", 6: "remw", 7: "remuw"}}
SHIFT_6 = {(0x00, 1): "slli", (0x00, 5): "srli", (0x10, 5): "srai"}
SHIFT_5 = {(0x00, 1): "slliw", (0x00, 5): "srliw", (0x20, 5): "sraiw"}
AMO = {0x02: "lr", 0x03: "sc", 0x01: "amoswap", 0x00: "amoadd",
       0x04: "amoxor", 0x0C: "amoand", 0x08: "amoor", 0x10: "amomin",
       0x14: "amomax", 0x18: "amominu", 0x1C: "amomaxu"}


def _sx(v, bits):
    """v's low bits as a signed number."""
    v &= (1 << bits) - 1
    return v - (1 << bits) if v >> (bits - 1) else v


def _upper(w, opcode):
    op = "lui" if opcode == 0x37 else "auipc"
    return Instr(op, "U", (w >> 7) & 31, imm=_sx(w & 0xFFFFF000, 32))


def _jump(w, opcode):
    imm = ((w >> 31) << 20 | ((w >> 12) & 0xFF) << 12 |
           ((w >> 20) & 1) << 11 | ((w >> 21) & 0x3FF) << 1)
    return Instr("jal", "J", (w >> 7) & 31, imm=_sx(imm, 21))


def _branch(w, opcode):
    op = BRANCHES.get((w >> 12) & 7)
    imm = ((w >> 31) << 12 | ((w >> 7) & 1) << 11 |
           ((w >> 25) & 0x3F) << 5 | ((w >> 8) & 0xF) << 1)
    return op and Instr(op, "B", 0, (w >> 15) & 31, (w >> 20) & 31, _sx(imm, 13))


def _store(w, opcode):
    op = STORES.get((w >> 12) & 7)
    imm = _sx((w >> 25) << 5 | (w >> 7) & 31, 12)
    return op and Instr(op, "S", 0, (w >> 15) & 31, (w >> 20) & 31, imm)


def _immediate(w, opcode):
    """jalr, loads, and operations with an immediate."""
    f3, rd, rs1 = (w >> 12) & 7, (w >> 7) & 31, (w >> 15) & 31
    op = {0x67: {0: "jalr"}, 0x03: LOADS, 0x13: OP_IMM, 0x1B: {0: "addiw"}}[opcode].get(f3)
    if op:
        return Instr(op, "I", rd, rs1, imm=_sx(w >> 20, 12))
    if opcode == 0x13:
        op = SHIFT_6.get((w >> 26, f3))
        return op and Instr(op, "SH6", rd, rs1, imm=(w >> 20) & 63)
    if opcode == 0x1B:
        op = SHIFT_5.get((w >> 25, f3))
        return op and Instr(op, "SH5", rd, rs1, imm=(w >> 20) & 31)
    return None


def _register(w, opcode):
    op = (OP if opcode == 0x33 else OP_32).get(w >> 25, {}).get((w >> 12) & 7)
    return op and Instr(op, "R", (w >> 7) & 31, (w >> 15) & 31, (w >> 20) & 31)


def _fence(w, opcode):
    if (w >> 12) & 7:
        return None
    return Instr("fence", "FENCE", (w >> 7) & 31, (w >> 15) & 31, imm=w >> 20)


def _system(w, opcode):
    op = {0x00000073: "ecall", 0x00100073: "ebreak"}.get(w)
    return op and Instr(op, "SYS")


def _atomic(w, opcode):
    op, f3, rs2 = AMO.get(w >> 27), (w >> 12) & 7, (w >> 20) & 31
    if f3 not in (2, 3) or op is None or (op == "lr" and rs2 != 0):
        return None
    return Instr(op + (".w" if f3 == 2 else ".d"), "A", (w >> 7) & 31, (w >> 15) & 31, rs2,
                 aq=(w >> 26) & 1, rl=(w >> 25) & 1)


DECODERS = {0x37: _upper, 0x17: _upper, 0x6F: _jump, 0x67: _immediate, 0x63: _branch, 0x03: _immediate, 0x23: _store,
            0x13: _immediate, 0x1B: _immediate, 0x33: _register, 0x3B: _register, 0x0F: _fence, 0x73: _system,
            0x2F: _atomic}


def decode(w):
    """The instruction of a word, or None where it has none."""
    if not 0 <= w <= M32 or w & 0x7F not in DECODERS:
        return None
    return DECODERS[w & 0x7F](w, w & 0x7F) or None


def _rows():
    """op -> the fixed bits of its row."""
    rows = {"lui": 0x37, "auipc": 0x17, "jal": 0x6F, "jalr": 0x67,
            "fence": 0x0F, "ecall": 0x73, "ebreak": 0x00100073,
            "addiw": 0x1B}
    for f3, op in BRANCHES.items():
        rows[op] = 0x63 | f3 << 12
    for f3, op in LOADS.items():
        rows[op] = 0x03 | f3 << 12
    for f3, op in STORES.items():
        rows[op] = 0x23 | f3 << 12
    for f3, op in OP_IMM.items():
        rows[op] = 0x13 | f3 << 12
    for (f6, f3), op in SHIFT_6.items():
        rows[op] = 0x13 | f3 << 12 | f6 << 26
    for (f7, f3), op in SHIFT_5.items():
        rows[op] = 0x1B | f3 << 12 | f7 << 25
    for f7, ops in OP.items():
        for f3, op in ops.items():
            rows[op] = 0x33 | f3 << 12 | f7 << 25
    for f7, ops in OP_32.items():
        for f3, op in ops.items():
            rows[op] = 0x3B | f3 << 12 | f7 << 25
    for f5, op in AMO.items():
        rows[op + ".w"] = 0x2F | 2 << 12 | f5 << 27
        rows[op + ".d"] = 0x2F | 3 << 12 | f5 << 27
    return rows


ROWS = _rows()


def _formats():
    out = {"lui": "U", "auipc": "U", "jal": "J", "jalr": "I",
           "fence": "FENCE", "ecall": "SYS", "ebreak": "SYS", "addiw": "I"}
    out.update((o, "B") for o in BRANCHES.values())
    out.update((o, "I") for o in LOADS.values())
    out.update((o, "S") for o in STORES.values())
    out.update((o, "I") for o in OP_IMM.values())
    out.update((o, "SH6") for o in SHIFT_6.values())
    out.update((o, "SH5") for o in SHIFT_5.values())
    for table in (OP, OP_32):
        for ops in table.values():
            out.update((o, "R") for o in ops.values())
    for o in AMO.values():
        out[o + ".w"] = out[o + ".d"] = "A"
    return out


FORMATS = _formats()


def make(op, rd=0, rs1=0, rs2=0, imm=0, aq=0, rl=0):
    """An instruction by its name alone."""
    return Instr(op, FORMATS[op], rd, rs1, rs2, imm, aq, rl)


def encode(i):
    """The word of an instruction."""
    w = ROWS[i.op] | i.rd << 7 | i.rs1 << 15 | i.rs2 << 20
    v = i.imm
    if i.fmt == "U":
        return w | (v & 0xFFFFF000)
    if i.fmt == "J":
        return (w | ((v >> 20) & 1) << 31 | ((v >> 1) & 0x3FF) << 21 |
                ((v >> 11) & 1) << 20 | ((v >> 12) & 0xFF) << 12)
    if i.fmt == "B":
        return (w | ((v >> 12) & 1) << 31 | ((v >> 5) & 0x3F) << 25 |
                ((v >> 1) & 0xF) << 8 | ((v >> 11) & 1) << 7)
    if i.fmt == "S":
        return w | ((v >> 5) & 0x7F) << 25 | (v & 31) << 7
    if i.fmt in ("I", "FENCE"):
        return w | (v & 0xFFF) << 20
    if i.fmt in ("SH6", "SH5"):
        return w | v << 20
    if i.fmt == "A":
        return w | i.aq << 26 | i.rl << 25
    return w


def enc(op, rd=0, rs1=0, rs2=0, imm=0):
    """encode(make(..)), for short."""
    return encode(make(op, rd, rs1, rs2, imm))


def names_x31(word):
    """The word decodes, and a register field of its form is 31 (not FENCE)."""
    i = decode(word)
    if i is None or i.fmt in ("FENCE", "SYS"):
        return False
    return 31 in (i.rd, i.rs1, i.rs2)


def first_scratch(text, at):
    """The address of the first word that names x31, or None."""
    for o in range(0, len(text), 4):
        if names_x31(int.from_bytes(text[o:o + 4], "little")):
            return at + o
    return None


def jump_target(word, at):
    """The target of a jal or branch at `at`; None for every other word."""
    i = decode(word)
    if i is None or i.fmt not in ("J", "B"):
        return None
    return (at + i.imm) & M64


def is_return(word, at, start, length):
    i = decode(word)
    if i is None or i.rd != 0:
        return False
    if i.op == "jalr":
        return i.imm == 0 and i.rs1 in (1, 5)
    if i.op == "jal":
        t = (at + i.imm) & M64
        return not start <= t < start + length
    return False


def is_call(word):
    i = decode(word)
    return i is not None and i.op in ("jal", "jalr") and i.rd in (1, 5)
