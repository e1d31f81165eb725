"""What an instruction does to a hart: the next pc, or the cause for which the hart stops.

A word is made a function f(pc, hart, regs, mem, reservations, out) that gives the next pc (a number) or a cause (a
tuple). Registers are a list of 32 numbers below 2^64, of which the first stays 0. """
from .instructions import M32, M64, _sx, decode
from .memory import OUTPUT_MOST, WRITE_MOST


def _s64(v):
    return v - (1 << 64) if v >> 63 else v


def _sx32(v):
    """The low 32 bits, sign-extended to 64 and taken modulo 2^64."""
    v &= M32
    return v | 0xFFFFFFFF00000000 if v >> 31 else v


def _s32(v):
    v &= M32
    return v - (1 << 32) if v >> 31 else v


def _quot(a, b):
    """Signed quotient towards 0, b not 0."""
    q = abs(a) // abs(b)
    return -q if (a < 0) != (b < 0) else q


def _div(a, b):
    if b == 0:
        return M64
    return _quot(_s64(a), _s64(b)) & M64      # the overflow case wraps to a


def _rem(a, b):
    if b == 0:
        return a
    x, y = _s64(a), _s64(b)
    return (x - _quot(x, y) * y) & M64


def _divw(a, b):
    if b & M32 == 0:
        return M64
    return _sx32(_quot(_s32(a), _s32(b)))


def _remw(a, b):
    if b & M32 == 0:
        return _sx32(a)
    x, y = _s32(a), _s32(b)
    return _sx32(x - _quot(x, y) * y)


def _divuw(a, b):
    a &= M32
    b &= M32
    return M64 if b == 0 else _sx32(a // b)


def _remuw(a, b):
    a &= M32
    b &= M32
    return _sx32(a) if b == 0 else _sx32(a % b)


# operands and results in [0, 2^64)
ALU = {
    "add": lambda a, b: (a + b) & M64,
    "sub": lambda a, b: (a - b) & M64,
    "sll": lambda a, b: (a << (b & 63)) & M64,
    "slt": lambda a, b: 1 if _s64(a) < _s64(b) else 0,
    "sltu": lambda a, b: 1 if a < b else 0,
    "xor": lambda a, b: a ^ b,
    "srl": lambda a, b: a >> (b & 63),
    "sra": lambda a, b: (_s64(a) >> (b & 63)) & M64,
    "or": lambda a, b: a | b,
    "and": lambda a, b: a & b,
    "mul": lambda a, b: (a * b) & M64,
    "mulh": lambda a, b: ((_s64(a) * _s64(b)) >> 64) & M64,
    "mulhsu": lambda a, b: ((_s64(a) * b) >> 64) & M64,
    "mulhu": lambda a, b: (a * b) >> 64,
    "div": _div,
    "divu": lambda a, b: M64 if b == 0 else a // b,
    "rem": _rem,
    "remu": lambda a, b: a if b == 0 else a % b,
    "addw": lambda a, b: _sx32(a + b),
    "subw": lambda a, b: _sx32(a - b),
    "sllw": lambda a, b: _sx32(a << (b & 31)),
    "srlw": lambda a, b: _sx32((a & M32) >> (b & 31)),
    "sraw": lambda a, b: _sx32(_s32(a) >> (b & 31)),
    "mulw": lambda a, b: _sx32(a * b),
    "divw": _divw, "divuw": _divuw, "remw": _remw, "remuw": _remuw,
}
IMM_ALU = {"addi": "add", "slti": "slt", "sltiu": "sltu", "xori": "xor",
           "ori": "or", "andi": "and", "slli": "sll", "srli": "srl",
           "srai": "sra", "addiw": "addw", "slliw": "sllw", "srliw": "srlw",
           "sraiw": "sraw"}
TAKEN = {
    "beq": lambda a, b: a == b,
    "bne": lambda a, b: a != b,
    "blt": lambda a, b: _s64(a) < _s64(b),
    "bge": lambda a, b: _s64(a) >= _s64(b),
    "bltu": lambda a, b: a < b,
    "bgeu": lambda a, b: a >= b,
}
WIDTH = {"b": 1, "h": 2, "w": 4, "d": 8}
# on operands of the access's width (unsigned), bits = 32 or 64
AMO_OPS = {
    "amoswap": lambda old, v, bits: v,
    "amoadd": lambda old, v, bits: old + v,
    "amoxor": lambda old, v, bits: old ^ v,
    "amoand": lambda old, v, bits: old & v,
    "amoor": lambda old, v, bits: old | v,
    "amomin": lambda old, v, bits: old if _sx(old, bits) <= _sx(v, bits) else v,
    "amomax": lambda old, v, bits: old if _sx(old, bits) >= _sx(v, bits) else v,
    "amominu": lambda old, v, bits: min(old, v),
    "amomaxu": lambda old, v, bits: max(old, v),
}

MISALIGNED = ("misaligned",)
ILLEGAL = ("illegal",)
BREAK = ("break",)
FETCH_OUTSIDE = ("fetch-outside",)


def _ecall(pc, hart, regs, mem, reservations, out):
    number = regs[17]
    if number in (93, 94):
        return ("exit", regs[10] & 0xFF)
    if number != 64:
        regs[10] = -38 & M64
        return pc + 4
    if regs[10] not in (1, 2):
        regs[10] = -9 & M64
        return pc + 4
    at, n = regs[11], min(regs[12], WRITE_MOST)
    cause = mem.probe(at, n) if n else None
    if cause is not None:
        if cause[0] == "text-access":
            return cause
        regs[10] = -14 & M64
        return pc + 4
    if len(out.data) + n > OUTPUT_MOST:
        regs[10] = -28 & M64
        return pc + 4
    out.data += bytes(_bytes_at(mem, at, n))
    regs[10] = n
    return pc + 4


def _bytes_at(mem, at, n):
    p = mem._piece(at, n)
    if p is not None:
        o = at - p[2]
        return p[3][o:o + n]
    return bytes(mem.byte((at + k) & M64) for k in range(n))


def _next(pc, hart, regs, mem, reservations, out):
    return pc + 4


def _upper(i):
    rd, imm, relative = i.rd, i.imm, i.op == "auipc"

    def f(pc, hart, regs, mem, reservations, out):
        if rd:
            regs[rd] = (pc + imm if relative else imm) & M64
        return pc + 4
    return f


def _jal(i):
    rd, imm = i.rd, i.imm

    def f(pc, hart, regs, mem, reservations, out):
        target = (pc + imm) & M64
        if target & 3:
            return MISALIGNED
        if rd:
            regs[rd] = (pc + 4) & M64
        return target
    return f


def _jalr(i):
    rd, rs1, imm = i.rd, i.rs1, i.imm

    def f(pc, hart, regs, mem, reservations, out):
        target = (regs[rs1] + imm) & M64 & ~1
        if target & 3:
            return MISALIGNED
        if rd:
            regs[rd] = (pc + 4) & M64
        return target
    return f


def _branch(i):
    taken, rs1, rs2, imm = TAKEN[i.op], i.rs1, i.rs2, i.imm

    def f(pc, hart, regs, mem, reservations, out):
        if not taken(regs[rs1], regs[rs2]):
            return pc + 4
        target = (pc + imm) & M64
        return MISALIGNED if target & 3 else target
    return f


def _with_immediate(i):
    g, rd, rs1, b = ALU[IMM_ALU[i.op]], i.rd, i.rs1, i.imm & M64

    def f(pc, hart, regs, mem, reservations, out):
        if rd:
            regs[rd] = g(regs[rs1], b)
        return pc + 4
    return f


def _with_register(i):
    g, rd, rs1, rs2 = ALU[i.op], i.rd, i.rs1, i.rs2

    def f(pc, hart, regs, mem, reservations, out):
        if rd:
            regs[rd] = g(regs[rs1], regs[rs2])
        return pc + 4
    return f


def _load(i):
    rd, rs1, imm, n = i.rd, i.rs1, i.imm, WIDTH[i.op[1]]
    signed = not i.op.endswith("u")
    top = 1 << (8 * n - 1)
    ext = M64 & ~((1 << (8 * n)) - 1)

    def f(pc, hart, regs, mem, reservations, out):
        v = mem.load((regs[rs1] + imm) & M64, n)
        if v.__class__ is tuple:
            return v
        if rd:
            regs[rd] = v | ext if signed and v & top else v
        return pc + 4
    return f


def _store(i):
    rs1, rs2, imm, n = i.rs1, i.rs2, i.imm, WIDTH[i.op[1]]

    def f(pc, hart, regs, mem, reservations, out):
        at = (regs[rs1] + imm) & M64
        cause = mem.store(at, n, regs[rs2])
        if cause is not None:
            return cause
        if reservations.some:
            reservations.stored(hart, at, n)
        return pc + 4
    return f


def _load_reserved(i, n):
    rd, rs1 = i.rd, i.rs1

    def f(pc, hart, regs, mem, reservations, out):
        at = regs[rs1]
        if at & (n - 1):
            return MISALIGNED
        v = mem.load(at, n)
        if v.__class__ is tuple:
            return v
        reservations.put(hart, at)
        if rd:
            regs[rd] = _sx32(v) if n == 4 else v
        return pc + 4
    return f


def _store_conditional(i, n):
    rd, rs1, rs2 = i.rd, i.rs1, i.rs2

    def f(pc, hart, regs, mem, reservations, out):
        at = regs[rs1]
        held = reservations.get(hart) == at & ~7
        reservations.clear(hart)
        if at & (n - 1):
            return MISALIGNED
        cause = mem.probe(at, n)
        if cause is not None:
            return cause
        if held:
            mem.store(at, n, regs[rs2])
            reservations.stored(hart, at, n)
        if rd:
            regs[rd] = 0 if held else 1
        return pc + 4
    return f


def _atomic(i):
    name, width = i.op.split(".")
    n = 4 if width == "w" else 8
    if name == "lr":
        return _load_reserved(i, n)
    if name == "sc":
        return _store_conditional(i, n)
    g, rd, rs1, rs2, bits = AMO_OPS[name], i.rd, i.rs1, i.rs2, 8 * n
    mask = (1 << bits) - 1

    def f(pc, hart, regs, mem, reservations, out):
        at = regs[rs1]
        if at & (n - 1):
            return MISALIGNED
        old = mem.load(at, n)
        if old.__class__ is tuple:
            return old
        mem.store(at, n, g(old, regs[rs2] & mask, bits) & mask)
        reservations.stored(hart, at, n)
        if rd:
            regs[rd] = _sx32(old) if n == 4 else old
        return pc + 4
    return f


def _compile(word):
    i = decode(word)
    if i is None:
        return lambda pc, hart, regs, mem, reservations, out: ILLEGAL
    if i.op == "ecall":
        return _ecall
    if i.op == "ebreak":
        return lambda pc, hart, regs, mem, reservations, out: BREAK
    if i.op == "fence":
        return _next
    if i.op in ("jal", "jalr"):
        return _jal(i) if i.op == "jal" else _jalr(i)
    if i.op in IMM_ALU:
        return _with_immediate(i)
    return {"U": _upper, "B": _branch, "R": _with_register, "I": _load, "S": _store, "A": _atomic}[i.fmt](i)


# the functions of words, which are kept
KEPT = {}


def code_of(word):
    """The function of a word; it is kept."""
    f = KEPT.get(word)
    if f is None:
        f = KEPT[word] = _compile(word)
    return f
