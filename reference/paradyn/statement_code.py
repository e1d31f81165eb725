"""The tool's code of statements: the words that act on the variables of an instrument.

A marked word is (word, mark). A statement is (conditions, action), where
  a condition is (left, sign, right) with left ('counter', variable) or ('arg', number) and right a number,
  an action is ('up', v), ('down', v), ('put', v, number), ('start', v) or ('stop', v).
A variable goes by its number; slots[v] is its first slot.
"""


OWN, ENTER, TOOL, LEAVE = "Own", "Enter", "Tool", "Leave"
MASK64 = (1 << 64) - 1
X5, X31 = 5, 31


# Encoders that share nothing with those of instructions.

def lui(rd, hi20):
    return ((hi20 & 0xFFFFF) << 12) | (rd << 7) | 0x37


def _i(op, f3, rd, rs1, imm):
    assert -2048 <= imm <= 2047
    return ((imm & 0xFFF) << 20) | (rs1 << 15) | (f3 << 12) | (rd << 7) | op


def addi(rd, rs1, imm):
    return _i(0x13, 0, rd, rs1, imm)


def addiw(rd, rs1, imm):
    return _i(0x1B, 0, rd, rs1, imm)


def ld(rd, imm, rs1):
    return _i(0x03, 3, rd, rs1, imm)


def sd(rs2, imm, rs1):
    assert -2048 <= imm <= 2047
    i = imm & 0xFFF
    return ((i >> 5) << 25) | (rs2 << 20) | (rs1 << 15) | (3 << 12) | ((i & 31) << 7) | 0x23


def add(rd, rs1, rs2):
    return (rs2 << 20) | (rs1 << 15) | (rd << 7) | 0x33


def sub(rd, rs1, rs2):
    return (0x20 << 25) | (rs2 << 20) | (rs1 << 15) | (rd << 7) | 0x33


def branch(f3, rs1, rs2, disp):
    assert -4096 <= disp <= 4094 and disp % 2 == 0
    d = disp & 0x1FFF
    return ((d >> 12) << 31) | (((d >> 5) & 0x3F) << 25) | (rs2 << 20) | (rs1 << 15) | (f3 << 12) \
        | (((d >> 1) & 0xF) << 8) | (((d >> 11) & 1) << 7) | 0x63


BEQ, BNE, BLTU, BGEU = 0, 1, 6, 7


def jal(rd, disp):
    assert -1048576 <= disp <= 1048574 and disp % 2 == 0, disp
    d = disp & 0x1FFFFF
    return ((d >> 20) << 31) | (((d >> 1) & 0x3FF) << 21) | (((d >> 11) & 1) << 20) \
        | (((d >> 12) & 0xFF) << 12) | (rd << 7) | 0x6F


def hi_lo(value):
    """hi * 4096 + lo = value as a signed 32-bit number; lo from -2048 to 2047"""
    lo = (value & 0xFFF) - (0x1000 if value & 0x800 else 0)
    hi = (value - lo) >> 12
    return hi, lo


def hi(slot):
    return hi_lo(8 * slot)[0]


def lo(slot):
    return hi_lo(8 * slot)[1]


def li2(r, n):
    h, l = hi_lo(n)
    return [lui(r, h), addiw(r, r, l)]



def _act_words(act, slots):
    k, v = act[0], act[1]
    s = slots[v]
    if k == "up":
        return [lui(X31, hi(s)), ld(X5, lo(s), X31), addi(X5, X5, 1), sd(X5, lo(s), X31)]
    if k == "down":
        return [lui(X31, hi(s)), ld(X5, lo(s), X31), branch(BEQ, X5, 0, 12), addi(X5, X5, -1), sd(X5, lo(s), X31)]
    if k == "put":
        return li2(X5, act[2]) + [lui(X31, hi(s)), sd(X5, lo(s), X31)]
    n = s + 1
    if k == "start":
        return [lui(X31, hi(n)), ld(X5, lo(n), X31), addi(X5, X5, 1), sd(X5, lo(n), X31), addi(X5, X5, -1),
                branch(BNE, X5, 0, 28),
                lui(X31, hi(s)), ld(X31, lo(s), X31), ld(X5, 0, 0), sub(X5, X31, X5), lui(X31, hi(s)),
                sd(X5, lo(s), X31)]
    assert k == "stop"
    return [lui(X31, hi(n)), ld(X5, lo(n), X31), branch(BEQ, X5, 0, 40), addi(X5, X5, -1), sd(X5, lo(n), X31),
            branch(BNE, X5, 0, 28),
            lui(X31, hi(s)), ld(X31, lo(s), X31), ld(X5, 0, 0), add(X5, X31, X5), lui(X31, hi(s)),
            sd(X5, lo(s), X31)]


ACT_WORDS = {"up": 4, "down": 5, "put": 4, "start": 12, "stop": 12}


def stmt_words_of(stmt):
    conds, act = stmt
    return ACT_WORDS[act[0]] + sum(5 if c[0][0] == "counter" else 3 for c in conds)


def words_of(stmts):
    return sum(stmt_words_of(s) for s in stmts)


def _branch_over(cmp, a, disp):
    if cmp == "==":
        return branch(BNE, a, X31, disp)
    if cmp == "!=":
        return branch(BEQ, a, X31, disp)
    if cmp == "<":
        return branch(BGEU, a, X31, disp)
    if cmp == ">=":
        return branch(BLTU, a, X31, disp)
    if cmp == ">":
        return branch(BGEU, X31, a, disp)
    assert cmp == "<="
    return branch(BLTU, X31, a, disp)


def compile_stmts(stmts, slots):
    out = []
    for stmt in stmts:
        conds, act = stmt
        total = stmt_words_of(stmt)
        words = []
        for left, cmp, right in conds:
            if left[0] == "counter":
                s = slots[left[1]]
                words += [lui(X31, hi(s)), ld(X5, lo(s), X31)]
                a = X5
            else:
                a = 10 + left[1]
            words += li2(X31, right)
            words.append(_branch_over(cmp, a, (total - len(words)) * 4))
        words += _act_words(act, slots)
        assert len(words) == total
        out += [(w, TOOL) for w in words]
    return out
