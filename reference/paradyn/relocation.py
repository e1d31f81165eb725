"""Moved words: what stands for a word of the program in a trampoline."""
from .statement_code import LEAVE, OWN, TOOL, X31, addi, addiw, branch, hi_lo, jal, lui, _i


class Unmovable(Exception):
    """The word can't be moved there."""


def _sext(v, bits):
    return v - (1 << bits) if v >> (bits - 1) & 1 else v


def imm_j(w):
    bits = ((w >> 31) << 20) | (((w >> 12) & 0xFF) << 12) | (((w >> 20) & 1) << 11) | (((w >> 21) & 0x3FF) << 1)
    return _sext(bits, 21)


def imm_b(w):
    return _sext(((w >> 31) << 12) | (((w >> 7) & 1) << 11) | (((w >> 25) & 0x3F) << 5) | (((w >> 8) & 0xF) << 1), 13)


def imm_i(w):
    return _sext(w >> 20, 12)


def shape(w):
    """auipc | jal | jal0 | jalr | jalr0 | branch | other"""
    op, f3, rd = w & 0x7F, (w >> 12) & 7, (w >> 7) & 31
    if op == 0x17:
        return "auipc"
    if op == 0x6F:
        return "jal" if rd else "jal0"
    if op == 0x67 and f3 == 0:
        return "jalr" if rd else "jalr0"
    if op == 0x63 and f3 in (0, 1, 4, 5, 6, 7):
        return "branch"
    return "other"


MOVED = {"auipc": 3, "jal": 3, "jal0": 1, "jalr": 4, "jalr0": 1, "branch": 3, "other": 2}


def moved_len(w):
    return MOVED[shape(w)]


def _check_target(target, jump_at):
    if target % 4 or not 0 <= target <= (1 << 31) - 1:
        raise Unmovable()
    if not -1048576 <= target - jump_at <= 1048574:
        raise Unmovable()


def _moved_jump(word, from_, to):
    rd, target = (word >> 7) & 31, from_ + imm_j(word)
    at = to + (8 if rd else 0)
    _check_target(target, at)
    jump = (jal(0, target - at), OWN)
    if rd == 0:
        return [jump]
    h, l = hi_lo(from_ + 4)
    return [(lui(rd, h), TOOL), (addiw(rd, rd, l), TOOL), jump]


def _moved_branch(word, from_, to):
    target = from_ + imm_b(word)
    _check_target(target, to + 8)
    # the same comparison, which leads over one word where it is taken
    distance = (0x7F << 25) | (0x1F << 7)
    w = (word & ~distance) | (branch(0, 0, 0, 8) & distance)
    return [(w, OWN), (jal(0, from_ + 4 - (to + 4)), LEAVE), (jal(0, target - (to + 8)), LEAVE)]


def _moved_auipc(word, from_, to):
    rd, value = (word >> 7) & 31, from_ + _sext(word & 0xFFFFF000, 32)
    if not -(1 << 31) <= value <= (1 << 31) - 1:
        raise Unmovable()
    h, l = hi_lo(value)
    return [(lui(rd, h), TOOL), (addiw(rd, rd, l), OWN), (jal(0, from_ + 4 - (to + 8)), LEAVE)]


def move_word(word, from_, to):
    """The moved words of the program's word at `from_`, which stand from `to` on."""
    form, rd, rs1 = shape(word), (word >> 7) & 31, (word >> 15) & 31
    if form == "auipc":
        return _moved_auipc(word, from_, to)
    if form in ("jal", "jal0"):
        return _moved_jump(word, from_, to)
    if form == "jalr":
        h, l = hi_lo(from_ + 4)
        return [(addi(X31, rs1, imm_i(word)), TOOL), (lui(rd, h), TOOL), (addiw(rd, rd, l), TOOL),
                (_i(0x67, 0, 0, X31, 0), OWN)]
    if form == "jalr0":
        return [(word, OWN)]
    if form == "branch":
        return _moved_branch(word, from_, to)
    return [(word, OWN), (jal(0, from_ + 4 - (to + 4)), LEAVE)]


def home_of(word, mark, at, point):
    """The address of the program's word that is due where a hart stands at `at` in a block of `point`."""
    return at + imm_j(word) if mark == LEAVE else point
