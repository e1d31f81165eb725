"""The text of a word, as the assembler reads it."""
from .instructions import REG_NAMES, decode

NUMBERED = {"I", "SH6", "SH5"}


def label(at):
    """The name of an address."""
    return b"L%x" % at


def _reg(n):
    return REG_NAMES[n].encode()


def _memory(n, base):
    return b"%d(%s)" % (n, _reg(base))


def _is_spelled(i, at, target):
    """Whether the assembler has a form for the instruction: a jump has to lead forwards or backwards by no more than
    its form reaches, no form has the bits of an order, and `fence` is that of all accesses."""
    if i.fmt == "A":
        return not (i.aq or i.rl)
    if i.fmt == "FENCE":
        return (i.rd, i.rs1, i.imm) == (0, 0, 0x0FF)
    if i.fmt in ("J", "B"):
        # a target below 0, or at 2^64 and above, wraps and is too far
        return target == at + i.imm
    return True


def _operands(i, target):
    if i.fmt == "U":
        return [_reg(i.rd), b"%d" % (i.imm >> 12 & 0xFFFFF)]
    if i.fmt == "J":
        return [_reg(i.rd), label(target)]
    if i.fmt == "B":
        return [_reg(i.rs1), _reg(i.rs2), label(target)]
    if i.fmt == "S":
        return [_reg(i.rs2), _memory(i.imm, i.rs1)]
    if i.op == "jalr" or i.op in ("lb", "lh", "lw", "ld", "lbu", "lhu", "lwu"):
        return [_reg(i.rd), _memory(i.imm, i.rs1)]
    if i.fmt in NUMBERED:
        return [_reg(i.rd), _reg(i.rs1), b"%d" % i.imm]
    if i.fmt == "R":
        return [_reg(i.rd), _reg(i.rs1), _reg(i.rs2)]
    if i.fmt == "A":
        return [_reg(i.rd)] + ([] if i.op.startswith("lr") else [_reg(i.rs2)]) + [b"(%s)" % _reg(i.rs1)]
    return []


def _spelled(i, name, target):
    operands = _operands(i, target)
    return name.encode() + (b" " + b", ".join(operands) if operands else b"")


def text(at, word):
    """The instruction at an address, and the word's value where no form spells it. What an atomic access with an order
    is stands behind its value as a comment."""
    i = decode(word)
    target = (at + i.imm) % 2 ** 64 if i and i.fmt in ("J", "B") else None
    if i is not None and _is_spelled(i, at, target):
        return _spelled(i, i.op, target)
    value = b".word 0x%x" % word
    if i is not None and i.fmt == "A":
        return value + b"  # " + _spelled(i, i.op + "." + "aq" * i.aq + "rl" * i.rl, target)
    return value
