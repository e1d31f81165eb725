"""Assembly texts: the image of a text, or the first fault."""
import re

from .image import Image, Segment, Symbol, module_name, program_last
from .instructions import REG_NAMES, enc, names_x31

TEXT_AT = 0x10000
DATA_AT = 0x1000000
TEXT_MOST = 524288
DATA_MOST = 16777216

TEXTS = {"BadLine": "bad line %d", "BadNumber": "bad number line %d",
         "UsesScratch": "uses x31 line %d", "TwiceNamed": "named twice line %d",
         "UnknownName": "unknown name line %d",
         "OutOfReach": "out of reach line %d", "NoText": "no text",
         "TextTooLong": "text too long %d", "DataTooLong": "data too long %d"}


class AsmFault(Exception):
    """The first fault of a text: its kind, and the line or the bytes that it tells."""

    def __init__(self, kind, number=None):
        Exception.__init__(self, kind, number)
        self.kind, self.number = kind, number

    def __str__(self):
        t = TEXTS[self.kind]
        return t % self.number if "%" in t else t


class _Bad(Exception):
    """BadLine on the present line."""


REGS = {b"x%d" % n: n for n in range(32)}
REGS.update((name.encode(), n) for n, name in enumerate(REG_NAMES))

NAME = rb"[A-Za-z_.][A-Za-z0-9_.]*"
_TOKEN = re.compile(
    rb"(?P<blank>[ \t]+)|(?P<name>" + NAME + rb")"
    rb"|(?P<number>-?(?:0x[0-9A-Fa-f]+|[0-9]+)(?![A-Za-z0-9_.]))"
    rb'|(?P<string>"(?:[^"\\]|\\[n\\"0])*")|(?P<sign>[,()])', re.DOTALL)
_LABEL = re.compile(NAME + rb":")
_HEAD = re.compile(NAME)
_ESCAPES = {b"n": b"\n", b"\\": b"\\", b'"': b'"', b"0": b"\0"}



def split_lines(text):
    """Lines ended by LF, the CR before it dropped; a rest without LF is a
    line too (its CR stays)."""
    pieces = text.split(b"\n")
    lines = [p[:-1] if p.endswith(b"\r") else p for p in pieces[:-1]]
    if pieces[-1]:
        lines.append(pieces[-1])
    return lines


def strip_line(line):
    """All from `#` on outside a string, and blanks at the ends, dropped."""
    i, n, string = 0, len(line), False
    while i < n:
        c = line[i]
        if string:
            if c == 0x5C:
                i += 1
            elif c == 0x22:
                string = False
        elif c == 0x22:
            string = True
        elif c == 0x23:
            line = line[:i]
            break
        i += 1
    return line.strip(b" \t")


def tokens(rest):
    """(kind, value) of the operands, blanks left out. _Bad if none fits."""
    out, i = [], 0
    while i < len(rest):
        m = _TOKEN.match(rest, i)
        if m is None:
            raise _Bad()
        i = m.end()
        if m.lastgroup == "blank":
            continue
        text = m.group()
        if m.lastgroup == "number":
            out.append(("number", _number(text)))
        elif m.lastgroup == "string":
            out.append(("string", re.sub(
                rb"\\(.)", lambda e: _ESCAPES[e.group(1)], text[1:-1],
                flags=re.DOTALL)))
        elif m.lastgroup == "sign":
            out.append((text.decode(), text))
        else:
            out.append(("name", text))
    return out


def _number(text):
    sign, digits = (-1, text[1:]) if text[:1] == b"-" else (1, text)
    if digits[:2] == b"0x":
        v = int(digits[2:], 16)
    else:
        digits = digits.lstrip(b"0") or b"0"
        # a number this long is outside every range; int() refuses 4,300 digits
        v = int(digits) if len(digits) < 40 else 10 ** 40
    return sign * v


# An item of a line, after the first pass: what pass two needs.
#   ('word', w) ('bytes', b) ('zero', n) ('branch', op, rs1, rs2, name)
#   ('jal', rd, name) ('la', rd, name)

# Operand shapes: R register, N number, L label name, S string, signs as such.
THREE_REGISTERS = "R,R,R"
SHAPES = {}


def _shape(ops, shape):
    for op in ops.split():
        SHAPES[op.encode()] = shape


_shape("add sub sll slt sltu xor srl sra or and addw subw sllw srlw sraw "
       "mul mulh mulhsu mulhu div divu rem remu mulw divw divuw remw remuw", THREE_REGISTERS)
_shape("addi slti sltiu xori ori andi slli srli srai "
       "addiw slliw srliw sraiw", "R,R,N")
_shape("lb lh lw ld lbu lhu lwu sb sh sw sd jalr", "R,N(R)")
_shape("beq bne blt bge bltu bgeu", "R,R,L")
_shape("jal la", "R,L")
_shape("lui auipc li", "R,N")
_shape("fence ecall ebreak nop ret .text .data .end", "")
_shape("mv", "R,R")
_shape("j call .proc .module", "L")
_shape("jr", "R")
_shape("beqz bnez", "R,L")
_shape(".object", "LN")
_shape(".word .byte .half .dword .zero .align", "N")
_shape(".ascii", "S")
for _w in (".w", ".d"):
    _shape("lr" + _w, "R,(R)")
    for _op in ("sc amoswap amoadd amoxor amoand amoor amomin amomax "
                "amominu amomaxu").split():
        _shape(_op + _w, "R,R,(R)")

IN_DATA = {b".byte", b".half", b".dword", b".zero", b".ascii", b".align",
           b".object"}
IN_BOTH = {b".word", b".text", b".data", b".module"}
BITS = {b".byte": 8, b".half": 16, b".word": 32, b".dword": 64}
BRANCH_OPS = {b"beq", b"bne", b"blt", b"bge", b"bltu", b"bgeu"}


def match_shape(shape, toks):
    """The operands' values in order, or _Bad."""
    if len(shape) != len(toks):
        raise _Bad()
    out = []
    for want, (kind, value) in zip(shape, toks):
        if want == "R":
            if kind != "name" or value not in REGS:
                raise _Bad()
            out.append(REGS[value])
        elif want == "N":
            if kind != "number":
                raise _Bad()
            out.append(value)
        elif want == "L":
            if kind != "name":
                raise _Bad()
            out.append(value)
        elif want == "S":
            if kind != "string":
                raise _Bad()
            out.append(value)
        elif kind != want:
            raise _Bad()
    return out


def number_fits(op, n):
    """Does N fit its place?"""
    if not -(1 << 63) <= n < (1 << 64):
        return False
    if op in BITS:
        b = BITS[op]
        return -(1 << (b - 1)) <= n < (1 << b)
    if op in (b".zero", b".object"):
        return n >= 0
    if op == b".align":
        return 0 <= n <= 12
    if op in (b"lui", b"auipc"):
        return 0 <= n <= 0xFFFFF
    if op == b"li":
        return -(1 << 31) <= n < (1 << 31)
    if op in (b"slli", b"srli", b"srai"):
        return 0 <= n <= 63
    if op in (b"slliw", b"srliw", b"sraiw"):
        return 0 <= n <= 31
    return -2048 <= n <= 2047           # addi and kin, loads, stores, jalr


def li_words(rd, n):
    if -2048 <= n <= 2047:
        return [enc("addi", rd, 0, imm=n)]
    return lui_addiw(rd, n)


def lui_addiw(rd, n):
    low = ((n & 0xFFF) ^ 0x800) - 0x800
    return [enc("lui", rd, imm=(n - low) & 0xFFFFFFFF),
            enc("addiw", rd, rd, imm=low)]


# what stands for a shorthand, of its operands
SHORTHANDS = {
    b"li": lambda v: [("word", w) for w in li_words(v[0], v[1])],
    b"la": lambda v: [("la", v[0], v[1])],
    b"jal": lambda v: [("jal", v[0], v[1])],
    b"j": lambda v: [("jal", 0, v[0])],
    b"call": lambda v: [("jal", 1, v[0])],
    b"jr": lambda v: [("word", enc("jalr", 0, v[0]))],
    b"ret": lambda v: [("word", enc("jalr", 0, 1))],
    b"nop": lambda v: [("word", enc("addi"))],
    b"mv": lambda v: [("word", enc("addi", v[0], v[1]))],
    b"beqz": lambda v: [("branch", "beq", v[0], 0, v[1])],
    b"bnez": lambda v: [("branch", "bne", v[0], 0, v[1])],
    b"fence": lambda v: [("word", 0x0FF0000F)],
}


def translate(op, shape, v):
    """The items of an instruction: words, or words that wait for a name."""
    if op in SHORTHANDS:
        return SHORTHANDS[op](v)
    name = op.decode()
    if shape == "R,R,L":
        return [("branch", name, v[0], v[1], v[2])]
    if shape == THREE_REGISTERS:
        word = enc(name, v[0], v[1], v[2])
    elif shape == "R,R,N":
        word = enc(name, v[0], v[1], imm=v[2])
    elif shape == "R,N(R)" and op in (b"sb", b"sh", b"sw", b"sd"):
        word = enc(name, rs1=v[2], rs2=v[0], imm=v[1])
    elif shape == "R,N(R)":
        word = enc(name, v[0], v[2], imm=v[1])
    elif shape == "R,R,(R)":
        word = enc(name, v[0], rs1=v[2], rs2=v[1])
    elif shape == "R,(R)":
        word = enc(name, v[0], rs1=v[1])
    elif shape == "R,N":
        word = enc(name, v[0], imm=v[1] << 12)
    else:
        word = enc(name)
    return [("word", word)]


class _Pass:
    """The first pass: it takes up one line after another, and keeps what waits for a name."""

    def __init__(self):
        self.section = "text"
        self.at = {"text": TEXT_AT, "data": DATA_AT}
        self.items = {"text": [], "data": []}    # (line, address, item)
        self.labels = {}                         # name -> (section, address)
        self.symbols = []
        self.module = b"program"
        self.open = None                         # (symbol, line)

    def line(self, no, line):
        rest = strip_line(line)
        names = []
        while True:
            m = _LABEL.match(rest)
            if m is None:
                break
            names.append(m.group()[:-1])
            rest = rest[m.end():].lstrip(b" \t")
        try:
            op, shape, v = self.form(rest)
        except _Bad:
            raise AsmFault("BadLine", no) from None
        for k, want in enumerate(x for x in shape if x in "RNLS"):
            if want == "N" and not number_fits(op, v[k]):
                raise AsmFault("BadNumber", no)
        if 31 in [x for x, want in
                  zip(v, (x for x in shape if x in "RNLS")) if want == "R"]:
            raise AsmFault("UsesScratch", no)
        if op == b".word" and self.section == "text" and names_x31(
                v[0] & 0xFFFFFFFF):
            raise AsmFault("UsesScratch", no)
        if op in (b".proc", b".object"):
            names.append(v[0])
        for name in names:
            if name in self.labels:
                raise AsmFault("TwiceNamed", no)
            self.labels[name] = (self.section, self.at[self.section])
        self.act(no, op, shape, v)

    def form(self, rest):
        """(op, shape, operands) of the line behind its labels, or _Bad."""
        if not rest:
            return b"", "", []
        m = _HEAD.match(rest)
        if m is None or m.group() not in SHAPES:
            raise _Bad()
        op, behind = m.group(), rest[m.end():]
        if behind and behind[:1] not in (b" ", b"\t"):
            raise _Bad()
        shape = SHAPES[op]
        v = match_shape(shape, tokens(behind))
        if op in IN_BOTH:
            pass
        elif op in IN_DATA:
            if self.section != "data":
                raise _Bad()
        elif self.section != "text":
            raise _Bad()
        if op == b".proc" and self.open is not None:
            raise _Bad()
        if op == b".end" and self.open is None:
            raise _Bad()
        return op, shape, v

    def act(self, no, op, shape, v):
        here = self.at[self.section]
        if op == b"":
            return
        if op == b".text":
            self.section = "text"
        elif op == b".data":
            self.section = "data"
        elif op == b".module":
            self.module = module_name(v[0])
        elif op == b".proc":
            self.open = (Symbol(v[0], "func", here, 0, self.module), no)
            self.symbols.append(self.open[0])
        elif op == b".end":
            self.open[0].size = here - self.open[0].at
            self.open = None
        elif op == b".object":
            self.symbols.append(Symbol(v[0], "object", here, v[1], self.module))
        elif op in BITS:
            n = BITS[op] // 8
            raw = (v[0] & ((1 << 8 * n) - 1)).to_bytes(n, "little")
            self.put(no, ("bytes", raw), n)
        elif op == b".zero":
            self.put(no, ("zero", v[0]), v[0])
        elif op == b".align":
            n = -here % (1 << v[0])
            self.put(no, ("zero", n), n)
        elif op == b".ascii":
            self.put(no, ("bytes", v[0]), len(v[0]))
        else:
            for item in translate(op, shape, v):
                self.put(no, item, 8 if item[0] == "la" else 4)

    def put(self, no, item, size):
        self.items[self.section].append((no, self.at[self.section], item))
        self.at[self.section] += size


def _second(p):
    """Resolve the names of text, first line first; the words' bytes."""
    out = []
    for no, at, item in p.items["text"]:
        kind = item[0]
        if kind == "word":
            out.append(item[1].to_bytes(4, "little"))
            continue
        if kind == "bytes":
            out.append(item[1])
            continue
        name = item[-1]
        if name not in p.labels:
            raise AsmFault("UnknownName", no)
        target = p.labels[name][1]
        if kind == "la":
            if not target < 1 << 31:
                raise AsmFault("OutOfReach", no)
            words = lui_addiw(item[1], target)
        else:
            step = target - at
            reach = 4096 if kind == "branch" else 1048576
            if not -reach <= step <= reach - 2 or step % 2:
                raise AsmFault("OutOfReach", no)
            if kind == "branch":
                words = [enc(item[1], rs1=item[2], rs2=item[3], imm=step)]
            else:
                words = [enc("jal", item[1], imm=step)]
        out.extend(w.to_bytes(4, "little") for w in words)
    return b"".join(out)


def assemble(text):
    p = _Pass()
    for no, line in enumerate(split_lines(text), 1):
        p.line(no, line)
    if p.open is not None:
        raise AsmFault("BadLine", p.open[1])
    code = _second(p)
    text_len = p.at["text"] - TEXT_AT
    data_len = p.at["data"] - DATA_AT
    if text_len == 0:
        raise AsmFault("NoText")
    if text_len > TEXT_MOST:
        raise AsmFault("TextTooLong", text_len)
    if data_len > DATA_MOST:
        raise AsmFault("DataTooLong", data_len)
    data = b"".join(i[1] if i[0] == "bytes" else bytes(i[1])
                    for _, _, i in p.items["data"])
    segments = [Segment(TEXT_AT, code, text_len)]
    if data:
        segments.append(Segment(DATA_AT, data, data_len))
    section, entry = p.labels.get(b"_start", ("data", 0))
    return Image(segments, TEXT_AT, text_len,
                 entry if section == "text" else TEXT_AT,
                 program_last(p.symbols))
