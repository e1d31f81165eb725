"""Random changes of files, and random assembly texts."""
import re

from paradyn import assembly
from .configurations import changed

# where an ELF header has numbers, and how many bytes they have
HEADER_FIELDS = [(4, 1), (5, 1), (16, 2), (18, 2), (24, 8), (32, 8), (40, 8), (48, 4), (54, 2), (56, 2), (58, 2),
                 (60, 2)]
NUMBERS = [0, 1, 2, 3, 4, 6, 8, 16, 17, 24, 31, 32, 33, 50, 56, 64, 127, 128, 255, 0xFFF, 0x1000, 0x10000, 0x80000,
           0x1000000, 0x60000000, 2 ** 31, 2 ** 32 - 1, 2 ** 32, 2 ** 63, 2 ** 64 - 8, 2 ** 64 - 1]
REGISTERS = ["x%d" % n for n in range(31)] + ["zero", "ra", "sp", "t0", "a0", "s0", "s11", "t5"]
LABELS = ["a", "b", "loop", "_start", "x.y", ".l", "data", "nowhere"]
WORD_NUMBERS = [0, 1, -1, 7, 31, 32, 63, 64, 255, 2047, 2048, -2048, -2049, 4095, 65535, 0xFFFFF, 0x100000, 2 ** 31 - 1,
                2 ** 31, -2 ** 31, -2 ** 31 - 1, 2 ** 32 - 1, 2 ** 32, 2 ** 63, 2 ** 64 - 1, 2 ** 64, -2 ** 63]
PLACES = re.compile(rb"\d+|true|false|waiting|barred|none|global")
ESCAPES = ["", "a", "hello, world", "#", "\\n\\\\", '\\"', "\\0", " ", "\\x"]


def put_number(draw, content, at, size):
    near = int.from_bytes(content[at:at + size], "little") + draw.choice([-8, -4, -1, 1, 4, 8, 24])
    value = draw.choice(NUMBERS + [near] * 8) % 2 ** (8 * size)
    content[at:at + size] = value.to_bytes(size, "little")


def changed_elf(draw, content):
    """An ELF file with some numbers of its headers, symbols or words changed, or cut."""
    content = bytearray(content)
    if draw.random() < 0.1:
        return bytes(content[:draw.randrange(len(content) + 1)])
    for _ in range(draw.choice([1, 1, 1, 2, 3])):
        kind = draw.random()
        heads, sections = (int.from_bytes(content[k:k + 8], "little") for k in (32, 40))
        if kind < 0.25:
            at, size = draw.choice(HEADER_FIELDS)
        elif kind < 0.5 and heads + 112 <= len(content):
            at, size = heads + 56 * draw.randint(0, 1) + draw.choice([8, 16, 32, 40]), 8
        elif kind < 0.75 and sections + 256 <= len(content):
            at = sections + 64 * draw.randint(0, 3) + draw.choice([4, 8, 16, 24, 32, 40, 56])
            size = 4 if (at - sections) % 64 in (4, 40) else 8
        else:
            at, size = draw.randrange(len(content)), 1
        if at + size <= len(content):
            put_number(draw, content, at, size)
    return bytes(content)


def other_quanta(draw, quanta):
    """The quanta with some left out, doubled, exchanged or changed."""
    quanta = list(quanta)
    k, j = draw.randrange(len(quanta)), draw.randrange(len(quanta))
    kind = draw.randrange(6)
    if kind == 0:
        return quanta[:k]
    if kind == 1:
        return quanta + [quanta[k]] * draw.choice([1, 2])
    if kind == 2:
        quanta[k], quanta[j] = quanta[j], quanta[k]
    elif kind == 3:
        del quanta[k]
    elif kind == 4:
        quanta.insert(k, quanta[j])
    else:
        worker, _, turns, owns = quanta[k]
        quanta[k] = (worker, quanta[j][1], draw.choice([turns, 1, turns + 1]), owns)
    return quanta


def changed_log(draw, log):
    """A log with some bytes changed, or cut, or longer."""
    log, kind = bytearray(log), draw.random()
    if kind < 0.2:
        return bytes(log)
    if kind < 0.3:
        return bytes(log[:draw.randrange(len(log) + 1)])
    if kind < 0.35:
        return bytes(log) + bytes(draw.choice([1, 8, 16]))
    for _ in range(draw.choice([1, 1, 2])):
        at = draw.randrange(len(log)) if draw.random() < 0.5 else draw.randrange(min(56, len(log)))
        log[at] = draw.choice([0, 1, 2, 3, 16, 17, 32, 33, 50, 255, log[at] ^ 1 << draw.randrange(8)])
    return bytes(log)


def changed_report(draw, text):
    """A report with some lines or numbers changed, or cut."""
    kind = draw.random()
    if kind < 0.3:
        return text
    if kind < 0.4:
        return text[:draw.randrange(len(text) + 1)]
    if kind < 0.65:
        lines = text.split(b"\n")
        k, j = draw.randrange(len(lines)), draw.randrange(len(lines))
        action = draw.randrange(3)
        if action == 0:
            del lines[k]
        elif action == 1:
            lines.insert(k, lines[j])
        else:
            lines[k], lines[j] = lines[j], lines[k]
        return b"\n".join(lines)
    places = list(PLACES.finditer(text))
    if kind < 0.9 and places:
        m = draw.choice(places)
        word = draw.choice([b"0", b"1", b"18446744073709551615", b"18446744073709551616", b"000000000000000000001",
                            b"00000000000000000001", b"true", b"false", b"none", b"4095", b"-1", b"x"])
        return text[:m.start()] + word + text[m.end():]
    return changed(draw, text)


class AssemblyText:
    """A random text of all instructions and directives, most of which can be assembled."""

    def __init__(self, draw):
        self.draw = draw
        self.bold = draw.random() < 0.3
        self.section, self.open, self.free = "text", False, list(LABELS)
        operations = sorted(assembly.SHAPES)
        lines = [self.line(draw.choice(operations).decode()) for _ in range(draw.choice([1, 2, 5, 10, 40]))]
        if self.open:
            lines += [".text", ".end"]
        if draw.random() < 0.8:
            lines += [".text"] + self.rest()
        end = draw.choice(["\n", "\n", "\n", "\r\n"])
        self.text = (end.join(x for x in lines if x is not None) + draw.choice(["\n", ""])).encode("latin-1")
        if draw.random() < 0.1:
            self.text = changed(draw, self.text or b"nop")

    def rest(self):
        """The labels that don't stand yet, sometimes far behind or twice."""
        far = ["nop"] * self.draw.choice([0, 0, 1, 3]) * self.draw.choice([1, 1, 1, 1100])
        again = [self.draw.choice(LABELS)] if self.draw.random() < 0.05 else []
        return far + [x + ":" for x in self.free + again] + ["nop"]

    def fits(self, op):
        """Whether the operation stands where the text is; what it opens and closes is kept."""
        if self.bold and self.draw.random() < 0.1:
            return True
        data = op.encode() in assembly.IN_DATA
        if op in (".text", ".data"):
            self.section = op[1:]
            return True
        if op.encode() not in assembly.IN_BOTH and data != (self.section == "data"):
            return False
        if op in (".proc", ".end"):
            if self.open == (op == ".proc"):
                return False
            self.open = op == ".proc"
        return True

    def number(self, op):
        if self.bold and self.draw.random() < 0.2:
            return self.draw.choice(WORD_NUMBERS)
        good = [n for n in WORD_NUMBERS if assembly.number_fits(op.encode(), n)]
        if op in (".zero", ".object"):
            good = [0, 1, 8, 100]
        return self.draw.choice(good)

    def operand(self, op, kind):
        draw = self.draw
        if kind == "R":
            return "t6" if self.bold and draw.random() < 0.03 else draw.choice(REGISTERS)
        if kind == "N":
            n = self.number(op)
            return hex(n) if draw.random() < 0.3 else str(n)
        if kind == "S":
            return '"%s"' % draw.choice(ESCAPES if self.bold else ESCAPES[:-1])
        if kind != "L":
            return kind
        if op in (".proc", ".object"):
            return self.free.pop() if self.free else "p%d" % draw.randrange(10 ** 6)
        return draw.choice(["a.c", "program", "b", "x"] if op == ".module" else LABELS)

    def line(self, op):
        draw = self.draw
        if not self.fits(op):
            return None
        shape = assembly.SHAPES[op.encode()]
        operands = [self.operand(op, kind) for kind in shape]
        between = draw.choice(["", " ", "", "\t"])
        text = op + (draw.choice([" ", "\t", "  "]) if shape else "") + between.join(
            x + (" " if k + 1 < len(shape) and shape[k + 1] not in ",()" and x not in ",()" else "")
            for k, x in enumerate(operands))
        label = self.free.pop(0) + ":" + draw.choice(["", " "]) if self.free and draw.random() < 0.2 else ""
        return draw.choice(["", "", " "]) + label + text + draw.choice(["", "", " ", " # end", "#"])
