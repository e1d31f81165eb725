"""Random line tables, put into ELF files."""
import struct

from paradyn import assembly, elf_writing

NAMES = [b"a.c", b"b.c", b"/usr/x.h", b"dir/c.c", b""]
FORMS = [0x08, 0x1F, 0x0E]


def uleb(n):
    out = bytearray()
    while True:
        out.append(n & 127 | (128 if n > 127 else 0))
        n >>= 7
        if not n:
            return bytes(out)


def sleb(n):
    out = bytearray()
    while True:
        byte, n = n & 127, n >> 7
        last = n == (-1 if byte & 64 else 0)
        out.append(byte if last else byte | 128)
        if last:
            return bytes(out)


class Lines:
    """Random units of `.debug_line`, with the strings that they name."""

    def __init__(self, draw, at, end):
        self.draw, self.at, self.end = draw, at, end
        self.line_str, self.str = bytearray(b"\0"), bytearray(b"x\0")
        self.content = b"".join(self.unit() for _ in range(draw.choice([1, 1, 2, 3])))

    def name(self, form):
        name = self.draw.choice(NAMES[:4]) + b"\0"
        if form == 0x08:
            return name
        strings = self.line_str if form == 0x1F else self.str
        strings += name
        return struct.pack("<I", len(strings) - len(name))

    def table(self):
        """A table of version 5: of some entries the names and directories."""
        form, number = self.draw.choice(FORMS), self.draw.choice([0x0B, 0x0F, 0x05])
        formats = [(1, form), (2, number)] + ([(5, 0x1E)] if self.draw.random() < 0.3 else [])
        count = self.draw.choice([1, 2, 3])
        out = bytes([len(formats)]) + b"".join(uleb(a) + uleb(b) for a, b in formats) + uleb(count)
        for _ in range(count):
            k = self.draw.choice([0, 0, 1, 2])
            out += self.name(form) + (struct.pack("<H", k) if number == 0x05 else bytes([k])) + bytes(16 * (len(formats) - 2))
        return out

    def tables(self, version):
        if version == 5:
            return self.table() + self.table()
        directories = b"".join(self.name(0x08) for _ in range(self.draw.choice([0, 1, 2])))
        files = b"".join(self.name(0x08) + uleb(self.draw.choice([0, 1, 2])) + b"\0\0" for _ in range(3))
        return directories + b"\0" + files + b"\0"

    def operation(self):
        draw, kind = self.draw, self.draw.random()
        if kind < 0.5:
            return bytes([draw.randrange(13, 256)])
        if kind < 0.6:
            return b"\x01"
        if kind < 0.7:
            return b"\x02" + uleb(draw.choice([0, 1, 2, 8, 300]))
        if kind < 0.8:
            return b"\x03" + sleb(draw.choice([-5, -1, 1, 7, 100, -200]))
        if kind < 0.87:
            return b"\x04" + uleb(draw.choice([0, 1, 2, 3, 9]))
        if kind < 0.92:
            return b"\x09" + struct.pack("<H", draw.choice([0, 2, 4, 64]))
        return draw.choice([b"\x05\x07", b"\x06", b"\x07", b"\x08", b"\x0a", b"\x0b", b"\x0c\x00", b"\x00\x02\x04\x05", b"\x00\x01\x80"])

    def sequence(self):
        start = self.at + 4 * self.draw.randrange(max(1, (self.end - self.at) // 4))
        out = b"\x00\x09\x02" + struct.pack("<Q", start)
        for _ in range(self.draw.choice([1, 3, 8, 20])):
            out += self.operation()
        return out + (b"\x00\x01\x01" if self.draw.random() < 0.95 else b"")

    def unit(self):
        draw = self.draw
        version, base, span = draw.choice([4, 5]), draw.choice([-5, -3, 0]), draw.choice([14, 12, 1])
        fields = bytes([draw.choice([1, 1, 2]), 1, 1, base % 256, span, 13]) + bytes([0, 1, 1, 1, 1, 0, 0, 0, 1, 0, 0, 1])
        head = fields + self.tables(version)
        program = b"".join(self.sequence() for _ in range(draw.choice([1, 2, 4])))
        body = struct.pack("<H", version) + (b"\x08\x00" if version == 5 else b"") + struct.pack("<I", len(head)) + head + program
        return struct.pack("<I", len(body)) + body


def with_sections(elf, parts):
    """An ELF file with more sections, of which the first takes the names of all."""
    elf = bytearray(elf)
    (table,), (count,), (names,) = (struct.unpack_from(f, elf, at) for f, at in (("<Q", 40), ("<H", 60), ("<H", 62)))
    headers = [bytes(elf[table + 64 * k:table + 64 * k + 64]) for k in range(count)]
    strings = b""
    if names < count:
        at, size = struct.unpack_from("<QQ", headers[names], 24)
        strings = bytes(elf[at:at + size])
    parts = [(b".names", strings + b"\0.names\0" + b"".join(n + b"\0" for n, _ in parts))] + parts
    for name, content in parts:
        place = parts[0][1].index(b"\0" + name + b"\0") + 1
        headers.append(struct.pack("<IIQQQQIIQQ", place, 3 if name == b".names" else 1, 0, 0, len(elf), len(content), 0, 0, 1, 0))
        elf += content
    elf += bytes(-len(elf) % 8)
    struct.pack_into("<Q", elf, 40, len(elf))
    struct.pack_into("<HHH", elf, 58, 64, len(headers), count)
    return bytes(elf + b"".join(headers))


def with_lines(draw, content):
    """A program as an ELF file with a random line table, some bytes of which are changed at times."""
    try:
        elf = content if content[:4] == b"\x7fELF" else elf_writing.write(assembly.assemble(content))
    except (assembly.AsmFault, ValueError):
        return content
    if len(elf) < 64 or int.from_bytes(elf[40:48], "little") + 64 * int.from_bytes(elf[60:62], "little") > len(elf):
        return content
    lines = Lines(draw, 0x10000, 0x10000 + 200)
    table = bytearray(lines.content)
    if draw.random() < 0.4:
        for _ in range(draw.choice([1, 1, 2, 4])):
            table[draw.randrange(len(table))] = draw.choice([0, 1, 2, 4, 5, 8, 127, 128, 255])
    if draw.random() < 0.1:
        del table[draw.randrange(len(table)):]
    parts = [(b".debug_line", bytes(table)), (b".debug_line_str", bytes(lines.line_str)), (b".debug_str", bytes(lines.str))]
    return with_sections(elf, parts if draw.random() < 0.9 else parts[:draw.randrange(3)])
