"""ELF files: the image of a program, or the first fault."""
from .image import Image, Segment, Symbol, module_name, program_last
from .instructions import first_scratch

LOW, HIGH = 0x10000, 0x60000000
SEGMENTS_MOST = 16
BYTES_MOST = 25165824
TEXT_MOST = 524288
FILE_MOST = 33554432

TEXTS = {"NotElf": "not elf", "Short": "short %d",
         "NotRiscv64": "not riscv64", "Flags": "flags 0x%x",
         "BadSegment": "bad segment %d", "LowSegment": "low segment 0x%x",
         "HighSegment": "high segment 0x%x", "Overlap": "overlap 0x%x",
         "TooBig": "too big %d", "NoText": "no text",
         "TwoTexts": "two texts 0x%x", "TextUnaligned": "text unaligned 0x%x",
         "TextTooLong": "text too long %d", "UsesScratch": "uses x31 at 0x%x",
         "BadEntry": "bad entry 0x%x", "BadSymbols": "bad symbols"}


class ElfFault(Exception):
    """The first fault of a file: its kind, and the number that it tells."""

    def __init__(self, kind, number=None):
        Exception.__init__(self, kind, number)
        self.kind, self.number = kind, number

    def __str__(self):
        t = TEXTS[self.kind]
        return t % self.number if "%" in t else t


class _Fields:
    """The numbers of one table entry: (name, offset, size) each."""

    def __init__(self, data, base, layout):
        for name, at, n in layout:
            setattr(self, name,
                    int.from_bytes(data[base + at:base + at + n], "little"))


HEADER = [("e_type", 16, 2), ("e_machine", 18, 2), ("e_entry", 24, 8),
          ("e_phoff", 32, 8), ("e_shoff", 40, 8), ("e_flags", 48, 4),
          ("e_phentsize", 54, 2), ("e_phnum", 56, 2), ("e_shentsize", 58, 2),
          ("e_shnum", 60, 2)]
PROGRAM = [("type", 0, 4), ("flags", 4, 4), ("offset", 8, 8), ("vaddr", 16, 8),
           ("filesz", 32, 8), ("memsz", 40, 8)]
SECTION = [("name", 0, 4), ("type", 4, 4), ("flags", 8, 8), ("addr", 16, 8),
           ("offset", 24, 8), ("size", 32, 8), ("link", 40, 4),
           ("entsize", 56, 8)]
SYMBOL = [("name", 0, 4), ("info", 4, 1), ("shndx", 6, 2), ("value", 8, 8),
          ("size", 16, 8)]


class File:
    """The bytes of a file, and the checks of what they say, in their order."""

    def __init__(self, data):
        self.data, self.length = data, len(data)

    def past_end(self, offset, size):
        return size > 0 and offset + size > self.length

    def header(self):
        data = self.data
        if data[:4] != b"\x7fELF":
            raise ElfFault("NotElf")
        if self.length < 64:
            raise ElfFault("Short", self.length)
        h = _Fields(data, 0, HEADER)
        if (data[4] != 2 or data[5] != 1 or h.e_type != 2 or h.e_machine != 243
                or (h.e_phnum != 0 and h.e_phentsize != 56)
                or (h.e_shnum != 0 and h.e_shentsize != 64)):
            raise ElfFault("NotRiscv64")
        if h.e_flags & (0x1 | 0x6 | 0x8):
            raise ElfFault("Flags", h.e_flags)
        if self.past_end(h.e_phoff, 56 * h.e_phnum) or self.past_end(h.e_shoff, 64 * h.e_shnum):
            raise ElfFault("Short", self.length)
        return h

    def loads(self, headers):
        """The segments' headers by address."""
        out = []
        for index, p in enumerate(headers):
            if p.type != 1 or p.memsz == 0:
                continue
            if p.memsz < p.filesz or len(out) == SEGMENTS_MOST:
                raise ElfFault("BadSegment", index)
            if self.past_end(p.offset, p.filesz):
                raise ElfFault("Short", self.length)
            if p.vaddr < LOW:
                raise ElfFault("LowSegment", p.vaddr)
            if p.vaddr + p.memsz > HIGH:
                raise ElfFault("HighSegment", p.vaddr)
            out.append(p)
        return sorted(out, key=lambda p: p.vaddr)

    def text(self, loads, sections):
        """Where the text begins and ends, and its place in the file."""
        low, high = _text_range(sections)
        home = [p for p in loads if p.vaddr <= low and high <= p.vaddr + p.filesz]
        foreign = [s for s in sections if s.flags & 2 and not s.flags & 4 and s.size > 0
                   and s.type != 8 and low <= s.addr < high]
        if not home or foreign:
            raise ElfFault("TwoTexts", low)
        for edge in (low, high):
            if edge % 4:
                raise ElfFault("TextUnaligned", edge)
        if high - low > TEXT_MOST:
            raise ElfFault("TextTooLong", high - low)
        at = home[0].offset + low - home[0].vaddr
        scratch = first_scratch(self.data[at:at + high - low], low)
        if scratch is not None:
            raise ElfFault("UsesScratch", scratch)
        return low, high


def _text_range(sections):
    texts = [s for s in sections if s.flags & 2 and s.flags & 4 and s.size > 0]
    if not texts:
        raise ElfFault("NoText")
    return min(s.addr for s in texts), max(s.addr + s.size for s in texts)


def _check_room(loads):
    """No address is in two segments, and they aren't too big. The lowest shared address is where one begins in
    another."""
    shared = [max(p.vaddr, q.vaddr) for k, p in enumerate(loads) for q in loads[k + 1:]
              if max(p.vaddr, q.vaddr) < min(p.vaddr + p.memsz, q.vaddr + q.memsz)]
    if shared:
        raise ElfFault("Overlap", min(shared))
    total = sum(p.memsz for p in loads)
    if total > BYTES_MOST:
        raise ElfFault("TooBig", total)


def load(data):
    """The image of a file, or ElfFault."""
    data = bytes(data)
    f = File(data)
    h = f.header()
    headers = [_Fields(data, h.e_phoff + 56 * k, PROGRAM) for k in range(h.e_phnum)]
    sections = [_Fields(data, h.e_shoff + 64 * k, SECTION) for k in range(h.e_shnum)]
    loads = f.loads(headers)
    _check_room(loads)
    low, high = f.text(loads, sections)
    if h.e_entry % 4 or not low <= h.e_entry < high:
        raise ElfFault("BadEntry", h.e_entry)
    symbols = _symbols(data, sections, f.past_end)
    segments = [Segment(p.vaddr, data[p.offset:p.offset + p.filesz], p.memsz) for p in loads]
    return Image(segments, low, high - low, h.e_entry, symbols)


def _symbols(data, sections, past_end):
    tables = [s for s in sections if s.type == 2]
    if not tables:
        return []
    table = tables[0]
    if (table.entsize != 24 or table.size % 24
            or table.link >= len(sections)
            or sections[table.link].type != 3):
        raise ElfFault("BadSymbols")
    strings = sections[table.link]
    if (past_end(table.offset, table.size)
            or past_end(strings.offset, strings.size)):
        raise ElfFault("Short", len(data))
    names = (data[strings.offset:strings.offset + strings.size]
             if strings.size else b"")
    entries = [_Fields(data, table.offset + 24 * k, SYMBOL)
               for k in range(table.size // 24)]
    for e in entries:
        if names.find(b"\0", e.name) < 0:
            raise ElfFault("BadSymbols")
    module, out = b"program", []
    for e in entries:
        name = names[e.name:names.find(b"\0", e.name)]
        kind, binding = e.info & 15, e.info >> 4
        if kind == 4:
            module = module_name(name)
        elif kind in (1, 2) and e.shndx != 0:
            out.append(Symbol(name, "func" if kind == 2 else "object", e.value,
                              e.size, module if binding == 0 else b"program"))
    return program_last(out)
