"""The ELF file of an image."""


def _up8(n):
    return -(-n // 8) * 8


def _le(n, size):
    return n.to_bytes(size, "little")


def _section(type_, flags=0, addr=0, offset=0, size=0, link=0, info=0,
             align=0, entsize=0):
    return (_le(0, 4) + _le(type_, 4) + _le(flags, 8) + _le(addr, 8) +
            _le(offset, 8) + _le(size, 8) + _le(link, 4) + _le(info, 4) +
            _le(align, 8) + _le(entsize, 8))


def _entry(name, info, shndx, value, size):
    return (_le(name, 4) + _le(info, 1) + _le(0, 1) + _le(shndx, 2) +
            _le(value, 8) + _le(size, 8))


def _tables(symbols):
    """The symbol table, the string table, and how many entries aren't global."""
    rows = []                           # (name, info, shndx, value, size)
    run = None
    for s in symbols:
        kind = 2 if s.kind == "func" else 1
        if s.module == b"program":
            run = None
            rows.append((s.name, 0x10 | kind, 1, s.at, s.size))
            continue
        if run != s.module:
            run = s.module
            rows.append((s.module, 4, 0xFFF1, 0, 0))
        rows.append((s.name, kind, 1, s.at, s.size))
    strings = bytearray(b"\0")
    table = _entry(0, 0, 0, 0, 0)
    for name, info, shndx, value, size in rows:
        table += _entry(len(strings), info, shndx, value, size)
        strings += name + b"\0"
    return table, bytes(strings), 1 + sum(r[1] < 0x10 for r in rows)


class Layout:
    """The parts of a file behind its headers, each at the next multiple of 8."""

    def __init__(self, begin):
        self.begin, self.body = begin, bytearray()

    def put(self, piece):
        """Where the piece begins."""
        at = _up8(self.begin + len(self.body))
        self.body.extend(bytes(at - self.begin - len(self.body)))
        self.body.extend(piece)
        return at


def _put_segments(layout, image):
    """The program headers, and the text's place in the file."""
    heads, text_off = b"", None
    for s in image.segments:
        off = layout.put(s.bytes)
        if s.at <= image.text_at and image.text_end <= s.at + len(s.bytes):
            text_off = off + image.text_at - s.at
        heads += (_le(1, 4) + _le(7, 4) + _le(off, 8) + _le(s.at, 8) +
                  _le(s.at, 8) + _le(len(s.bytes), 8) + _le(s.size, 8) +
                  _le(1, 8))
    return heads, text_off


def write(image):
    """The bytes of the file."""
    table, strings, local = _tables(image.symbols)
    layout = Layout(64 + 56 * len(image.segments))
    heads, text_off = _put_segments(layout, image)
    sym_off = layout.put(table)
    str_off = layout.put(strings)
    sh_off = layout.put(
        _section(0) + _section(1, 6, image.text_at, text_off, image.text_len, align=4)
        + _section(2, 0, 0, sym_off, len(table), link=3, info=local, align=8, entsize=24)
        + _section(3, 0, 0, str_off, len(strings), align=1))
    header = (b"\x7fELF" + bytes([2, 1, 1]) + bytes(9) + _le(2, 2) +
              _le(243, 2) + _le(1, 4) + _le(image.entry, 8) + _le(64, 8) +
              _le(sh_off, 8) + _le(0, 4) + _le(64, 2) + _le(56, 2) +
              _le(len(image.segments), 2) + _le(64, 2) + _le(4, 2) + _le(0, 2))
    return bytes(header + heads + layout.body)
