"""The line table of an ELF file: DWARF 4 and 5, in the 32-bit format, with addresses of 8 bytes."""
import bisect
import collections

Row = collections.namedtuple("Row", "unit address file line is_end")
# a unit's directories and files; of each its name and the number of its directory
Paths = collections.namedtuple("Paths", "version directories files")


class BadLines(Exception):
    """The first fault of a line table, at a place."""

    def __init__(self, place):
        super().__init__(place)
        self.place = place


class Reader:
    """Bytes up to an end, read from a place on."""

    def __init__(self, content, at, end):
        self.content, self.at, self.end = content, at, end

    def take(self, n):
        if self.at + n > self.end:
            raise BadLines(self.at)
        self.at += n
        return self.content[self.at - n:self.at]

    def number(self, n):
        return int.from_bytes(self.take(n), "little")

    def _leb(self):
        """The bits of a LEB128 number, and how many there are."""
        value = 0
        for k in range(10):
            byte = self.number(1)
            value |= (byte & 127) << 7 * k
            if byte < 128:
                return value, 7 * (k + 1)
        raise BadLines(self.at)

    def uleb(self):
        at = self.at
        value, _ = self._leb()
        if value >= 1 << 64:
            raise BadLines(at)
        return value

    def sleb(self):
        at = self.at
        value, bits = self._leb()
        value -= (value >> bits - 1) << bits
        if not -(1 << 63) <= value < 1 << 63:
            raise BadLines(at)
        return value

    def string(self):
        """The bytes up to a zero byte, which is passed."""
        at = self.at
        end = self.content.find(b"\0", at, self.end)
        if end < 0:
            raise BadLines(at)
        self.at = end + 1
        return self.content[at:end]


# ---- sections

def sections(elf):
    """Pairs of each section's name and content, or none where there are no section headers that can be read."""
    def field(at, n):
        return int.from_bytes(elf[at:at + n], "little")
    if len(elf) < 64 or field(32, 8) + field(56, 2) * 56 > len(elf) or field(40, 8) + field(60, 2) * 64 > len(elf):
        return []
    headers = [field(40, 8) + 64 * k for k in range(field(60, 2))]
    contents = [elf[field(h + 24, 8):field(h + 24, 8) + field(h + 32, 8)] for h in headers]
    names = field(62, 2)
    if names >= len(headers):
        return []
    return [(contents[names][field(h, 4):].partition(b"\0"), c) for h, c in zip(headers, contents)]


def named(elf, name):
    return next((c for (n, zero, _), c in sections(elf) if n == name and zero), None)


# ---- the header of a unit

class Unit:
    """A unit of `.debug_line` from a place on."""

    def __init__(self, content, at):
        def field(place, n):
            return int.from_bytes(content[place:place + n], "little")

        def check(is_bad, place):
            if is_bad:
                raise BadLines(place)
        self.at, self.end = at, at + 4 + field(at, 4)
        check(len(content) < at + 4, at)
        check(field(at, 4) >= 0xFFFFFFF0, at)
        check(len(content) < self.end, at)
        check(field(at, 4) < 2, at + 4)
        self.version = field(at + 4, 2)
        check(self.version not in (4, 5), at + 4)
        place = at + 8 if self.version == 5 else at + 6
        check(self.end < place + 10, at + 6)
        check(self.version == 5 and (content[at + 6], content[at + 7]) != (8, 0), at + 6)
        self.program = place + 4 + field(place, 4)
        check(self.end < self.program, place)
        self.instruction_length, operations, _, base, self.line_range, self.opcode_base = content[place + 4:place + 10]
        self.line_base = base - 256 if base > 127 else base
        check(operations != 1, place + 5)
        check(self.line_range == 0, place + 8)
        check(self.opcode_base == 0, place + 9)
        self.tables = place + 10 + self.opcode_base - 1
        check(self.program < self.tables, place + 10)
        self.lengths = content[place + 10:self.tables]


# ---- rows

def rows(content, unit):
    """The rows of a unit's program."""
    r, start = Reader(content, unit.program, unit.end), (0, 1, 1)
    address, file, line = start
    while r.at < unit.end:
        opcode = r.number(1)
        row = None
        if opcode >= unit.opcode_base:
            n = opcode - unit.opcode_base
            address += unit.instruction_length * (n // unit.line_range)
            line += unit.line_base + n % unit.line_range
            row = False
        elif opcode == 0:
            place, size = r.at, r.uleb()
            at = r.at
            if size == 0 or at + size > unit.end:
                raise BadLines(place)
            kind, operand = content[at], content[at + 1:at + size]
            r.at = at + size
            if kind == 1:
                row = True
            elif kind == 2:
                if size != 9:
                    raise BadLines(at)
                address = int.from_bytes(operand, "little")
        elif opcode == 1:
            row = False
        elif opcode == 2:
            address += unit.instruction_length * r.uleb()
        elif opcode == 3:
            line += r.sleb()
        elif opcode == 4:
            file = r.uleb()
        elif opcode == 8:
            address += unit.instruction_length * ((255 - unit.opcode_base) // unit.line_range)
        elif opcode == 9:
            address += r.number(2)
        else:
            for _ in range({5: 1, 12: 1, 6: 0, 7: 0, 10: 0, 11: 0}.get(opcode, unit.lengths[opcode - 1])):
                r.uleb()
        address, line = address % 2 ** 64, line % 2 ** 32
        if row is not None:
            yield Row(unit.at, address, file, line, row)
        if row:
            address, file, line = start


# ---- directories and files

def strings(content):
    """The string of a section at each place that is followed by a zero byte."""
    end = content.rfind(b"\0") + 1
    return lambda at: content[at:content.index(b"\0", at)] if at < end else None


def value(r, form, tables):
    """A name, a number, or None for what doesn't count."""
    at = r.at
    if form == 0x08:
        return r.string()
    if form in (0x1F, 0x0E):
        name = tables[form](r.number(4))
        if name is None:
            raise BadLines(at)
        return name
    if form == 0x1E:
        return r.take(16) and None
    if form == 0x09:
        return r.take(r.uleb()) and None
    if form == 0x0F:
        return r.uleb()
    size = {0x0B: 1, 0x05: 2, 0x06: 4, 0x07: 8}.get(form)
    if size is None:
        raise BadLines(at)
    return r.number(size)


def entries(r, tables):
    """The entries of a table of version 5, each with its name and directory."""
    formats = [(r.uleb(), r.uleb()) for _ in range(r.number(1))]
    out = []
    for _ in range(r.uleb()):
        first, name, directory = r.at, None, 0
        for content, form in formats:
            at = r.at
            v = value(r, form, tables)
            if content == 1:
                name = v
            if content == 2:
                directory = v
            if content == 1 and not isinstance(v, bytes) or content == 2 and not isinstance(v, int):
                raise BadLines(at)
        if name is None:
            raise BadLines(first)
        out.append((name, directory))
    return out


def listed(r, is_file):
    """The directories or files of version 4."""
    out = []
    while True:
        name = r.string()
        if not name:
            return out
        out.append((name, [r.uleb(), r.uleb(), r.uleb()][0] if is_file else 0))


def paths(content, unit, tables):
    r = Reader(content, unit.tables, unit.program)
    if unit.version == 5:
        return Paths(5, entries(r, tables), entries(r, tables))
    return Paths(4, listed(r, False), listed(r, True))


def path_text(paths, number):
    """The path of a file of this number, or `?`."""
    def entry(entries, n):
        n = n if paths.version == 5 else n - 1
        return entries[n] if 0 <= n < len(entries) else None
    file = entry(paths.files, number)
    if file is None:
        return b"?"
    directory = entry(paths.directories, file[1])
    return file[0] if directory is None or file[0][:1] == b"/" else directory[0] + b"/" + file[0]


class Table:
    """The rows of a line table, and the paths of its units."""

    def __init__(self, content, line_str, str_):
        units, at = [], 0
        while at < len(content):
            units.append(Unit(content, at))
            at = units[-1].end
        tables = {0x1F: strings(line_str), 0x0E: strings(str_)}
        self.rows = [row for u in units for row in rows(content, u)]
        self.paths = {u.at: paths(content, u, tables) for u in units}
        # by address, of one address those that end a sequence first
        self.by_place = sorted(self.rows, key=lambda r: (r.address, not r.is_end))
        self.addresses = [r.address for r in self.by_place]

    def source_at(self, address):
        """The unit, file and line of an address, or None."""
        k = bisect.bisect_right(self.addresses, address)
        row = self.by_place[k - 1] if k else None
        return None if row is None or row.is_end or row.line == 0 else (row.unit, row.file, row.line)

    def source_text(self, source):
        unit, file, line = source
        return b"%s:%d" % (path_text(self.paths[unit], file), line)


def read(elf):
    """The line table of a file, or None."""
    content = named(elf, b".debug_line")
    if content is None:
        return None
    return Table(content, named(elf, b".debug_line_str") or b"", named(elf, b".debug_str") or b"")
