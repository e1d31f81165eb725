"""The image of a program: its segments, where its text lies, its entry and its symbols. Names are bytes."""
from dataclasses import dataclass, field
from typing import List


@dataclass
class Segment:
    """A piece of memory, which begins with bytes of the file and goes on with zeros."""

    at: int
    bytes: bytes          # the file part, never longer than size
    size: int             # > 0


@dataclass
class Symbol:
    """A procedure or an object by its name."""

    name: bytes
    kind: str             # 'func' or 'object'
    at: int
    size: int
    module: bytes


@dataclass
class Image:
    """A program."""

    segments: List[Segment]     # ascending, disjoint
    text_at: int
    text_len: int
    entry: int
    symbols: List[Symbol]       # those of module b'program' last

    @property
    def text_end(self):
        return self.text_at + self.text_len

    def text(self):
        """The bytes of text."""
        for s in self.segments:
            if s.at <= self.text_at and self.text_end <= s.at + len(s.bytes):
                o = self.text_at - s.at
                return s.bytes[o:o + self.text_len]
        raise ValueError("text lies in the bytes of no segment")

    def word(self, at):
        """The program's word at a text address that is a multiple of 4."""
        for s in self.segments:
            if s.at <= self.text_at and self.text_end <= s.at + len(s.bytes):
                o = at - s.at
                return int.from_bytes(s.bytes[o:o + 4], "little")
        raise ValueError("text lies in the bytes of no segment")

    def in_text(self, at):
        return self.text_at <= at < self.text_at + self.text_len


def good_name(name):
    """1 to 200 bytes from 0x21 to 0x7E without '/', ',' and ';'."""
    return 1 <= len(name) <= 200 and all(
        0x21 <= b <= 0x7E and b not in b"/,;" for b in name)


def module_name(name):
    """The name of a module, which is `program` where it isn't a good name."""
    return bytes(name) if good_name(name) else b"program"


def program_last(symbols):
    """First the symbols of other modules, then those of `program`."""
    return ([s for s in symbols if s.module != b"program"] +
            [s for s in symbols if s.module == b"program"])
