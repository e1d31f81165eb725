"""The resources of a program (its code, its harts and its objects), and what a focus selects of them."""
from dataclasses import dataclass
from typing import Optional, Tuple

from .image import good_name

AXES = ("Code", "Machine", "SyncObject")


@dataclass(frozen=True)
class Focus:
    """What is selected of the code, of the harts and of the objects."""

    code: Tuple = ("all",)
    hart: Optional[int] = None
    object: Optional[int] = None


ROOT = Focus()


class FocusFault(Exception):
    """A text that selects nothing."""


class Form(FocusFault):
    """At the first byte where no focus text continues."""

    def __init__(self, place):
        FocusFault.__init__(self, "form", place)
        self.kind, self.place = "Form", place


class NoSuchNode(FocusFault):
    """A part of the text names what isn't there."""

    def __init__(self, part):
        FocusFault.__init__(self, "no such node", part)
        self.kind, self.part = "NoSuchNode", part


# How many names may follow the hierarchy's own.
DEPTH = {b"Code": 2, b"Machine": 1, b"SyncObject": 1}


def _head(text, i, left):
    """The name of a hierarchy of `left` that stands at i up to its end, a `/` or a `,`; or Form."""
    k = 0
    while True:
        fits = [h for h in left if h[:k] == text[i:i + k]]
        whole = [h for h in fits if len(h) == k]
        if whole and (i + k >= len(text) or text[i + k:i + k + 1] in (b"/", b",")):
            return whole[0]
        if i + k >= len(text):
            raise Form(len(text))
        if not any(h[k:k + 1] == text[i + k:i + k + 1] for h in fits):
            raise Form(i + k)
        k += 1


def _names(text, i, most):
    """The names from i on, and where they end."""
    names = []
    while text[i:i + 1] == b"/":
        if len(names) == most:
            raise Form(i)
        i += 1
        j = i
        while j < len(text) and j - i < 200 and good_name(text[j:j + 1]):
            j += 1
        if j == i:
            raise Form(i)
        names.append(bytes(text[i:j]))
        i = j
    return names, i


def split_focus(text):
    """The form of a focus text: pairs of a hierarchy and names; or Form. It doesn't depend on the tree."""
    parts, used, i = [], set(), 0
    while True:
        if text[i:i + 1] != b"/":
            raise Form(i)
        head = _head(text, i + 1, [h for h in DEPTH if h not in used])
        used.add(head)
        names, i = _names(text, i + 1 + len(head), DEPTH[head])
        parts.append((head, names))
        if i >= len(text):
            return parts
        if text[i:i + 1] != b"," or len(used) == 3:
            raise Form(i)
        i += 1


class Tree:
    """The modules with their procedures, the harts and the objects of a program."""

    def __init__(self, procs, objects, harts, prefixes):
        self.procs = procs
        self.hart_count = harts
        self.modules = []                       # [(name, [procedure numbers])]
        where = {}
        for no, p in enumerate(procs):
            if p.module not in where:
                where[p.module] = len(self.modules)
                self.modules.append((p.module, []))
            self.modules[where[p.module]][1].append(no)
        self.objects = []                       # [(name, address)]
        seen = set()
        for s in objects:
            if (good_name(s.name) and s.name not in seen
                    and any(s.name.startswith(bytes(x)) for x in prefixes)):
                seen.add(s.name)
                self.objects.append((s.name, s.at))

    def focus(self, text):
        code, hart, obj = ("all",), None, None
        for no, (head, names) in enumerate(split_focus(bytes(text))):
            if head == b"Code":
                if names:
                    m = self._find(names[0], [x for x, _ in self.modules], no)
                    code = ("module", m)
                    if len(names) == 2:
                        inside = self.modules[m][1]
                        k = self._find(names[1],
                                       [self.procs[p].name for p in inside], no)
                        code = ("procedure", inside[k])
            elif head == b"Machine":
                if names:
                    hart = self._find(names[0], [b"hart%d" % h for h in
                                                 range(self.hart_count)], no)
            elif names:
                obj = self._find(names[0], [x for x, _ in self.objects], no)
        return Focus(code, hart, obj)

    @staticmethod
    def _find(name, names, part):
        if name not in names:
            raise NoSuchNode(part)
        return names.index(name)

    def child(self, f, axis, i):
        if axis == "Code":
            if f.code[0] == "all":
                if i < len(self.modules):
                    return Focus(("module", i), f.hart, f.object)
            elif f.code[0] == "module":
                inside = self.modules[f.code[1]][1]
                if i < len(inside):
                    return Focus(("procedure", inside[i]), f.hart, f.object)
        elif axis == "Machine":
            if f.hart is None and i < self.hart_count:
                return Focus(f.code, i, f.object)
        elif axis == "SyncObject":
            if f.object is None and i < len(self.objects):
                return Focus(f.code, f.hart, i)
        else:
            raise ValueError(axis)
        return None

    def children(self, f, axis):
        out, i = [], 0
        while True:
            c = self.child(f, axis, i)
            if c is None:
                return out
            out.append(c)
            i += 1

    def focus_text(self, f):
        code = b"/Code"
        if f.code[0] == "module":
            code += b"/" + self.modules[f.code[1]][0]
        elif f.code[0] == "procedure":
            p = self.procs[f.code[1]]
            code += b"/" + p.module + b"/" + p.name
        machine = b"/Machine"
        if f.hart is not None:
            machine += b"/hart%d" % f.hart
        sync = b"/SyncObject"
        if f.object is not None:
            sync += b"/" + self.objects[f.object][0]
        return code + b"," + machine + b"," + sync

    def harts(self, f):
        return (0, self.hart_count) if f.hart is None else (f.hart, 1)

    def object_at(self, f):
        return None if f.object is None else self.objects[f.object][1]

    def procs_of(self, f):
        """The procedures of the focus, by number."""
        if f.code[0] == "all":
            return list(range(len(self.procs)))
        if f.code[0] == "module":
            return list(self.modules[f.code[1]][1])
        return [f.code[1]]

    @staticmethod
    def below_code(f):
        return f.code[0] != "all"

    @staticmethod
    def below_sync(f):
        return f.object is not None


def objects_of(image):
    """The object symbols that lie in one segment and hold no byte of the text, in the image's order. One of size 0
    stands for its address."""
    out = []
    for s in image.symbols:
        if s.kind != "object":
            continue
        end = s.at + max(s.size, 1)
        inside = any(g.at <= s.at and end <= g.at + g.size
                     for g in image.segments)
        if inside and (end <= image.text_at or image.text_end <= s.at):
            out.append(s)
    return out


def tree_of(image, procs, harts, prefixes):
    return Tree(procs, objects_of(image), harts, prefixes)
