"""The definitions of the repository's specs/, as tools/reading.py and tools/names.py read them."""
import re
from pathlib import Path

TOP = Path(__file__).resolve().parent.parent
CRATES = TOP / "crates"
ALONE = "for proofs alone"
HEADER = re.compile(r"(?:abbrev pub|abbrev|unfoldable pub|unfoldable|pub record|record|pub data|data) (\S+)")
WORD = re.compile(r"[^\s(){}\[\];,.=→×λ|↦⊎≡≢∷+&]+(?:\.[^\s(){}\[\];,.=→×λ|↦⊎≡≢∷+&]+)*")


class Definition:
    """A definition of a file of specs/, or a type or a constant of the code."""

    def __init__(self, name, file, line, lines, comment=""):
        self.name, self.file, self.line, self.lines, self.comment = name, file, line, lines, comment
        self.named = []

    @property
    def count(self):
        return len([line for line in self.lines if line.strip()])


class Module:
    """A file of specs/: its definitions, and what each imported name stands for."""

    def __init__(self, path):
        self.path = path
        crate, inner = path.relative_to(CRATES).as_posix().split("/specs/")
        self.key = f"{crate}.{inner.removesuffix('.antt').replace('/', '.')}"
        self.text = path.read_text(encoding="utf-8")
        self.alone = self.text.lower().startswith(f"-- {ALONE}")
        self.names, self.modules, self.definitions = {}, {}, {}
        self.read_imports()
        self.read_definitions()

    def type_of(self, constructor):
        """The definition of the type to which a constructor belongs."""
        line = re.compile(rf"\s+(?:pub )?{re.escape(constructor)} :")
        return next((d for d in self.definitions.values() if any(map(line.match, d.lines[1:]))), None)

    def read_imports(self):
        for path, items in re.findall(r"^use Rattle\.(\S+?)\.\{([^}]*)\}", self.text, re.M):
            for item in items.split(","):
                name, _, other = item.strip().partition(" as ")
                self.names[other or name] = (path, name)
        for path, other in re.findall(r"^use Rattle\.([^\s{]+) as (\S+)$", self.text, re.M):
            self.modules[other] = path

    def read_definitions(self):
        lines = self.text.split("\n")
        comment, start = [], None
        for number, line in enumerate(lines):
            if line.startswith("--"):
                start = number if not comment else start
                comment.append(line.removeprefix("--").strip())
                continue
            found = HEADER.match(line)
            if found:
                end = number + 1
                while end < len(lines) and lines[end].strip() and not HEADER.match(lines[end]):
                    end += 1
                name = found[1]
                self.definitions[name] = Definition(name, self.path, number + 1, lines[number:end], " ".join(comment))
            if not line.strip() or found:
                comment = []


def words_in(definition):
    """The names in a definition, in order, without the names of its fields and what stands in comments."""
    for at, line in enumerate(definition.lines):
        line = line.split("--")[0]
        line = re.sub(r"^(\s+)pub \S+ :", r"\1 :", line)
        line = re.sub(r"([{;]|^)\s*([a-z_]\w*) = ", r"\1 ", line)
        line = re.sub(r'"[^"]*"', " ", line)
        if at == 0:
            line = HEADER.sub("", line)
        yield from WORD.findall(line)


class Library:
    """All definitions of the repository."""

    def __init__(self):
        files = sorted(CRATES.glob("*/specs/**/*.antt"))
        self.modules = {m.key: m for m in map(Module, files) if m.path.name != "Lib.antt"}
        self.types = {}

    def find(self, path, name):
        """What a name of a module stands for; none where it is the library's own."""
        crate, _, inner = path.partition(".specs.")
        if not (CRATES / crate).is_dir():
            return None
        if inner.startswith("declared."):
            return self.find_type(crate, inner.removeprefix("declared."), name)
        module = self.modules.get(f"{crate}.{inner}")
        if module is None:
            return None
        if name in module.definitions:
            return module.definitions[name]
        found = module.type_of(name)
        if found is None and name in module.names:
            return self.find(*module.names[name])
        return found

    def find_type(self, crate, inner, name):
        """The struct, the enum or the constant of the code that a name of `declared` stands for."""
        parts = inner.split(".")
        if parts[-1] == "TheConstants":
            parts, wanted = parts[:-1], rf"(?:pub )?const {name}\b"
        else:
            if parts[-1] == "TheVariants":
                parts = parts[:-1]
            name = parts[-1]
            parts, wanted = parts[:-1], rf"(?:pub(?:\(crate\))? )?(?:struct|enum) {name}\b"
        file = CRATES / crate / "src" / ("/".join(parts) + ".rt")
        key = (file, name)
        if key not in self.types:
            self.types[key] = self.read_type(file, name, wanted)
        return self.types[key]

    def read_type(self, file, name, wanted):
        if not file.is_file():
            return None
        lines = file.read_text(encoding="utf-8").split("\n")
        for number, line in enumerate(lines):
            if re.match(wanted, line):
                end = number
                while not re.search(r"[;}]\s*$", lines[end]) or (lines[number].rstrip().endswith("{") and lines[end] != "}"):
                    end += 1
                return Definition(name, file, number + 1, lines[number : end + 1])
        return None

    def named_by(self, definition, lines=None):
        """The definitions that a definition names, in order. Of a type of the code none: its fields are read with it."""
        if definition.file.suffix == ".rt":
            return []
        module = next(m for m in self.modules.values() if m.path == definition.file)
        part = definition if lines is None else Definition(definition.name, definition.file, definition.line, lines)
        found = []
        for word in words_in(part):
            first, _, rest = word.partition(".")
            if rest and first in module.modules:
                at = self.find(module.modules[first], rest.split(".")[0])
            elif first in module.names:
                at = self.find(*module.names[first])
            elif first in module.definitions:
                at = module.definitions[first]
            else:
                at = None
            if at is not None and at is not definition and at not in found:
                found.append(at)
        return found
