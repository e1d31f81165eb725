"""Random calls of each command, with the files that they read."""
import random

from paradyn import commands, quanta_log
from .configurations import SHIPPED_METRICS, Directives, changed, configuration_file
from .files import AssemblyText, changed_elf, changed_log, changed_report, other_quanta
from .lines import with_lines
from .programs import program_file

FOCI = ["/Code", "/Code/program", "/Machine/hart0", "/Machine/hart3", "/SyncObject", "/Code,/SyncObject/lock_a",
        "/SyncObject/lock_b,/Code/program/f", "/Code/program/main", "x", "", "/Code,/Code", "/Machine/hart00"]
VALUES = {
    "harts": [1, 1, 1, 2, 2, 3, 3, 4, 7, 16, 32], "quantum": [1, 1, 2, 3, 7, 20, 50, 10000],
    "budget": [1, 3, 20, 65, 200, 400, 700], "bins": [2, 3, 5, 64, 1024], "width": [1, 2, 5, 10, 17, 50, 100, 1000],
    "seed": [0, 1, 7, 99, 1000, 4294967295], "instruments": [1, 2, 4, 8, 64, 1024], "start": ["cold", "warm"],
    "workers": [1, 2, 3, 4, 5, 16], "views": [1, 2, 3, 8], "show": ["lines", "words", "words", "table"],
    "by": ["words", "words", "lines"],
    "top": [1, 2, 3, 20, 1000000], "columns": [20, 21, 40, 80, 1000], "format": ["blocks", "ascii", "json", "csv", "svg", "html"],
    "each": ["procedure", "procedure", "module", "lock", "hart"], "from": [0, 0, 1, 50, 1000], "until": [1, 51, 200, 2147483647],
}
SEARCH = b"include hypotheses;\nsearch { window %d; cost 1000; observed 1000000; }\n"
# how often an option is given; those of which the default would be slow always are
GIVEN = {"instruments": 0.2, "start": 0.25, "seed": 0.6, "workers": 0.7, "views": 0.8, "bins": 0.8, "quantum": 0.9, "show": 0.8, "top": 0.5, "by": 0.5,
         "columns": 0.6, "format": 0.8, "each": 0.8, "from": 0.3, "until": 0.3, "under": 0.5}
STRAY_WORDS = ["--", "-", "--harts", "--log", "--log=", "--start=cold", "-h", "more", "--harts=2"]
ALSO = ["0x10004", "0x10008,0x10010", "0x1000C", "0x10000,0x10000", "0x1", "0xffffffffffffffff", "0x0000000000000010014"]
BAD_VALUES = ["0x", "0x10000,", "0x10000000000000000", "10004", "0", "-", "-1", "x", "", "00000000001", "4294967296", "10001", "100000001", "33", "hot", "1e3"]


class Case:
    """The files and the calls of one case. A call is a list of words; names of files are relative to the case's
    folder."""

    def __init__(self, command, seed):
        self.command, self.draw, self.files = command, random.Random("%s %d" % (command, seed)), {}
        self.calls = []
        getattr(self, command)()

    def put(self, name, content):
        self.files[name] = content
        return name

    def execute(self, words):
        return commands.execute([str(w) for w in words], self.files.get)

    def options(self, names):
        """Random options, each in one of the two forms, in a random order."""
        draw, given = self.draw, []
        for name in names:
            if draw.random() < GIVEN.get(name, 1):
                value = str(draw.choice(VALUES[name]))
                if value.isdigit() and draw.random() < 0.03:
                    value = "0" + value
                given.append(["--" + name, value] if draw.random() < 0.8 else ["--%s=%s" % (name, value)])
        draw.shuffle(given)
        return given

    def call(self, positional, names=(), also=()):
        """A call whose options stand anywhere among the positional words; sometimes its words are wrong."""
        draw = self.draw
        given = self.options(names) + list(also)
        words = [[p] for p in positional]
        for option in given:
            words.insert(draw.randint(0, len(words)) if draw.random() < 0.3 else len(words), option)
        words = [self.command] + [w for group in words for w in group]
        if draw.random() < 0.03:
            words = self.wrong(words)
        self.calls.append(words)
        return words

    def wrong(self, words):
        """Words that are most often a usage fault."""
        draw, words = self.draw, list(words)
        k, kind = draw.randrange(1, len(words)), draw.randrange(6)
        if kind == 0:
            del words[k]
        elif kind == 1:
            words.insert(k, draw.choice(STRAY_WORDS))
        elif kind == 2:
            words[k] = draw.choice(BAD_VALUES)
        elif kind == 3:
            words[k] = words[k][:-1]
        elif kind == 4:
            words[0] = draw.choice(["runs", "", "RUN", "--harts", "replay", "points"])
        else:
            words.append(words[k])
        return words

    def program_name(self):
        """A random program's file; sometimes it is faulty or absent."""
        draw = self.draw
        self.program, content = program_file(draw)
        kind = draw.random()
        if kind < 0.05:
            elf = content[:4] == b"\x7fELF"
            content = changed_elf(draw, content) if elf else changed(draw, content)
        elif kind < 0.06:
            return "absent"
        return self.put("p", content)

    def configuration_name(self):
        conf, content = configuration_file(self.draw, self.program)
        self.conf = conf
        return "nowhere" if self.draw.random() < 0.01 else self.put("c", content)

    RUN = ("harts", "seed", "quantum", "budget", "bins", "width", "instruments", "start")

    def run(self):
        files = [self.program_name(), self.configuration_name()]
        self.call(files, self.RUN, [["--log", "l"]] if self.draw.random() < 0.8 else [])

    def live(self):
        files = [self.program_name(), self.configuration_name()]
        self.call(files, [n for n in self.RUN if n != "seed"] + ["workers"], [["--log", "l"]])

    def visi(self):
        self.call([self.program_name(), self.configuration_name()], self.RUN + ("views",))

    def direct(self):
        files = [self.program_name(), self.configuration_name()]
        content = self.files.get("c", b"")
        if b"search {" not in content and b"include metrics" in content and self.draw.random() < 0.9:
            content += SEARCH % self.draw.randint(1, 3)
            self.put("c", content)
        directives = self.put("d", Directives(self.draw, content).text)
        self.call(files + [directives], self.RUN)

    def recorded(self):
        """The log of a random run, of version 2 or 1; none where the run is refused."""
        command, self.command = self.command, self.draw.choice(["run", "run", "live"])
        names = self.RUN if self.command == "run" else [n for n in self.RUN if n != "seed"] + ["workers"]
        result = self.execute(self.call([self.program_name(), self.configuration_name()], names))
        self.command, self.calls = command, []
        if not result.log:
            return b""
        settings, quanta = quanta_log.read(result.log)
        if quanta and self.draw.random() < 0.3:
            quanta = other_quanta(self.draw, quanta)
        if settings.harts <= 16 and self.draw.random() < 0.3:
            return quanta_log.write(settings, quanta, 1)
        return quanta_log.write(settings, quanta)

    def replay(self):
        log = self.recorded()
        while not log:
            log = self.recorded()
        name = self.put("l", changed_log(self.draw, log))
        if self.draw.random() < 0.05:
            self.configuration_name()
        self.call(["p", "c", name])

    def relog(self):
        log = self.recorded()
        self.put("l", changed_log(self.draw, log) if log else b"PDYNLOG2"[:self.draw.randint(0, 8)])
        self.call(["l" if self.draw.random() < 0.98 else "absent"])

    def reported(self):
        """What a random run prints. Most have a search."""
        command, self.command = self.command, "run"
        names = [self.program_name(), self.configuration_name()]
        content = self.files.get("c", b"")
        if b"search {" not in content and b"include metrics" in content and self.draw.random() < 0.9:
            self.put("c", content + SEARCH % 1)
        result = self.execute(self.call(names, self.RUN))
        self.command, self.calls = command, []
        return result

    def advise(self):
        result = self.reported()
        while result.status != 0 and self.draw.random() < 0.95:
            result = self.reported()
        self.put("r", changed_report(self.draw, result.out))
        self.call(["r" if self.draw.random() < 0.98 else "absent"])

    def show(self):
        text = self.reported().out
        self.put("r", text if self.draw.random() < 0.5 else changed_report(self.draw, text))
        self.call(["r" if self.draw.random() < 0.98 else "absent"], ("columns", "format"))

    def diff(self):
        first = self.reported().out
        files = dict(self.files)
        kind = self.draw.random()
        if kind < 0.7 and "p" in files and "c" in files:
            command, self.command = self.command, "run"
            second = self.execute(self.call(["p", "c"], self.RUN)).out
            self.command, self.calls = command, []
        else:
            second = first if kind < 0.8 else self.reported().out
        for name, text in ("r", first), ("t", second):
            self.put(name, text if self.draw.random() < 0.8 else changed_report(self.draw, text))
        self.call(["r" if self.draw.random() < 0.98 else "absent", "t" if self.draw.random() < 0.98 else "absent"])

    def ask(self):
        draw = self.draw
        metrics = ",".join(draw.choice(SHIPPED_METRICS if draw.random() < 0.97 else ["nothing", ""]) for _ in range(draw.choice([1, 1, 2, 3])))
        under = [["--under", draw.choice(FOCI)]] if draw.random() < 0.6 else []
        self.call([self.program_name(), metrics], ("harts", "seed", "quantum", "budget", "instruments", "each", "from", "until"), under)

    def blocks(self):
        self.call([self.program_name()], ("harts", "seed", "quantum", "budget"))

    def also(self):
        return [["--also", self.draw.choice(ALSO)]] if self.draw.random() < 0.3 else []

    def profile(self):
        more = [["--callgrind", "g"]] if self.draw.random() < 0.4 else []
        self.call([self.program_name()], ("harts", "seed", "quantum", "budget", "show", "top"), more + self.also())

    def procedure(self):
        """The name of one of the program's procedures; sometimes of none."""
        draw, content = self.draw, self.files.get("p", b"")
        result = commands.execute(["points", "p"], {"p": content}.get)
        paths = [line.split()[1].decode() for line in result.out.split(b"\n") if line.startswith(b"0x")]
        if not paths or draw.random() < 0.1:
            return draw.choice(["nothing", "program/", "", "/"])
        return draw.choice([draw.choice(paths), draw.choice(paths).split("/")[-1]])

    def annotate(self):
        name = self.program_name()
        more = [["--procedure", self.procedure()]] if self.draw.random() < 0.5 else []
        if self.draw.random() < 0.7 and "p" in self.files:
            self.put("p", with_lines(self.draw, self.files["p"]))
        self.call([name], ("harts", "seed", "quantum", "budget", "by"), more + self.also())

    def points(self):
        draw = self.draw
        name = self.program_name()
        if name in self.files and self.files[name][:4] == b"\x7fELF" and draw.random() < 0.6:
            self.put(name, changed_elf(draw, self.files[name]))
        self.call([name])

    def asm(self):
        if self.draw.random() < 0.7:
            self.put("p", AssemblyText(self.draw).text)
            self.call(["p"])
        else:
            self.call([self.program_name()])

    def plan(self):
        draw = self.draw
        name, conf = self.program_name(), self.configuration_name()
        content = self.files.get("c", b"")
        if draw.random() < 0.5 and b"include metrics" not in content:
            content = b"include metrics;\n" + content
        if draw.random() < 0.2:
            content = changed(draw, content)
        if conf == "c":
            self.put("c", content)
        metrics = self.conf.metrics if draw.random() < 0.9 else SHIPPED_METRICS + ["nothing"]
        foci = self.conf.foci() if draw.random() < 0.8 else FOCI
        self.call([name, conf, draw.choice(metrics), draw.choice(foci)], ("harts",))

    def stress(self):
        draw = self.draw
        count = draw.choice([1, 1, 2, 2, 3, 3, 4, 5, 6, 8])
        self.call([str(count), str(draw.choice([0, 1, 2, draw.randrange(2 ** 32), 4294967295]))])
