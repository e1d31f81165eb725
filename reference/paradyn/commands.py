"""What each command prints, and the status with which it ends."""
from . import advice, asking, assembly, basic_blocks, command_words, configuration, diff, directives, elf_reading, elf_writing
from . import line_table, picture, plans, points, profile, profile_reading, quanta_log, report, report_csv, report_json, report_reading
from . import resources, shipped, show, stress, tokens
from .checking import CheckFault, check
from .session import BadPick, Session
from .turn_order import by_workers, seeded

CONFIGURATION_MOST, LOG_MOST = 1048576, 268435496
FORMATS = {
    "blocks": lambda report, columns: show.show(report, columns, "blocks"),
    "ascii": lambda report, columns: show.show(report, columns, "ascii"),
    "json": lambda report, columns: report_json.text(report),
    "csv": lambda report, columns: report_csv.text(report),
    "svg": lambda report, columns: picture.svg(report),
    "html": lambda report, columns: picture.html(report),
}


class Refusal(Exception):
    """A status other than 0, and the line that is printed."""

    def __init__(self, status, line):
        super().__init__(status, line)
        self.status, self.line = status, line


class Result:
    """A status, what is printed, and the log that is left. Behind a run the session and its inputs stand here too."""

    def __init__(self, status, out, log=b""):
        self.status, self.out, self.log = status, out, log
        self.session = self.inputs = None


def bad_program(fault):
    return Refusal(4, b"paradyn: bad program: " + str(fault).encode() + b"\n")


def bad_configuration(line, col, kind):
    return Refusal(5, b"paradyn: bad configuration: line %d column %d: %s\n" % (line, col, kind.encode()))


def bad_pick(metric, focus, cause):
    return Refusal(6, b"paradyn: cannot measure " + metric + b" " + focus + b": " + report.cause_text(cause) + b"\n")


def bad_log(place, kind):
    return Refusal(9, b"paradyn: bad log at %d: %s\n" % (place, kind.encode()))


def load_program(data):
    """The image of a program file, or Refusal."""
    if len(data) > elf_reading.FILE_MOST:
        raise bad_program("too long")
    try:
        return elf_reading.load(data) if data[:4] == b"\x7fELF" else assembly.assemble(bytes(data))
    except (elf_reading.ElfFault, assembly.AsmFault) as f:
        raise bad_program(f) from None


def lines_of(data):
    """The line table of a program file, or Refusal."""
    try:
        table = line_table.read(data) if data[:4] == b"\x7fELF" else None
    except line_table.BadLines as f:
        raise Refusal(15, b"paradyn: bad line table at %d\n" % f.place) from None
    if table is None:
        raise Refusal(15, b"paradyn: no line table\n")
    return table


def parse_configuration(data):
    if len(data) > CONFIGURATION_MOST:
        raise bad_configuration(0, 0, tokens.TOO_LONG)
    try:
        return configuration.parse(data)
    except tokens.ParseFault as f:
        raise bad_configuration(f.line, f.col, f.kind) from None


class Program:
    """An image with its procedures and points."""

    def __init__(self, image):
        self.image = image
        self.procs, self.skipped = points.procedures(image)
        self.points = points.points(image, self.procs)

    def check(self, conf, harts):
        """What the configuration means for the program, and the program's resources; or Refusal."""
        ship = shipped.shipped()
        tree = resources.tree_of(self.image, self.procs, harts, shipped.prefixes(conf, ship))

        def focus_of(text):
            try:
                return tree.focus(text)
            except resources.FocusFault:
                return None
        try:
            return check(conf, ship, focus_of), tree
        except CheckFault as f:
            raise bad_configuration(f.line, 0, f.kind) from None


class Call:
    """One call. Each command is a method, which takes the words that were read."""

    def __init__(self, read, watch=None):
        self.read_file, self.watch = read, watch
        self.session = self.inputs = None

    def read(self, name):
        data = self.read_file(name)
        if data is None:
            raise Refusal(3, b"paradyn: cannot read " + name.encode("utf-8", "surrogateescape") + b"\n")
        return data

    def program_and_configuration(self, w):
        image = load_program(self.read(w["positional"][0]))
        return Program(image), parse_configuration(self.read(w["positional"][1]))

    @staticmethod
    def settings(w):
        warm = w["start"] == "warm"
        return quanta_log.Settings(w["harts"], w["budget"], w["bins"], w["width"], warm, w["instruments"])

    def open(self, program, conf, settings):
        """The session of a run, or Refusal."""
        checked, tree = program.check(conf, settings.harts)
        self.inputs = (program.image, checked, tree, program.procs, program.points, settings)
        try:
            self.session = Session(*self.inputs, watch=self.watch)
        except BadPick as f:
            raise bad_pick(f.metric, f.focus, f.cause) from None
        return self.session

    def run_session(self, w):
        """The program, and the session of a whole run."""
        program, conf = self.program_and_configuration(w)
        s = self.open(program, conf, self.settings(w))
        if w["command"] == "live":
            by_workers(s, w["workers"], w["quantum"])
        else:
            seeded(s, w["seed"], w["quantum"])
        s.close()
        return program, s

    def run(self, w):
        program, s = self.run_session(w)
        return Result(0, report.report(s, program.skipped), quanta_log.write(s.settings, s.log))

    live = run

    def visi(self, w):
        _, s = self.run_session(w)
        return Result(0, report.views_text(s, w["views"]))

    def direct(self, w):
        program, conf = self.program_and_configuration(w)
        program.check(conf, w["harts"])
        try:
            found = directives.read_directives(self.read(w["positional"][2]))
            conf = directives.apply(conf, shipped.shipped(), found)
        except directives.DirectiveFault as f:
            line = b"paradyn: bad directives: line %d column %d: %s\n" % (f.line, f.col, f.kind.encode())
            raise Refusal(12, line) from None
        s = self.open(program, conf, self.settings(w))
        seeded(s, w["seed"], w["quantum"])
        s.close()
        return Result(0, report.report(s, program.skipped))

    def log(self, name):
        """The bytes, the settings and the quanta of a log, or Refusal."""
        data = self.read(name)
        if len(data) > LOG_MOST:
            raise bad_log(LOG_MOST, "too long")
        try:
            settings, quanta = quanta_log.read(data)
        except quanta_log.LogFault as f:
            raise bad_log(f.place, f.kind) from None
        return data, settings, quanta

    def replay(self, w):
        program, conf = self.program_and_configuration(w)
        data, settings, quanta = self.log(w["positional"][2])
        s = self.open(program, conf, settings)
        head, size = (48, 8) if data[:8] == quanta_log.MAGIC2 else (40, 16)
        for k, (worker, h, turns, owns) in enumerate(quanta):
            q = s.quantum(worker, h, turns)
            if q is None:
                raise bad_log(head + size * k, "hart %d not runnable" % h)
            if q[3] != owns:
                raise bad_log(head + size * k, "owns %d not %d" % (owns, q[3]))
        if not s.done():
            raise bad_log(len(data), "unfinished")
        s.close()
        return Result(0, report.report(s, program.skipped))

    def relog(self, w):
        _, settings, quanta = self.log(w["positional"][0])
        return Result(0, quanta_log.write(settings, quanta))

    def asm(self, w):
        data = self.read(w["positional"][0])
        if len(data) > elf_reading.FILE_MOST:
            raise bad_program("too long")
        try:
            return Result(0, elf_writing.write(assembly.assemble(bytes(data))))
        except assembly.AsmFault as f:
            raise bad_program(f) from None

    def points(self, w):
        return Result(0, points.points_text(load_program(self.read(w["positional"][0]))))

    def plan(self, w):
        program, conf = self.program_and_configuration(w)
        checked, tree = program.check(conf, w["harts"])
        name, focus_text = (x.encode("utf-8", "surrogateescape") for x in w["positional"][2:])
        metric = [k for k, m in enumerate(checked.metrics) if m.name == name]
        if not metric:
            raise bad_configuration(0, 0, tokens.UNKNOWN_NAME)
        try:
            focus = tree.focus(focus_text)
        except resources.FocusFault:
            raise bad_configuration(0, 0, tokens.BAD_FOCUS) from None
        try:
            p = plans.plan(checked, metric[0], focus, plans.World(tree, program.procs, program.points))
        except plans.PlanFault as f:
            raise bad_pick(name, tree.focus_text(focus), f.cause) from None
        return Result(0, plans.plan_text(p, name, tree.focus_text(focus)))

    def stress(self, w):
        text, conf_text = stress.texts(w["n"], w["seed_word"])
        s = self.open(Program(load_program(text)), parse_configuration(conf_text), quanta_log.Settings(2, warm=True))
        seeded(s, w["seed_word"], 50)
        s.close()
        return Result(0, stress.summary(w["n"], s))

    def blocks(self, w):
        program = Program(load_program(self.read(w["positional"][0])))
        try:
            text = basic_blocks.text(program.image, program.procs, w["harts"], w["budget"], w["seed"], w["quantum"])
        except basic_blocks.TooManyBlocks as f:
            raise Refusal(11, b"paradyn: too many blocks %d\n" % f.n) from None
        return Result(0, text)

    def profiled(self, program, w):
        try:
            return profile.Profile(program, w)
        except basic_blocks.TooManyBlocks as f:
            raise Refusal(11, b"paradyn: too many blocks %d\n" % f.n) from None

    def profile(self, w):
        r = self.profiled(Program(load_program(self.read(w["positional"][0]))), w)
        out = profile.table(r, w["top"]) if w["show"] == "table" else profile.lines(r, w["show"] == "words")
        return Result(0, out, b"" if w["callgrind"] is None else profile.callgrind(r))

    def annotate(self, w):
        content = self.read(w["positional"][0])
        program = Program(load_program(content))
        name = None if w["procedure"] is None else w["procedure"].encode()
        if name is not None and not any(profile.is_named(p, name) for p in program.procs):
            raise Refusal(14, b"paradyn: no procedure " + name + b"\n")
        table = lines_of(content) if w["by"] == "lines" else None
        return Result(0, profile.annotated(self.profiled(program, w), name, table))

    def advise(self, w):
        try:
            return Result(0, advice.advise(advice.read_verdicts(self.read(w["positional"][0]))))
        except advice.BadReport as f:
            raise Refusal(13, b"paradyn: bad report at %d\n" % f.place) from None

    def report(self, name, what=b"report", profiles=False):
        """A report; or, where profiles are taken, a profile as one. Behind it stands whether it is a profile."""
        data = self.read(name)
        is_profile = profiles and data.startswith(b"profile ")
        try:
            if is_profile and len(data) > report_reading.REPORT_MOST:
                raise advice.BadReport(report_reading.REPORT_MOST)
            return profile_reading.read_profile(data) if is_profile else report_reading.read_report(data), is_profile
        except advice.BadReport as f:
            raise Refusal(13, b"paradyn: bad %s at %d\n" % (what, f.place)) from None

    def show(self, w):
        return Result(0, FORMATS[w["format"]](self.report(w["positional"][0])[0], w["columns"]))

    def diff(self, w):
        old, is_old_profile = self.report(w["positional"][0], profiles=True)
        new, is_new_profile = self.report(w["positional"][1], b"new report", profiles=True)
        if is_old_profile != is_new_profile:
            raise Refusal(13, b"paradyn: bad new report at 0\n")
        return Result(0, diff.diff(old, new))

    def ask(self, w):
        name, metrics = w["positional"]
        program, names = Program(load_program(self.read(name))), [x.encode("utf-8", "surrogateescape") for x in metrics.split(",")]
        checked, tree = program.check(parse_configuration(asking.SHIPPED), w["harts"])
        if any(all(m.name != x for m in checked.metrics) for x in names):
            raise bad_configuration(0, 0, tokens.UNKNOWN_NAME)
        try:
            focus = tree.focus(w["under"].encode("utf-8", "surrogateescape"))
        except resources.FocusFault:
            raise bad_configuration(0, 0, tokens.BAD_FOCUS) from None
        rows = self.profiled(program, dict(w, also=[])).rows() if w["each"] in ("procedure", "module") else []
        return Result(0, asking.text(w, names, asking.foci(w["each"], tree, focus, rows)))


def execute(words, read, watch=None):
    """The result of a call. read(name) gives the bytes of a file, or None; watch is called with the session when it
    is made."""
    w = command_words.parse(words)
    if w is None:
        return Result(2, b"paradyn: usage\n")
    call = Call(read, watch)
    try:
        result = getattr(call, w["command"])(w)
    except Refusal as f:
        result = Result(f.status, f.line)
    result.session, result.inputs = call.session, call.inputs
    return result
