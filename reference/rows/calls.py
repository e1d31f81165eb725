"""The rows of `test_top`: calls over files and sinks in memory."""
import binascii
import functools

from paradyn import commands

LOG_FRONT = 64                                   # so many bytes of a log are printed
ROOM = 20000000
PIECE = 65536
ABSENT = object()


class Failed(Exception):
    """A reading or a writing failed."""


class File:
    """A file that was given: its bytes or ABSENT, and the numbers of the readings that fail."""

    def __init__(self, content):
        self.content, self.fails = content, set()

    def change(self, word, rest):
        """Takes up a line that says something of it."""
        number, _, behind = rest.partition(b" ")
        if word == b"fail":
            self.fails.add(int(number))
        elif self.content is ABSENT:
            return
        elif word == b"|":
            self.content += rest + b"\n"
        elif word == b"hex":
            self.content += binascii.unhexlify(rest)
        elif word == b"fill":
            self.content += binascii.unhexlify(behind) * int(number)
        elif word == b"cut":
            self.content = self.content[:int(number)]
        elif word == b"byte":
            self.put(int(number), binascii.unhexlify(behind))

    def put(self, place, bytes_):
        content = bytearray(self.content)
        for k, b in enumerate(bytes_):
            if place + k < len(content):
                content[place + k] = b
        self.content = bytes(content)

    def read(self):
        """All bytes, in pieces of which the last has none; or Failed."""
        if self.content is ABSENT:
            raise Failed
        if any(n <= -(-len(self.content) // PIECE) for n in self.fails):
            raise Failed
        return bytes(self.content)


class Sink:
    """What was written, where a writing takes at most so many bytes and some fail."""

    def __init__(self, piece, fails):
        self.content, self.piece, self.fails, self.calls = b"", piece, fails, 0

    def write(self, text):
        """Writes the text whole, or as far as it goes, and then Failed."""
        while text:
            number, self.calls = self.calls, self.calls + 1
            took = text[:min(self.piece, ROOM - len(self.content))]
            if number in self.fails or not took:
                raise Failed
            self.content += took
            text = text[len(took):]


class Case:
    """The files and sinks, and what the calls print."""

    def __init__(self):
        self.files, self.last = {}, None
        self.report = b""                        # what the output gained at the last meeting
        self.piece, self.fails = ROOM, {b"fail-out": set(), b"fail-log": set()}

    def take(self, word, rest):
        """Takes up a line that isn't a call."""
        if word in (b"file", b"absent"):
            self.last = self.files[rest] = File(b"" if word == b"file" else ABSENT)
        elif word == b"piece":
            self.piece = int(rest)
        elif word in self.fails:
            self.fails[word].add(int(rest))
        elif self.last is not None:
            self.last.change(word, rest)

    def sinks(self):
        return Sink(self.piece, self.fails[b"fail-out"]), Sink(self.piece, self.fails[b"fail-log"])

    def read(self, name):
        """The bytes of a file, or None. A name that wasn't given is a file without bytes."""
        file = self.files.get(name.encode())
        try:
            return b"" if file is None else file.read()
        except Failed:
            return None

    def served(self, line):
        """The status, and both sinks."""
        out, log = self.sinks()
        words = [w.decode() for w in line.split(b" ")] if line else []
        result = commands.execute(words, self.read)
        return deliver(result.status, result.out, result.log if result.status == 0 else b"", out, log)


def deliver(status, text, log_text, out, log):
    """Writes the log and then the output, as far as it goes."""
    try:
        log.write(log_text)
        out.write(text)
    except Failed:
        return 7, out, log
    return status, out, log


def exit_text(status):
    return b"ExitCode(unix_exit_status(%d))" % status


def output_text(status, out, log, most=ROOM):
    return exit_text(status) + b" out %d log %d\n" % (len(out.content), len(log.content)) + out.content[:most]


def serve(case, rest):
    status, out, log = case.served(rest)
    digits = binascii.hexlify(log.content[:LOG_FRONT])
    return output_text(status, out, log) + (b"log " + digits + b"\n" if digits else b"") + b"\n"


def not_text(case, rest):
    """Words that aren't text are none."""
    return serve(case, b"")


def begin(case, rest):
    most, _, words = rest.partition(b" ")
    status, out, log = case.served(words)
    return output_text(status, out, log, int(most)) + b"\n\n"


def keep(case, rest):
    name, _, words = rest.partition(b" ")
    status, out, log = case.served(words)
    case.files[name] = case.last = File(log.content)
    return output_text(status, out, log) + b"\n"


def meet(case, rest):
    """That two workers, or a run and a view, meet is made by hand: the reference has no threads."""
    name, _, words = rest.partition(b" ")
    status, out, log = case.served(words)
    case.files[name] = case.last = File(log.content)
    case.report = out.content
    return exit_text(status) + b" met\n\n"


def count(case, rest):
    """That two workers ask as often as their log says is made by hand: the reference has no threads."""
    status, _, _ = case.served(rest)
    return exit_text(status) + b" counted\n\n"


def sameness(content, other):
    return b"same" if content == other else b"other"


def compare(case, rest):
    """Whether the output gains what it gained at the last meeting."""
    status, out, _ = case.served(rest)
    return exit_text(status) + b" " + sameness(out.content, case.report) + b" report\n\n"


def deliver_row(case, rest):
    log_text, _, text = rest.partition(b" ")
    out, log = case.sinks()
    status, _, _ = deliver(0, text, log_text, out, log)
    answer = b"failed" if status else b"delivered"
    return answer + b"\nlog '" + log.content + b"'\noutput '" + out.content + b"'\n"


def row(case, rest):
    """A session that takes the quanta of a run's log, which is what a replay is: its report, and whether the run's is
    the same."""
    _, out, log = case.served(b"run p c " + rest + b" --log l")
    case.files[b"l"] = case.last = File(log.content)
    _, replayed, _ = case.served(b"replay p c l")
    return b"run %s replay same\n" % sameness(out.content, replayed.content) + replayed.content + b"\n"


def person(case, rest):
    """What a person is shown is made by hand: the reference has no words of `pd`."""
    raise NotImplementedError


CALLS = {b"pd": person, b"guard": person, b"words": serve, b"begin": begin, b"keep": keep, b"meet": meet, b"count": count, b"compare": compare, b"not-text": not_text,
         b"deliver": deliver_row, b"row": row}


def calls(stdin):
    """Triples of a call's line, its function and the case as it is then."""
    case = Case()
    for line in stdin.split(b"\n"):
        word, _, rest = (b"|", b"", line[1:]) if line.startswith(b"|") else line.partition(b" ")
        if word == b"new":
            case = Case()
        elif word in CALLS:
            yield line, functools.partial(CALLS[word], rest=rest), case
        elif word not in (b"", b"#"):
            case.take(word, rest)


def standing_row(standing, at, line, following):
    """What stands for a row that is made by hand, from a place on and up to the row that follows; and where it ends."""
    start = standing.find(b"\n" + line + b"\n", max(at - 1, 0)) + 1
    end = standing.find(b"\n\n" + following + b"\n", start) + 2 if following else len(standing)
    return standing[start:end], end


def answers(stdin, standing):
    """Pairs of a call's line and what is printed behind it; of rows made by hand, what stands there."""
    lines, at = [line for line, _, _ in calls(stdin)], 0
    for number, (line, call, case) in enumerate(calls(stdin)):
        if line.startswith((b"pd ", b"guard ")):
            text, at = standing_row(standing, at, line, (lines[number + 1:number + 2] or [None])[0])
            yield line, text
        else:
            yield line, line + b"\n" + call(case)
