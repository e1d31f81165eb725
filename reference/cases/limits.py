"""Fixed cases at the limits of files and programs, and one past them."""

SHIPPED = b"include metrics;\n"
SHOWS = b" ".join([b"at 0 show procedure_calls /Code; at 3 show calls_made /Code;",
                   b"at 1 show cpu_inclusive /Code/program/f0; at 1 show cpu /Code;"])
NOPS = b"nop\n" * 9
REPORT = b"paradyn report 1\nharts %d ticks 3 samples 1 skipped 0\nhart 0\noutput %d\n\n"
# a search of as many nodes as there may be
DEEP = SHIPPED + b"""hypothesis A { metric procedure_calls; threshold 0; axes Code, Machine; }
hypothesis B { metric cpu_inclusive; threshold 0; axes Code, Machine; }
hypothesis C { parent A; metric procedure_calls; threshold 1; axes Machine; }
search { window 1; cost 1000000; observed 1000000; }
at 0 show procedure_calls /Code;
phase late at 60000;
"""


def procedures(count):
    return b"".join(b".proc f%d\nret\n.end\n" % k for k in range(count))


def callers(count):
    """A procedure that calls all others in turn."""
    calls = b"".join(b"call f%d\n" % k for k in range(count))
    return b".proc main\nagain:\n" + calls + b"j again\n.end\n" + procedures(count)


def blocks(count):
    return b".word 0\nnop\n" * count


def data(size):
    return b".data\n.zero %d\n.text\nnop\n" % size


def limits():
    """Pairs of words and files, from what is cheap to what is dear."""
    run, plan = "run p c", "plan p c procedure_calls /Code"
    yield plan, {"p": procedures(4096), "c": SHIPPED}
    yield plan, {"p": procedures(4097), "c": SHIPPED}
    yield run, {"p": procedures(4097), "c": SHIPPED + SHOWS}
    yield run, {"p": procedures(4096), "c": SHIPPED + SHOWS}
    yield "blocks p --budget 50", {"p": blocks(4094)}
    yield "blocks p --budget 50", {"p": blocks(4095)}
    yield "profile p --budget 50 --show words", {"p": blocks(4094)}
    yield "annotate p --budget 50", {"p": blocks(4095)}
    yield run, {"p": NOPS, "c": b" " * 1048576}
    yield run, {"p": NOPS, "c": b" " * 1048577}
    yield "direct p c d", {"p": NOPS, "c": b"", "d": b" " * 1048576}
    yield "direct p c d", {"p": NOPS, "c": b"", "d": b" " * 1048577}
    yield "points p", {"p": b"#" * 33554432}
    yield "points p", {"p": b"#" * 33554433}
    yield "points p", {"p": b"\x7fELF" + bytes(33554429)}
    yield "asm p", {"p": data(16777216)}
    yield "asm p", {"p": data(16777217)}
    yield "asm p", {"p": b"nop\n" * 131072}
    yield "asm p", {"p": b"nop\n" * 131073}
    yield "advise r", {"r": REPORT % (1, 0) + b"x" * 33554432}
    yield "advise r", {"r": REPORT % (1, 0) + b"search nodes 18446744073709551615\n"}
    yield "advise r", {"r": REPORT % (2 ** 64 - 1, 2 ** 64 - 1)}
    yield "relog l", {"l": b"PDYNLOG2" + bytes(268435488)}
    yield "relog l", {"l": b"PDYNLOG2" + bytes(268435489)}
    yield ("run p c --harts 32 --quantum 20 --budget 3000 --width 200 --instruments 1024 --seed 5 --log l",
           {"p": callers(62), "c": DEEP})


class Limit:
    """The files and the call of one case."""

    command = "limits"

    def __init__(self, number):
        words, self.files = list(limits())[number]
        self.calls = [words.split(" ")]


COUNT = sum(1 for _ in limits())
