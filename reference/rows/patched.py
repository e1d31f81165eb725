"""The rows of `test_machine` on patched machines."""
from paradyn.patched_machine import Machine, Placed
from paradyn.plans import Var
from paradyn.relocation import move_word
from paradyn.statement_code import compile_stmts
from paradyn.trampolines import base_block, mini_block
from . import debug
from .machine import program

POINT, BUDGET = 0x10000, 1000
WORDS = [0x00150513, 0x05D00893, 0x00000073]      # addi a0, a0, 1; li a7, 93; ecall
LOOP = [0x0000006F]
# the slots and mini blocks of counters by name
COUNTERS = {"w": (2, 0x11014), "a": (2, 0x11010), "b": (3, 0x11024), "c": (4, 0x11038), "d": (2, 0x11010)}


def counter(name):
    slot, at = COUNTERS[name]
    return Placed([Var(b"rounds", False, 0)], [slot], [(POINT, at)])


def linked(words, names):
    """A machine with a mini block for each counter at the first word, of which each leads to the one before."""
    m = Machine(program(words), 1, BUDGET)
    m.write(base_block(POINT, 0x11000, move_word(words[0], POINT, 0x1100C)))
    for name in names:
        add_mini(m, name)
    m.link_point(POINT)
    return m


def add_mini(m, name):
    slot, at = COUNTERS[name]
    m.write(mini_block(POINT, at, compile_stmts([([], ("up", 0))], [slot]), m.head(POINT)))
    m.link_mini(POINT, at)


def take_turns(m, most):
    """Turns of the hart, and how many of them were ticks."""
    ticks = 0
    for _ in range(most):
        if not m.runnable(0):
            break
        ticks += m.turn(0)
    return ticks


def three_counted():
    m = linked(LOOP, "abc")
    assert all(m.arm(counter(name)) for name in "abc")
    return m


def passed_by():
    """The hart is at the second mini block when it and the first are unlinked."""
    m = three_counted()
    take_turns(m, 8)
    for name in "ba":
        m.unlink_mini(POINT, COUNTERS[name][1])
    return m


def renewed(out):
    """The fourth mini block stands where the first did."""
    m = passed_by()
    answers = debug.truth(m.free(POINT)), m.settle(), debug.truth(m.free(POINT))
    out.append("Renewal { held: %s, settled: %d, freed: %s }" % answers)
    add_mini(m, "d")
    assert m.arm(counter("d"))
    return m


MACHINES = {"words": lambda out: linked(WORDS, "w"), "loop": lambda out: three_counted(), "passed": lambda out: passed_by(),
            "renewed": renewed}


def sampled(m, name):
    readings = m.sample(counter(name))
    return "false" if readings is None else str(readings[0])


def step(m, word):
    """What a step answers."""
    call, _, name = word.partition("-")
    if call.isdigit():
        return str(take_turns(m, int(call)))
    steps = {"arm": lambda: debug.truth(m.arm(counter(name))), "sample": lambda: sampled(m, name),
             "free": lambda: debug.truth(m.free(POINT)), "settle": lambda: str(m.settle())}
    return steps[call]()


def answer(row):
    """What is done with a patched machine, and how it stands then."""
    name, *steps = row.split(" ")
    if name not in MACHINES:
        return [row, "no machine"]
    out = [row]
    m = MACHINES[name](out)
    out += ["%s: %s" % (word, step(m, word)) for word in steps]
    stop = m.stopped[0] and "Exit(%d)" % m.stopped[0][1]
    return out + ["ticks %d at %x stop %s quiet %s output %d" % (
        m.tick[0], m.at(0), debug.option(stop), debug.truth(m.quiet()), len(m.out.bytes()))]
