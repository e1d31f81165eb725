"""The program and the configuration of `stress`, and its line."""
from .search import BARRED, CONFIRMED, REJECTED, UNFINISHED
from .turn_order import next_number

LOCKS = [".proc lock_acquire", "li a1, 1", "spin:", "amoswap.d a2, a1, (a0)", "bnez a2, spin", "ret", ".end",
         ".proc lock_release", "sd zero, 0(a0)", "ret", ".end"]
WRITE = [".proc write", "li a7, 64", "ecall", "ret", ".end"]
ENDS = ["addi s1, s1, -1", "beqz s1, fin", "j again", "fin:", "li a0, 0", "li a7, 93", "ecall", ".end"]
DOES = [[], ["la a0, lock_a", "call lock_acquire", "la a0, lock_a", "call lock_release"],
        ["li a0, 1", "la a1, lock_a", "li a2, 1", "call write"]]


def texts(n, seed):
    """The text of the program of n procedures, and that of its configuration."""
    x = seed

    def draw(k):
        nonlocal x
        x = next_number(x)
        return (x >> 33) % k

    p = [".proc main", "li s1, 20", "again:"] + ["call w%d" % i for i in range(n)] + ENDS + LOCKS + WRITE
    for i in range(n):
        length = 1 + draw(50)
        p += [".proc w%d" % i, "addi sp, sp, -16", "sd ra, 0(sp)", "li t1, %d" % length, "loop%d:" % i,
              "addi t1, t1, -1", "bnez t1, loop%d" % i]
        p += DOES[draw(3)] + ["ld ra, 0(sp)", "addi sp, sp, 16", "ret", ".end"]
    p += [".data", ".object lock_a 8", ".dword 0"]
    c = ["include metrics;", "include hypotheses;", "search { window 4; cost 4000; observed 1000000; }",
         "at 0 show procedure_calls /Code;"]
    c += ["at %d show cpu_inclusive /Code/program/w%d;" % (2000 * (i + 1), i) for i in range(min(8, n))]
    return ("\n".join(p) + "\n").encode(), ("\n".join(c) + "\n").encode()


def summary(n, session):
    nodes = session.search.list

    def count(state):
        return sum(1 for x in nodes if x.state == state)
    return b"stress %d ticks %d samples %d nodes %d true %d false %d barred %d waiting %d\n" % (
        n, session.time(), session.samples, len(nodes), count(CONFIRMED), count(REJECTED), count(BARRED),
        count(UNFINISHED))
