"""How often each basic block is executed, by a counter at the first word of each."""
from .instructions import decode
from .patched_machine import Machine, Placed
from .plain_machine import stop_text
from .plans import Var
from .relocation import Unmovable, imm_b, imm_j, move_word, shape
from .statement_code import compile_stmts
from .trampolines import base_block, mini_block
from .turn_order import harts_in_turn

MOST_BLOCKS = 4094


class TooManyBlocks(Exception):
    """There are more blocks than can be counted."""

    def __init__(self, n):
        super().__init__(n)
        self.n = n


def led_to(at, word):
    """The addresses of words that begin a block because of the word at an address."""
    form = shape(word)
    if decode(word) is None:
        return [at + 4]
    if form in ("jal", "jal0"):
        return [at + imm_j(word), at + 4]
    if form == "branch":
        return [at + imm_b(word), at + 4]
    return [at + 4] if form in ("jalr", "jalr0") else []


def heads(image, procs):
    """Each block's address and how many words it has."""
    n = image.text_len // 4
    words = [image.word(image.text_at + 4 * k) for k in range(n)]
    good = [decode(w) is not None for w in words]
    starts = {image.entry} | {p.start for p in procs}
    for k, w in enumerate(words):
        starts.update(led_to(image.text_at + 4 * k, w))
    begins = [good[k] and image.text_at + 4 * k in starts for k in range(n)]
    out = []
    for k in range(n):
        if begins[k]:
            j = k + 1
            while j < n and not begins[j] and good[j]:
                j += 1
            out.append((image.text_at + 4 * k, j - k))
    return out


def laid_out(image, heads_, at):
    """For each block its base block, the address of its mini block and its slot, or None where its word can't be
    moved."""
    slot, found = 2, []
    for h, _ in heads_:
        try:
            moved = move_word(image.word(h), h, at + 12)
        except Unmovable:
            found.append(None)
            continue
        base = base_block(h, at, moved)
        mini_at = at + 4 * len(base.words)
        found.append((base, mini_at, slot))
        slot += 1
        at = mini_at + 4 * 5
    movable = sum(1 for x in found if x)
    if movable > MOST_BLOCKS:
        raise TooManyBlocks(movable)
    return found


def put(machine, base, mini_at, slot):
    """A counter at a block."""
    machine.write(base)
    body = compile_stmts([([], ("up", 0))], [slot])
    machine.write(mini_block(base.point, mini_at, body, machine.head(base.point)))
    machine.link_mini(base.point, mini_at)
    machine.link_point(base.point)
    return Placed([Var(b"n", False, 0)], [slot], [(base.point, mini_at)])


def count(image, procs, harts, budget, seed, quantum):
    """The machine behind the run, and for each block its address, how many words it has and its count or None."""
    blocks = heads(image, procs)
    m = Machine(image, harts, budget)
    placed = [x and put(m, *x) for x in laid_out(image, blocks, m.tool_at)]
    for i in placed:
        assert i is None or m.arm(i)
    for h in harts_in_turn(m, seed):
        m.turns(h, quantum)
    m.settle()
    counts = [None if i is None else sum(m.sample(i)) % 2 ** 64 for i in placed]
    return m, [(h, n, c) for (h, n), c in zip(blocks, counts)]


def text(image, procs, harts, budget, seed, quantum):
    m, counts = count(image, procs, harts, budget, seed, quantum)
    unmovable = sum(c[2] is None for c in counts)
    out = b"blocks %d harts %d ticks %d unmovable %d\n" % (len(counts), harts, m.time(), unmovable)
    for h in range(harts):
        c = m.stopped[h]
        stop = stop_text(c) if c is not None else "budget" if m.tick[h] >= budget else "cut"
        out += b"hart %d ticks %d %s at 0x%x\n" % (h, m.tick[h], stop.encode(), m.at(h))
    for at, n, c in counts:
        out += b"block 0x%x words %d " % (at, n) + (b"unmovable\n" if c is None else b"count %d\n" % c)
    return out + b"covered %d of %d\n" % (sum(1 for c in counts if c[2]), len(counts) - unmovable)
