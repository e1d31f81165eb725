"""The order in which harts take quanta."""

MOST_QUANTA = 16777216


def next_number(x):
    """The number behind x of the generator that orders quanta."""
    return (x * 6364136223846793005 + 1442695040888963407) % 2 ** 64


def harts_in_turn(machine, seed, most=MOST_QUANTA):
    """The harts in the order of the seed, each as long as it is runnable; the next is looked for when the quantum is
    over."""
    last, x = -1, seed
    for _ in range(most):
        can = [h for h in range(machine.harts) if machine.runnable(h)]
        if not can:
            return
        if seed == 0:
            last = ([h for h in can if h > last] or can)[0]
            yield last
        else:
            x = next_number(x)
            yield can[(x >> 33) % len(can)]


def seeded(session, seed, quantum):
    """Takes the session to its end in the order of a seed."""
    for h in harts_in_turn(session, seed, session.most_quanta):
        assert session.quantum(0, h, quantum) is not None


def by_workers(session, workers, quantum):
    """One order that workers may take: they go round, and each takes its harts in turn."""
    lists = [[h for h in range(session.harts) if h % workers == w] for w in range(workers)]
    at = [0] * workers
    while any(lists):
        for w in range(workers):
            if not lists[w]:
                continue
            k = at[w] % len(lists[w])
            if session.quantum(w, lists[w][k], quantum) is None:
                del lists[w][k]
                at[w] = k
            else:
                at[w] = k + 1
