"""How near two words are: Jaro's measure."""


def jaro(a, b):
    """From 0, where they have nothing in common, to 1."""
    if not a or not b:
        return float(a == b)
    reach = max(max(len(a), len(b)) // 2 - 1, 0)
    taken, found = [False] * len(b), []
    for i, letter in enumerate(a):
        for j in range(max(0, i - reach), min(len(b), i + reach + 1)):
            if b[j] == letter and not taken[j]:
                taken[j] = True
                found.append(letter)
                break
    if not found:
        return 0.0
    others = [letter for letter, is_taken in zip(b, taken) if is_taken]
    swapped = sum(x != y for x, y in zip(found, others)) / 2
    count = len(found)
    return (count / len(a) + count / len(b) + (count - swapped) / count) / 3


def similar(word, names):
    """The names that are near a word, the nearest last."""
    near = [(jaro(word, name), name) for name in names]
    return [name for measure, name in sorted(near, key=lambda pair: pair[0]) if measure > 0.7]
