"""The words of `pd`: against the rows of the gate, and on random words."""
import pathlib
import random
import re
import unittest

from paradyn import command_words, pd_tables, pd_words
from rows.pd_words import answer

STDOUT = pathlib.Path(__file__).resolve().parents[2] / "crates/test_language/stdout"
COUNT = 4000
ODD = ["-", "--", "-n", "-n4", "-qo", "x", "--harts=+4", "--seed", "--hart", "-z", "--quiet=yes", "", "a,b", "--output="]


def rows():
    """The rows of `pd` and `screen`, and what the gate saw of them."""
    _, *parts = re.split(r"^\$ (pd|screen) (.*)\n", STDOUT.read_text(), flags=re.M)
    return zip(parts[::3], parts[1::3], parts[2::3])


def value(draw, word):
    kind, *known = word.values
    if kind == "Words":
        return draw.choice(known)
    return str(draw.choice([*known, 0, 5])) if kind == "Number" else draw.choice(["a", "b.c", "0x10", "-", "main"])


def given(draw, word):
    """A word or an option, as a person may type it."""
    if word.is_place:
        return [value(draw, word)]
    if word.is_alone:
        return ["--" + word.name]
    text = value(draw, word)
    forms = [["--" + word.name, text], [f"--{word.name}={text}"]]
    return draw.choice(forms + ([["-" + word.letter, text], ["-" + word.letter + text]] if word.letter else []))


def random_words(draw):
    command = draw.choice(list(pd_tables.commands().values()))
    parts = [given(draw, w) for w in command.words if w.is_place or draw.random() < 0.15]
    draw.shuffle(parts)
    words = [command.name] + [word for part in parts for word in part]
    if draw.random() < 0.3:
        words.insert(draw.randint(0, len(words)), draw.choice(ODD))
    return words


class Words(unittest.TestCase):
    def test_rows(self):
        made = 0
        for name, row, text in rows():
            found = answer(row.split(" ") if row else [], name == "screen")
            if found is not None:
                made += 1
                self.assertEqual(found, text, row)
        self.assertGreater(made, 100)

    def test_what_is_served_is_a_request(self):
        served = 0
        for seed in range(COUNT):
            words = random_words(random.Random(seed))
            try:
                asked = pd_words.read(words)
            except pd_words.Wrong as wrong:
                self.assertTrue(wrong.text.startswith("error: "), words)
                self.assertIsNone(command_words.parse(words), words)
                continue
            if isinstance(asked, pd_words.Serving):
                served += 1
                self.assertIsNotNone(command_words.parse(asked.words), words)
        self.assertGreater(served, COUNT // 4)

    def test_the_tables_have_the_words_of_the_commands(self):
        """Each command that is served has the options that it has for `paradyn`."""
        for name, (count, options) in command_words.COMMANDS.items():
            command = pd_tables.commands()[name]
            has = {w.kind[1] if w.kind[0] == "NamedPlace" else w.name for w in command.words}
            self.assertLessEqual(set(options), has, name)
            self.assertEqual(sum(w.kind[0] in ("Place", "Places") for w in command.words), count, name)


if __name__ == "__main__":
    unittest.main()
