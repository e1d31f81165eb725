"""Profiles: their numbers beside what the plain machine executes, and the text of words beside the assembler."""
import pathlib
import unittest

from cases.calls import Case
from paradyn import assembly, basic_blocks, commands, disassembler, profile
from paradyn.commands import Program, Refusal, load_program
from paradyn.plain_machine import PlainMachine

TOP = pathlib.Path(__file__).resolve().parents[2]
FOLDERS = [TOP / "examples", TOP / "examples/words"]


def programs():
    """The programs of the examples, and random ones."""
    for folder in FOLDERS:
        for path in sorted(folder.glob("*.elf")):
            yield path.name, path.read_bytes()
    for seed in range(60):
        yield "profile %d" % seed, Case("profile", seed).files.get("p", b"")


def loaded():
    for name, content in programs():
        try:
            yield name, Program(load_program(content))
        except Refusal:
            pass


def executions(image, budget):
    """How often one hart executes each word, and how many ticks are outside of the text."""
    m = PlainMachine(image, 1, budget)
    counts = {}
    while m.runnable(0):
        counts[m.pc[0]] = counts.get(m.pc[0], 0) + 1
        m.step(0)
    words = [counts.pop(image.text_at + 4 * k, 0) for k in range(image.text_len // 4)]
    return words, sum(counts.values())


class Profiles(unittest.TestCase):
    def test_numbers(self):
        """On one hart no number is above the executions of the plain machine; where none is untold they are these."""
        exact = 0
        for name, program in loaded():
            w = {"also": [], "harts": 1, "budget": 20000, "seed": 0, "quantum": 50}
            try:
                r = profile.Profile(program, w)
            except basic_blocks.TooManyBlocks:
                continue
            words, outside = executions(program.image, 20000)
            self.assertEqual((sum(words) + outside, outside), (r.ticks, r.outside), name)
            self.assertTrue(all(n <= e for n, e in zip(r.numbers, words)), name)
            self.assertEqual(sum(words) - sum(r.numbers), r.untold, name)
            exact += not r.untold
        self.assertGreater(exact, 40)

    def test_lines_add_up(self):
        for name, program in loaded():
            w = {"also": [], "harts": 2, "budget": 2000, "seed": 1, "quantum": 7}
            try:
                r = profile.Profile(program, w)
            except basic_blocks.TooManyBlocks:
                continue
            ticks = sum(t for _, t in r.rows()) + r.rest() + r.outside + r.untold
            costs = sum(int(line.split()[1]) for line in profile.callgrind(r).splitlines() if line[:2] == b"0x")
            self.assertEqual((ticks, costs + r.outside + r.untold), (r.ticks, r.ticks), name)


class Words(unittest.TestCase):
    def test_lines_assemble(self):
        """A text's words, each with the label of its address, are assembled to the same words."""
        tried = 0
        for name, program in loaded():
            image = program.image
            words = [image.word(image.text_at + 4 * k) for k in range(image.text_len // 4)]
            places = [assembly.TEXT_AT + 4 * k for k in range(len(words))]
            lines = [b"%s: %s # %s\n" % (disassembler.label(a), disassembler.text(a, w), disassembler.label(a))
                     for a, w in zip(places, words)]
            try:
                again = assembly.assemble(b"".join(lines))
            except assembly.AsmFault as f:
                # (a jump out of the text has no label)
                self.assertIn("unknown name", str(f), name)
                continue
            self.assertEqual([again.word(a) for a in places], words, name)
            tried += 1
        self.assertGreater(tried, 50)


if __name__ == "__main__":
    unittest.main()
