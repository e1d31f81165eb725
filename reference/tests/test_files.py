"""Files: the examples of the repository, and what is read again as it was written."""
import pathlib
import random
import unittest

from cases.files import AssemblyText
from cases.programs import program_file
from paradyn import advice, assembly, commands, elf_reading, elf_writing, quanta_log
from paradyn.histogram import Histogram
from .definitions import bins_of

EXAMPLES = pathlib.Path(__file__).resolve().parents[2] / "examples"
# the example, what is printed of it, and the words behind the program
WORDS = [
    ("run tickets.elf tickets.conf --harts 4 --width 10000", "tickets.report"),
    ("run tickets.elf search.conf --harts 4 --width 5000", "tickets_search.report"),
    ("run tickets.elf narrow.conf --harts 4 --width 5000", "tickets_narrow.report"),
    ("advise tickets_narrow.report", "tickets.directives"),
    ("direct tickets.elf narrow.conf tickets.directives --harts 4 --width 5000", "tickets_directed.report"),
    ("asm crc.s", "crc.elf"),
    ("run rounds.elf rounds.conf --harts 4 --quantum 25 --width 5000", "rounds.report"),
    ("visi tickets.elf tickets.conf --harts 4 --width 10000", "tickets.views"),
    ("plan tickets.elf metrics.conf sync_wait /SyncObject/lock_tickets", "tickets.plan"),
    ("blocks crc.elf", "crc.blocks"),
]


def read(name):
    path = EXAMPLES / name
    return path.read_bytes() if path.exists() else None


class Examples(unittest.TestCase):
    def test_examples(self):
        for words, name in WORDS:
            with self.subTest(words=words):
                result = commands.execute(words.split(), read)
                self.assertEqual((result.status, result.out), (0, read(name)))


class Files(unittest.TestCase):
    def test_an_image_is_read_as_it_was_written(self):
        for seed in range(200):
            draw = random.Random(seed)
            text = AssemblyText(draw).text if seed % 2 else program_file(draw)[0].text.encode()
            try:
                image = assembly.assemble(text)
            except assembly.AsmFault:
                continue
            self.assertEqual(elf_reading.load(elf_writing.write(image)), image)

    def test_a_log_is_read_as_it_was_written(self):
        draw = random.Random(1)
        for _ in range(50):
            settings = quanta_log.Settings(draw.randint(1, 16), draw.randint(1, 10 ** 8), draw.randint(2, 1024), 7)
            quanta = [(draw.randrange(16), draw.randrange(settings.harts), draw.randint(1, 10000),
                       draw.randrange(65536)) for _ in range(draw.randint(0, 9))]
            for version in (1, 2):
                again, found = quanta_log.read(quanta_log.write(settings, quanta, version))
                self.assertEqual((again.key(), found), (settings.key(), quanta))

    def test_bins(self):
        draw = random.Random(1)
        for _ in range(100):
            most, h, samples = draw.randint(2, 9), None, []
            h = Histogram(most)
            for k in range(draw.randint(0, 70)):
                samples.append((10 * k, 10 * k + 10, draw.choice([draw.randint(0, 9), 2 ** 64 - 1])))
                h.push(samples[-1][2], *samples[-1][:2])
            self.assertEqual((h.bins(), h.width()), bins_of(samples, most))

    def test_advised_thresholds_keep_the_verdicts(self):
        verdicts = advice.read_verdicts(read("tickets_search.report"))
        text = advice.advise(verdicts)
        for line in text.split(b"\n"):
            if line.startswith(b"threshold "):
                name, number = line[10:-1].split(b" ")
                for v in verdicts:
                    if v[0] == name and v[1]:
                        self.assertGreaterEqual(v[2] * 1000, int(number) * v[3])


if __name__ == "__main__":
    unittest.main()
