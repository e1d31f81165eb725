"""./pd and ./build, in a folder of their own: a clone in which nothing is built, or what looks like it."""
import hashlib
import os
import pathlib
import shutil
import subprocess
import sys
import tempfile
import unittest

TOP = pathlib.Path(__file__).resolve().parents[2]
WORDS = "crates/pd_words/src"
TAKEN = ["pd", "build", "crates.txt", "README.md", "reference/pd.py", "reference/paradyn", "examples/runtime", "examples/crc.elf",
         WORDS, "crates/pn_types/src", "crates/command_words/src"]
# prints what it was given
MADE_UP = '#!/bin/sh\ncase $1 in --version) echo "pd 1.0" ;; *) echo "made up: $*" ;; esac\n'


# stands in for rt: in the folder of a crate it leaves the made-up program with its stamp, or another stamp
RT = """#!{python}
import hashlib, os, pathlib, sys
name, out = os.path.basename(os.getcwd()), pathlib.Path("out")
out.mkdir(exist_ok=True)
(out / name).write_text({program!r})
(out / name).chmod(0o755)
(out / (name + ".stamp")).write_text("0" * 64 + hashlib.sha256({stamped!r}.encode()).hexdigest())
"""


class Scripts(unittest.TestCase):
    def setUp(self):
        made = tempfile.TemporaryDirectory()
        self.addCleanup(made.cleanup)
        self.top = pathlib.Path(made.name) / "clone"
        for name in TAKEN:
            target = self.top / name
            target.parent.mkdir(parents=True, exist_ok=True)
            if (TOP / name).is_dir():
                shutil.copytree(TOP / name, target, ignore=shutil.ignore_patterns("__pycache__"))
            else:
                shutil.copy2(TOP / name, target)
        # of all that is on the PATH there are these alone
        self.path = self.top / "path"
        self.path.mkdir()
        (self.path / "python3").symlink_to(sys.executable)

    def call(self, *words):
        """The status, standard output and standard error of a call in the clone."""
        ran = subprocess.run([self.top / words[0], *words[1:]], cwd=self.top, env={"PATH": str(self.path)}, capture_output=True,
                             stdin=subprocess.DEVNULL, text=True, check=False)
        return ran.returncode, ran.stdout, ran.stderr

    def make_up(self):
        """Puts in what looks like proved programs."""
        for name in ("pd", "paradyn"):
            out = self.top / "crates" / name / "out"
            out.mkdir(parents=True)
            (out / name).write_text(MADE_UP)
            (out / name).chmod(0o755)
            (out / f"{name}.stamp").write_text("0" * 64 + hashlib.sha256(MADE_UP.encode()).hexdigest())

    def test_pd_is_the_reference_where_nothing_is_built(self):
        status, out, err = self.call("pd", "points", "examples/crc.elf")
        self.assertEqual((status, out.split()[0], err.count("\n")), (0, "points", 1))
        self.assertIn("unproved", err)
        self.assertIn("not proved", self.call("pd", "--version")[1])

    def test_pd_is_the_proved_program_where_it_is_built(self):
        self.make_up()
        self.assertEqual(self.call("pd", "points", "p q"), (0, "made up: points p q\n", ""))
        self.assertIn("the proved program", self.call("pd", "--version")[1])

    def test_pd_by_a_link(self):
        (self.top / "bin").mkdir()
        readlink = shutil.which("readlink")
        if readlink is None:
            self.skipTest("there is no readlink here")
        (self.path / "readlink").symlink_to(readlink)
        (self.top / "bin/pd").symlink_to("../pd")
        self.assertEqual(self.call("bin/pd", "points", "examples/crc.elf", "-q")[::2], (0, ""))

    def test_faults(self):
        for words, status, err in [(["pionts", "p"], 2, "error: unrecognized subcommand 'pionts'"), (["points", "none"], 3, "paradyn: cannot read none"),
                                   (["annotate", "examples/crc.elf", "none"], 14, "paradyn: no procedure none"), (["man"], 2, "pd: the reference has no 'man'")]:
            found = self.call("pd", *words)
            self.assertEqual((found[0], found[1], found[2].split("\n")[0]), (status, "", err + found[2].split("\n")[0][len(err):]))

    def test_no_file_of_another_kind_is_written_over(self):
        kept = self.top / "kept"
        kept.write_text("mine\n")
        for words in (["points", "examples/crc.elf", "-o", "kept"], ["profile", "examples/crc.elf", "--callgrind", "kept"]):
            status, _, err = self.call("pd", *words)
            self.assertEqual((status, kept.read_text()), (2, "mine\n"))
            self.assertIn("kept is there and isn't ", err)
        for words in (["--force"], []):
            self.assertEqual(self.call("pd", "points", "examples/crc.elf", "-o", "kept", *words)[0], 0)
            self.assertTrue(kept.read_text().startswith("points "))

    def test_nothing_is_installed_where_nothing_is_built(self):
        for words in (["--install", "here"], ["--release"], []):
            status, _, err = self.call("build", *words)
            self.assertEqual((status, "pd and paradyn: not built" in err), (1, True), err)
        self.assertFalse((self.top / "here").exists())
        self.assertEqual(self.call("build", "--nothing")[0], 2)

    def test_a_program_without_its_stamp_is_not_built(self):
        self.make_up()
        with open(self.top / "crates/pd/out/pd", "a", encoding="utf-8") as program:
            program.write("\n")
        status, _, err = self.call("build", "--release")
        self.assertEqual((status, "build: pd: not built" in err), (1, True), err)

    def put_rt(self, stamped):
        for name in ("pd", "paradyn"):
            (self.top / "crates" / name).mkdir(parents=True, exist_ok=True)
        rt = self.path / "rt"
        rt.write_text(RT.format(python=sys.executable, program=MADE_UP, stamped=stamped))
        rt.chmod(0o755)

    def test_built(self):
        self.put_rt(MADE_UP)
        status, _, err = self.call("build")
        self.assertEqual((status, "45 to 75 minutes" in err, "build: built" in err), (0, True, True), err)
        self.assertEqual(self.call("pd", "points", "p")[1], "made up: points p\n")

    def test_a_build_that_rt_refuses(self):
        self.put_rt("another program")
        status, _, err = self.call("build", "--install", "here")
        self.assertEqual((status, "rt left no proved program" in err, (self.top / "here").exists()), (1, True, False), err)

    def test_installed(self):
        self.make_up()
        self.assertEqual(self.call("build", "--install", "here")[0], 0)
        here = self.top / "here"
        self.assertEqual((here / "bin/pd").read_text(), MADE_UP)
        self.assertEqual((here / "share/man/man1/pd.1").read_text(), "made up: man\n")
        self.assertTrue(os.access(here / "bin/pdcc", os.X_OK))
        self.assertEqual((here / "bin/pdcc").resolve(), (here / "share/pd/runtime/pdcc").resolve())
        self.assertEqual(self.call("build", "--install", "here")[0], 0)

    def test_released(self):
        self.make_up()
        self.assertEqual(self.call("build", "--release")[0], 0)
        content = (self.top / "out/pd-1.0-x86_64-linux.tar.gz").read_bytes()
        self.assertIn(hashlib.sha256(content).hexdigest(), (self.top / "out/pd-1.0-x86_64-linux.tar.gz.sha256").read_text())
        self.assertEqual(self.call("build", "--release")[0], 0)
        self.assertEqual((self.top / "out/pd-1.0-x86_64-linux.tar.gz").read_bytes(), content)
        shutil.unpack_archive(self.top / "out/pd-1.0-x86_64-linux.tar.gz", self.top / "unpacked")
        sums = (self.top / "unpacked/pd-1.0-x86_64-linux/SHA256SUMS").read_text().splitlines()
        for line in sums:
            digest, name = line.split("  ")
            self.assertEqual(hashlib.sha256((self.top / "unpacked/pd-1.0-x86_64-linux" / name).read_bytes()).hexdigest(), digest)
        self.assertEqual(len(sums), 2 + 5 + 3 + 1)


if __name__ == "__main__":
    unittest.main()
