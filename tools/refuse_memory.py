#!/usr/bin/env python3
"""Refuses the built program each of its allocations in turn, one in each run, and tells each run that ends otherwise than it may.

    tools/refuse_memory.py [PARADYN]

The runs are of a program with two shows, of one whose show is dropped and shown again, of a search, and of two workers that share
two harts and leave a log. A run that was refused memory ends with status 8, one line of output and a log as it was before, or as if
it hadn't been refused any. A library that stands before the C library's counts the allocations: it is compiled by gcc. PARADYN is
crates/paradyn/out/paradyn where left out."""

import concurrent.futures
import os
import pathlib
import subprocess
import sys
import tempfile

TOP = pathlib.Path(__file__).resolve().parent.parent
PARADYN = sys.argv[1] if len(sys.argv) > 1 else str(TOP / "crates/paradyn/out/paradyn")
SECONDS = 120

LIBRARY = r"""
#define _GNU_SOURCE
#include <dlfcn.h>
#include <errno.h>
#include <fcntl.h>
#include <stdatomic.h>
#include <stdlib.h>
#include <sys/mman.h>
#include <unistd.h>

// How many allocations were asked for, in the file that ASKED names.
static atomic_long *asked;
static long refused;

__attribute__((constructor)) static void begin(void) {
    int file = open(getenv("ASKED"), O_RDWR | O_CREAT, 0600);
    if (file < 0 || ftruncate(file, sizeof *asked) < 0) _exit(99);
    refused = atol(getenv("REFUSED"));
    asked = mmap(NULL, sizeof *asked, PROT_READ | PROT_WRITE, MAP_SHARED, file, 0);
}

static int is_refused(void) {
    return asked && atomic_fetch_add(asked, 1) + 1 == refused;
}

void *malloc(size_t size) {
    static void *(*next)(size_t);
    if (!next) next = dlsym(RTLD_NEXT, "malloc");
    if (is_refused()) { errno = ENOMEM; return NULL; }
    return next(size);
}

void *realloc(void *old, size_t size) {
    static void *(*next)(void *, size_t);
    if (!next) next = dlsym(RTLD_NEXT, "realloc");
    if (is_refused()) { errno = ENOMEM; return NULL; }
    return next(old, size);
}

void *aligned_alloc(size_t alignment, size_t size) {
    static void *(*next)(size_t, size_t);
    if (!next) next = dlsym(RTLD_NEXT, "aligned_alloc");
    if (is_refused()) { errno = ENOMEM; return NULL; }
    return next(alignment, size);
}

int posix_memalign(void **place, size_t alignment, size_t size) {
    static int (*next)(void **, size_t, size_t);
    if (!next) next = dlsym(RTLD_NEXT, "posix_memalign");
    if (is_refused()) return ENOMEM;
    return next(place, alignment, size);
}
"""

CALLS = """.proc main
call f
call f
li a7, 93
ecall
.end
.proc f
ret
.end
"""
COUNTS_DOWN = """.proc main
li a0, 100
call f
li a7, 93
ecall
.end
.proc f
nop
l: addi a0, a0, -1
bnez a0, l
ret
.end
"""
WAITS = """.proc main
la a0, lock_a
o: call lock_acquire
nop
j o
.end
.proc lock_acquire
nop
nop
nop
nop
nop
nop
ret
.end
.data
.object lock_a 8
.dword 0
"""
TAKES = """.proc main
la a0, lock_a
call lock_acquire
v: j v
.end
.proc lock_acquire
li a1, 1
l: amoswap.d a2, a1, (a0)
bnez a2, l
ret
.end
.data
.object lock_a 8
.dword 0
"""
SEARCHES = "include metrics; hypothesis Wait { metric sync_wait; threshold 200; axes Code; } search { window 2; cost 1000; observed 1000000; }\n"
TWO = """include metrics; hypothesis Busy { metric cpu; threshold 600; } hypothesis Wait { metric sync_wait; threshold 200; }
search { window 3; cost 1000; observed 1000000; }
"""
# The name of a run, its program and configuration, and its words behind the names of these.
RUNS = [
    ("two shows", CALLS, "include metrics; at 0 show procedure_calls /Code/program/f; at 0 show cpu_inclusive /Code/program/f;\n", ["run"], []),
    (
        "a show that is dropped",
        COUNTS_DOWN,
        "include metrics; at 0 show cpu_inclusive /Code/program/f; at 50 drop cpu_inclusive /Code/program/f; at 100 show cpu_inclusive /Code/program/f;\n",
        ["run"],
        ["--width", "10", "--quantum", "1"],
    ),
    ("a search", WAITS, SEARCHES, ["run"], ["--budget", "800", "--width", "100", "--quantum", "1"]),
    ("two workers", TAKES, TWO, ["live"], ["--harts", "2", "--workers", "2", "--budget", "1519", "--log", "log"]),
]
BEFORE = b"as it was before"


def run(folder, library, words, number):
    """One run in a folder of its own: its status, output, log and how many allocations it asked for."""
    own = folder / f"run{number}"
    own.mkdir()
    (own / "log").write_bytes(BEFORE)
    for name in ("program.s", "program.conf"):
        os.link(folder / name, own / name)
    set_for = {**os.environ, "LD_PRELOAD": str(library), "REFUSED": str(number), "ASKED": str(own / "asked")}
    ended = subprocess.run([PARADYN, *words], cwd=own, env=set_for, capture_output=True, timeout=SECONDS)
    log = (own / "log").read_bytes()
    asked = int.from_bytes((own / "asked").read_bytes(), sys.byteorder)
    for file in own.iterdir():
        file.unlink()
    own.rmdir()
    return ended.returncode, ended.stdout, log, asked


def main():
    faulty = 0
    with tempfile.TemporaryDirectory() as top:
        top = pathlib.Path(top)
        (top / "asked.c").write_text(LIBRARY)
        library = top / "asked.so"
        subprocess.run(["gcc", "-O2", "-shared", "-fPIC", "-o", library, top / "asked.c", "-ldl"], check=True)
        for name, program, configuration, command, options in RUNS:
            folder = top / name.replace(" ", "_")
            folder.mkdir()
            (folder / "program.s").write_text(program)
            (folder / "program.conf").write_text(configuration)
            words = [*command, "program.s", "program.conf", *options]
            status, output, log, asked = run(folder, library, words, 0)
            print(f"{name}: status {status}, {len(output)} bytes, {asked} allocations", flush=True)
            if status != 0:
                faulty += 1
                continue
            refused = 0
            with concurrent.futures.ThreadPoolExecutor() as pool:
                for number, (s, o, l, _) in enumerate(pool.map(lambda n: run(folder, library, words, n), range(1, asked + 1)), 1):
                    if s == 8 and o == b"" and l == BEFORE:
                        refused += 1
                    elif s != 0 or o != output and command == ["run"]:
                        faulty += 1
                        print(f"  {number}: status {s}, output {o[:80]!r}, log {l[:40]!r}")
            print(f"  {refused} of them refused with status 8, the others as without", flush=True)
    sys.exit(1 if faulty else 0)


main()
