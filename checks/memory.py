#!/usr/bin/env python3
"""Runs the program with its Nth allocation refused, for each N in turn: it answers want of memory, or what it answers with all of them.

    memory.py [PROGRAM [MOST]]

PROGRAM stands in place of tcg_host; MOST is the last N, 400 where nothing is said. The refusals come from a malloc of our own that is
laid over the C library's, for which a C compiler is needed; where none is there, nothing is tried.
"""

import os
import shutil
import struct
import subprocess
import sys
import tempfile
from pathlib import Path

TOP = Path(__file__).resolve().parent.parent
SECONDS = 60
NO_MEMORY = b"tcg_host: out of memory\n"

# Refuses the allocation whose number the environment names, from the program's entry on, and counts them all.
SHIM = r"""
#define _GNU_SOURCE
#include <dlfcn.h>
#include <fcntl.h>
#include <stdatomic.h>
#include <stdlib.h>
#include <sys/mman.h>

// How many allocations there were, and how many of them were refused: in the file that the environment names.
static atomic_long *counts;
static long at;

__attribute__((constructor)) static void begin(void) {
    int file = open(getenv("ALLOCATIONS"), O_RDWR);
    at = atol(getenv("REFUSED_ALLOCATION"));
    counts = mmap(NULL, 2 * sizeof *counts, PROT_READ | PROT_WRITE, MAP_SHARED, file, 0);
}

static int refuse(void) {
    if (!counts || atomic_fetch_add(&counts[0], 1) + 1 != at) return 0;
    atomic_fetch_add(&counts[1], 1);
    return 1;
}

#define NEXT(name) ((__typeof__(&name))dlsym(RTLD_NEXT, #name))

void *malloc(size_t size) {
    static void *(*next)(size_t);
    if (!next) next = NEXT(malloc);
    return refuse() ? NULL : next(size);
}

void *realloc(void *old, size_t size) {
    static void *(*next)(void *, size_t);
    if (!next) next = NEXT(realloc);
    return refuse() ? NULL : next(old, size);
}

void *aligned_alloc(size_t align, size_t size) {
    static void *(*next)(size_t, size_t);
    if (!next) next = NEXT(aligned_alloc);
    return refuse() ? NULL : next(align, size);
}

int posix_memalign(void **place, size_t align, size_t size) {
    static int (*next)(void **, size_t, size_t);
    if (!next) next = NEXT(posix_memalign);
    return refuse() ? 12 : next(place, align, size);
}
"""

EXIT_0 = TOP / "examples" / "exit0.elf"
SETS = ["counts", "hot", "mem", "exec", "classes", "pages"]
# The words of each call, whose answers depend on nothing but them. In the folder of the calls, a script is in S, and in KEPT the journal
# of the first of them.
CALLS = [
    ["run", "--harts", "2", "--script", "S", "--journal", "J", EXIT_0, *SETS],
    ["replay", "--harts", "2", EXIT_0, "KEPT", *SETS],
    ["self", "10"],
    ["disas", TOP / "examples" / "guests" / "exit_code.elf"],
]
SCRIPT = b"at 0 install add:0:1\nat 0 uninstall 1\nat 99 reset 2\n"


def shim_in(place):
    """The library that refuses, where a compiler makes it."""
    compiler = shutil.which("cc")
    if not compiler:
        return None
    source, library = Path(place) / "refuse.c", Path(place) / "refuse.so"
    source.write_text(SHIM)
    subprocess.run([compiler, "-O1", "-shared", "-fPIC", "-o", library, source, "-ldl"], check=True)
    return library


def answer(program, words, place, library, at):
    """What a call answers with its allocation of this number refused, and whether it wrote a journal, whose bytes depend on how the harts
    were scheduled; how many allocations it made; and whether one was refused."""
    counted = Path(place) / "allocations"
    journal = Path(place) / "J"
    journal.unlink(missing_ok=True)
    counted.write_bytes(bytes(16))
    names = {"LD_PRELOAD": str(library), "REFUSED_ALLOCATION": str(at), "ALLOCATIONS": str(counted)}
    got = subprocess.run([program, *words], capture_output=True, timeout=SECONDS, env={**os.environ, **names}, cwd=place)
    made, refused = struct.unpack("=qq", counted.read_bytes())
    return (got.returncode, got.stdout, got.stderr, journal.exists()), made, refused


def finds_none(got, whole):
    """Whether an answer is want of memory: what was put before is of the whole answer, the report whole or not begun."""
    return (
        got[0] == 7
        and whole[1].startswith(got[1])
        and got[2] in (NO_MEMORY, whole[2] + NO_MEMORY)
        and not got[3]
    )


def main(arguments):
    program = Path(arguments[0]).resolve() if arguments else TOP / "tcg_host"
    most = int(arguments[1]) if len(arguments) > 1 else 400
    # The first call may build the program.
    subprocess.run([program, "disas", TOP / "examples" / "exit0.elf"], stdout=subprocess.DEVNULL)
    if not arguments:
        program = TOP / "crates" / "tcg_host" / "out" / "tcg_host"
    runs = refusals = wanting = different = 0
    with tempfile.TemporaryDirectory() as place:
        library = shim_in(place)
        if not library:
            print("memory: no C compiler is there, so nothing was tried")
            return 0
        (Path(place) / "S").write_bytes(SCRIPT)
        subprocess.run([program, "run", "--harts", "2", "--journal", "KEPT", EXIT_0, *SETS], stderr=subprocess.DEVNULL, cwd=place)
        for words in CALLS:
            whole, made, _ = answer(program, words, place, library, 0)
            for at in range(1, min(made, most) + 1):
                got, _, refused = answer(program, words, place, library, at)
                runs += 1
                refusals += refused
                if refused and finds_none(got, whole):
                    wanting += 1
                elif got != whole:
                    print(f"memory: {words[0]} without allocation {at}: status {got[0]}, {got[1][:200]!r}, {got[2][:500]!r}")
                    different += 1
    print(f"memory: {refusals} of {runs} calls with one allocation refused: {wanting} found no memory, {different} differ")
    # Harts that are scheduled otherwise may make an allocation fewer; most calls have theirs refused, and want of memory is found.
    return 1 if different or refusals < runs * 9 // 10 or not wanting else 0


if __name__ == "__main__":
    sys.exit(main(sys.argv[1:]))
