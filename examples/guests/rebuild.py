#!/usr/bin/env python3
"""Builds the guests and records from QEMU what is expected of them.

    rebuild.py

Writes NAME.elf, NAME.out where a guest writes, and the part of expected.txt that QEMU judges: statuses, steps, blocks
and endings. The part by hand stays as it is, and so do its outputs. The guests of several harts, in several/, are
built alone: QEMU has no harts for them, and checks/harts.py knows what each writes. Needs Debian's gcc-riscv64-unknown-elf,
picolibc-riscv64-unknown-elf and qemu-user, and says which is missing.
"""

import shutil
import subprocess
import sys
from pathlib import Path

HERE = Path(__file__).resolve().parent
sys.path.insert(0, str(HERE.parent.parent / "checks"))
sys.dont_write_bytecode = True

import blocks  # noqa: E402

COMPILER = "riscv64-unknown-elf-gcc"
STRIP = "riscv64-unknown-elf-strip"
COMMON = ["-mabi=lp64", "-static", "-O1", "-Wall", "-Wextra", "-Wl,--build-id=none", "-g0", "-fno-ident"]
# No guest without the library sets gp, so nothing is relaxed to it. With small data the linker would put constants
# of 8 bytes between code and zeros, in one writable and executable segment.
BARE = ["-nostdlib", "-Wl,--no-relax"]
FREESTANDING = ["-march=rv64ima", "-ffreestanding", "-fno-builtin", "-msmall-data-limit=0", *BARE]
ASSEMBLED = ["-march=rv64ima_zifencei", *BARE]
LIBRARY = ["--specs=picolibc.specs", "-DPICOLIBC_INTEGER_PRINTF_SCANF", "-nostartfiles", "-T", "library.ld", "start.S"]
# The compiler's library for rv64im has the M extension, and the one that it takes for rv64ima hasn't.
LINKED = {
    "printing.c": ["-march=rv64im", *LIBRARY],
    "texts.c": ["-march=rv64ima", *LIBRARY],
    "adjoining.S": [*ASSEMBLED, "-T", "adjoining.ld"],
}
SHARED = {"start.S"}
NEEDED = {COMPILER: "gcc-riscv64-unknown-elf", STRIP: "binutils-riscv64-unknown-elf", blocks.QEMU: "qemu-user"}
HEAD = """\
# What each guest gives: its name, the status of `tcg_host run`, and the report's line. What it writes is in NAME.out.
# recorded by rebuild.py from QEMU
"""


def missing():
    for program, package in NEEDED.items():
        if not shutil.which(program):
            yield f"rebuild: {program} is missing (Debian's {package})"
    if shutil.which(COMPILER):
        found = subprocess.run([COMPILER, "-print-file-name=picolibc.specs"], capture_output=True, text=True).stdout
        if not Path(found.strip()).is_absolute():
            yield "rebuild: picolibc.specs is missing (Debian's picolibc-riscv64-unknown-elf)"


def build(source):
    own = LINKED.get(source.name) or (FREESTANDING if source.suffix == ".c" else ASSEMBLED)
    file = source.stem + ".elf"
    subprocess.run([COMPILER, *COMMON, *own, "-o", file, source.name], check=True, cwd=source.parent)
    subprocess.run([STRIP, "-R", ".comment", file], check=True, cwd=source.parent)


def record(name):
    """The guest's row; writes its output."""
    output, steps, starts, ending = blocks.traced(HERE / (name + ".elf"))
    if ending is None:
        sys.exit(f"rebuild: {name} didn't exit in QEMU")
    place = HERE / (name + ".out")
    if output:
        place.write_bytes(output)
    else:
        place.unlink(missing_ok=True)
    status = 0 if ending.split()[1] == "0" else 1
    return f"{name} {status} hart 0 steps {steps} blocks {starts} {ending}\n"


def main():
    lacking = list(missing())
    if lacking:
        print("\n".join(lacking))
        return 1
    table = HERE / "expected.txt"
    by_hand = blocks.BY_HAND + table.read_text().partition(blocks.BY_HAND)[2]
    hand_names = {line.split()[0] for line in by_hand.splitlines() if line and not line.startswith("#")}
    sources = [source for source in sorted(HERE.glob("*.[cS]")) if source.name not in SHARED]
    several = sorted((HERE / "several").glob("*.c"))
    for source in sources + several:
        build(source)
    rows = [record(source.stem) for source in sources if source.stem not in hand_names]
    table.write_text(HEAD + "".join(rows) + "\n" + by_hand)
    print(f"rebuild: {len(sources) + len(several)} guests built, {len(rows)} recorded")
    return 0


if __name__ == "__main__":
    sys.exit(main())
