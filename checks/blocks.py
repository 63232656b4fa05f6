#!/usr/bin/env python3
"""Compares the blocks of `tcg_host` with an independent reading of the guests under examples/guests.

Always: the listing of `tcg_host blocks` with one made here from the file and the rule of blocks. Where qemu-riscv64
is installed: the steps and blocks in the line of `tcg_host run` with a count over QEMU's trace of each guest that
QEMU judges.

    blocks.py [PROGRAM]

PROGRAM stands in place of tcg_host.
"""

import functools
import re
import shutil
import struct
import subprocess
import sys
import tempfile
from pathlib import Path

TOP = Path(__file__).resolve().parent.parent
GUESTS = TOP / "examples" / "guests"
BY_HAND = "# by hand"
PAGE = 4096
LONGEST = 512
QEMU = "qemu-riscv64"
SECONDS = 120

ATOMICS = {0b00000, 0b00001, 0b00010, 0b00011, 0b00100, 0b01000, 0b01100, 0b10000, 0b10100, 0b11000, 0b11100}
LOAD_RESERVED = 0b00010
REGISTER = {0: {0, 1, 2, 3, 4, 5, 6, 7}, 0x20: {0, 5}, 1: {0, 1, 2, 3, 4, 5, 6, 7}}
REGISTER_WORD = {0: {0, 1, 5}, 0x20: {0, 5}, 1: {0, 4, 5, 6, 7}}
ECALL, EBREAK = 0x00000073, 0x00100073


def is_legal(word):
    """Whether the word is an instruction of RV64IMA (docs/formats.md)."""
    opcode, third, seventh = word & 0x7F, word >> 12 & 7, word >> 25
    if opcode in (0x37, 0x17, 0x6F):
        return True
    if opcode == 0x67:
        return third == 0
    if opcode == 0x63:
        return third not in (2, 3)
    if opcode == 0x03:
        return third != 7
    if opcode == 0x23:
        return third <= 3
    if opcode == 0x13:
        return {1: word >> 26 == 0, 5: word >> 26 in (0, 0b010000)}.get(third, True)
    if opcode == 0x1B:
        return {0: True, 1: seventh == 0, 5: seventh in (0, 0x20)}.get(third, False)
    if opcode == 0x33:
        return third in REGISTER.get(seventh, ())
    if opcode == 0x3B:
        return third in REGISTER_WORD.get(seventh, ())
    if opcode == 0x0F:
        return third in (0, 1)
    if opcode == 0x73:
        return word in (ECALL, EBREAK)
    if opcode == 0x2F:
        operation = word >> 27
        return third in (2, 3) and operation in ATOMICS and (operation != LOAD_RESERVED or word >> 20 & 31 == 0)
    return False


def turns(word):
    """Whether a step with this word is followed by a new block: a branch, JAL, JALR, ECALL or EBREAK."""
    return is_legal(word) and word & 0x7F in (0x63, 0x6F, 0x67, 0x73)


def ends_block(word):
    return turns(word) or not is_legal(word)


class Code:
    """The executable regions of an ELF file."""

    def __init__(self, file):
        image = Path(file).read_bytes()
        table, = struct.unpack_from("<Q", image, 32)
        size, count = struct.unpack_from("<HH", image, 54)
        self.regions = []
        for at in range(table, table + size * count, size):
            kind, flags, offset, base, _, held, whole = struct.unpack_from("<IIQQQQQ", image, at)
            if kind == 1 and flags & 1 and whole > 0:
                self.regions.append((base, image[offset : offset + held] + bytes(whole - held)))
        self.regions.sort()

    def word(self, pc):
        """The word at pc, or None where it is absent."""
        for base, held in self.regions:
            if base <= pc and pc + 4 <= base + len(held):
                return struct.unpack_from("<I", held, pc - base)[0]
        return None

    def block(self, pc):
        """The number of words of the block at pc."""
        words = 0
        while words < LONGEST:
            at = pc + 4 * words
            word = self.word(at)
            if word is None or (words > 0 and at % PAGE == 0):
                break
            words += 1
            if ends_block(word):
                break
        return words

    def listing(self):
        lines = []
        for base, _ in self.regions:
            pc = (base + 3) // 4 * 4
            while self.word(pc) is not None:
                words = self.block(pc)
                lines.append(f"{pc:016x} {words}\n")
                pc += 4 * words
        return "".join(lines)


def count(code, trace):
    """The steps and block starts of a run, from the program counter of each step."""
    steps = blocks = since = 0
    starts = True
    for pc in trace:
        if starts or pc % PAGE == 0 or since == LONGEST:
            blocks += 1
            since = 0
        steps += 1
        since += 1
        starts = turns(code.word(pc))
    return steps, blocks


@functools.cache
def emulator():
    """QEMU's words: without the extensions that guests lack, where this version can be told so."""
    narrow = [QEMU, "-cpu", "rv64,c=false,f=false,d=false,v=false"]
    trial = subprocess.run([*narrow, GUESTS / "exit_code.elf"], capture_output=True)
    return narrow if trial.returncode == 42 else [QEMU]


@functools.cache
def one_by_one():
    """QEMU's option that makes each translated block one instruction."""
    text = subprocess.run([QEMU, "--help"], capture_output=True, text=True).stdout
    return "-one-insn-per-tb" if "-one-insn-per-tb" in text else "-singlestep"


def program_counters(log):
    """The program counters of the steps in QEMU's log."""
    # A step that the log takes back is followed by a line of its own.
    last = None
    for line in log:
        if line.startswith("Trace "):
            if last is not None:
                yield last
            last = int(re.search(r"\[[0-9a-f]+/([0-9a-f]+)/", line)[1], 16)
        elif line.startswith("Stopped execution"):
            last = None
    if last is not None:
        yield last


def traced(file):
    """A run in QEMU: what it wrote, its steps and blocks, and its ending."""
    with tempfile.TemporaryDirectory() as folder:
        log = Path(folder) / "log"
        options = [one_by_one(), "-strace", "-d", "exec,nochain", "-D", log]
        run = subprocess.run([*emulator(), *options, file], stdin=subprocess.DEVNULL, stdout=subprocess.PIPE,
                             stderr=subprocess.STDOUT, timeout=SECONDS)
        with open(log) as lines:
            steps, blocks = count(Code(file), program_counters(lines))
        with open(log) as lines:
            ends = [line for line in lines if re.match(r"\d+ exit", line)]
    found = re.fullmatch(r"\d+ (exit|exit_group)\((-?\d+)\)\s*", ends[-1]) if ends else None
    ending = None if found is None else f"{'group' if found[1] == 'exit_group' else 'exit'} {found[2]}"
    return run.stdout, steps, blocks, ending


def judged():
    """The names of the guests whose expectation comes from QEMU."""
    text = (GUESTS / "expected.txt").read_text().split(BY_HAND)[0]
    return [line.split()[0] for line in text.splitlines() if line and not line.startswith("#")]


def call(program, command, file):
    return subprocess.run([program, command, file], capture_output=True, text=True, errors="replace", timeout=SECONDS)


def first_difference(ours, theirs):
    ours, theirs = ours.splitlines(), theirs.splitlines()
    for mine, other in zip(ours, theirs):
        if mine != other:
            return f"`{other}` is not `{mine}`"
    return f"{len(theirs)} lines are not {len(ours)}"


def compare_listings(program, files):
    different = 0
    for file in files:
        expected = Code(file).listing()
        got = call(program, "blocks", file)
        if got.returncode != 0 or got.stdout != expected:
            different += 1
            print(f"blocks: {file.name}: listing: status {got.returncode}, {first_difference(expected, got.stdout)}")
    return different


def compare_traces(program, names):
    different = 0
    for name in names:
        file = GUESTS / (name + ".elf")
        _, steps, blocks, _ = traced(file)
        line = call(program, "run", file).stderr.strip()
        if not line.startswith(f"hart 0 steps {steps} blocks {blocks} "):
            different += 1
            print(f"blocks: {file.name}: run: `{line}` has not steps {steps} blocks {blocks}")
    return different


def main(arguments):
    program = Path(arguments[0]).resolve() if arguments else TOP / "tcg_host"
    # The first call may build the program.
    subprocess.run([program, "disas", TOP / "examples" / "exit0.elf"], stdout=subprocess.DEVNULL)
    files = sorted(GUESTS.glob("*.elf"))
    different = compare_listings(program, files)
    names = judged() if shutil.which(QEMU) else []
    if not names:
        print("blocks: traces skipped, since qemu-riscv64 isn't installed")
    different += compare_traces(program, names)
    print(f"blocks: {len(files)} listings and {len(names)} traces compared, {different} differ")
    return 1 if different or not files else 0


if __name__ == "__main__":
    sys.exit(main(sys.argv[1:]))
