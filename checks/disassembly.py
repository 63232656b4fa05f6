#!/usr/bin/env python3
"""Compares `tcg_host disas` of each guest under examples/guests with objdump, word by word.

Skipped where riscv64-unknown-elf-objdump isn't installed (Debian's binutils-riscv64-unknown-elf).
"""

import re
import shutil
import subprocess
import sys
from pathlib import Path

TOP = Path(__file__).resolve().parent.parent
OBJDUMP = "riscv64-unknown-elf-objdump"
BRANCHES = {"jal", "beq", "bne", "blt", "bge", "bltu", "bgeu"}


def sets(number):
    """The letters of a fence's field."""
    return "".join(letter for bit, letter in zip((8, 4, 2, 1), "iorw") if number & bit) or "unknown"


def ours(pc, text):
    """Our text in objdump's spelling, with numbers as numbers."""
    name, _, rest = text.partition(" ")
    operands = [part.strip() for part in rest.split(",")] if rest else []
    if name in BRANCHES:
        operands[-1] = str(pc + int(operands[-1]))
    if name == "fence":
        operands = [sets(int(part)) for part in operands]
    return name, [number(part) for part in operands]


def theirs(text):
    text = text.split("#")[0].split("<")[0].strip()
    name, _, rest = text.partition("\t")
    operands = [part.strip() for part in rest.split(",")] if rest else []
    if name in BRANCHES:
        operands[-1] = str(int(operands[-1], 16))
    if name.startswith("0x"):
        name, operands = ".word", [name]
    return name, [number(part) for part in operands]


def number(operand):
    return str(int(operand, 0)) if re.fullmatch(r"-?(0x[0-9a-f]+|[0-9]+)", operand) else operand


def listing(file):
    text = subprocess.run([TOP / "tcg_host", "disas", file], check=True, capture_output=True, text=True).stdout
    for line in text.splitlines():
        pc, word, text = line.split(" ", 2)
        yield int(pc, 16), int(word, 16), ours(int(pc, 16), text)


def objdump(file):
    command = [OBJDUMP, "-d", "-z", "-M", "no-aliases,numeric", file]
    text = subprocess.run(command, check=True, capture_output=True, text=True).stdout
    for line in text.splitlines():
        found = re.match(r"\s*([0-9a-f]+):\t([0-9a-f]{8})\s+\t?(.*)", line)
        if found:
            yield int(found[1], 16), int(found[2], 16), theirs(found[3])


def main():
    if not shutil.which(OBJDUMP):
        print(f"disassembly: skipped, since {OBJDUMP} isn't installed")
        return 0
    files = sorted((TOP / "examples" / "guests").glob("*.elf"))
    words = wrong = 0
    for file in files:
        mine = {pc: (word, text) for pc, word, text in listing(file)}
        theirs_here = list(objdump(file))
        for pc, word, text in theirs_here:
            if mine.get(pc) != (word, text):
                wrong += 1
                print(f"disassembly: {file.name} at {pc:x}: {mine.get(pc)} is not {(word, text)}")
        if not theirs_here:
            wrong += 1
            print(f"disassembly: {file.name}: objdump lists nothing")
        words += len(theirs_here)
    print(f"disassembly: {len(files)} files, {words} words compared, {wrong} differ")
    return 1 if wrong or not files else 0


if __name__ == "__main__":
    sys.exit(main())
