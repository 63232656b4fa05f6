#!/usr/bin/env python3
"""Runs every guest under examples/guests and compares output, status and the report's line with what is expected.

    guests.py [PROGRAM]

PROGRAM stands in place of tcg_host. Neither a compiler nor QEMU is needed.
"""

import subprocess
import sys
from pathlib import Path

TOP = Path(__file__).resolve().parent.parent
GUESTS = TOP / "examples" / "guests"
SECONDS = 120


def expectations():
    """Name, status and line of each guest in the table."""
    for row in (GUESTS / "expected.txt").read_text().splitlines():
        if row and not row.startswith("#"):
            name, status, line = row.split(" ", 2)
            yield name, int(status), line


def differences(program, name, status, line):
    file = GUESTS / (name + ".elf")
    output = GUESTS / (name + ".out")
    expected = output.read_bytes() if output.exists() else b""
    if not file.exists():
        yield "the file isn't there"
        return
    try:
        got = subprocess.run([program, "run", file], capture_output=True, timeout=SECONDS)
    except subprocess.TimeoutExpired:
        yield f"didn't end in {SECONDS} seconds"
        return
    if got.stdout != expected:
        place = next((i for i, (a, b) in enumerate(zip(got.stdout, expected)) if a != b), None)
        where = f"first at byte {place}" if place is not None else "in length alone"
        yield f"output of {len(got.stdout)} bytes is not the {len(expected)} expected, {where}"
    if got.returncode != status:
        yield f"status {got.returncode} is not {status}"
    said = got.stderr.decode(errors="replace")
    if said != line + "\n":
        yield f"`{said.rstrip()}` is not `{line}`"


def main(arguments):
    program = Path(arguments[0]).resolve() if arguments else TOP / "tcg_host"
    # The first call may build the program.
    subprocess.run([program, "disas", TOP / "examples" / "exit0.elf"], stdout=subprocess.DEVNULL)
    rows = list(expectations())
    different = 0
    for name, status, line in rows:
        found = list(differences(program, name, status, line))
        different += bool(found)
        for text in found:
            print(f"guests: {name}: {text}")
    unlisted = sorted({file.stem for file in GUESTS.glob("*.elf")} - {name for name, _, _ in rows})
    for name in unlisted:
        print(f"guests: {name}: isn't in expected.txt")
    print(f"guests: {len(rows)} run, {different + len(unlisted)} differ")
    return 1 if different or unlisted or not rows else 0


if __name__ == "__main__":
    sys.exit(main(sys.argv[1:]))
