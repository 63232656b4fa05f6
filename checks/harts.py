#!/usr/bin/env python3
"""Runs the guests of several harts under examples/guests/several, compares what they write with what is known of them, and replays
the journal of each run.

    harts.py [PROGRAM [ROUNDS]]

PROGRAM stands in place of tcg_host. Each guest runs ROUNDS times, 2 where nothing is said, on 1, 2, 4, 8 and 32 harts.
What it writes doesn't depend on how the harts' steps interleave; how many steps they make does. The replay of its journal prints what
the run printed, and ends with its status.
"""

import re
import subprocess
import sys
import tempfile
from pathlib import Path

TOP = Path(__file__).resolve().parent.parent
GUESTS = TOP / "examples" / "guests" / "several"
SECONDS = 300
HARTS = [1, 2, 4, 8, 32]
# A hart that spins may come to its limit where the processors are busy; the run says nothing then, and is made again.
TRIES = 5
MAGIC = b"TCGJ\x02\0\0\0"

# What each guest writes on so many harts: a name and a number.
WRITES = {
    "counter": lambda harts: ("sum", 1000 * harts),
    "lock": lambda harts: ("both", 100 * harts),
    "barrier": lambda harts: ("passed", 200),
    "stack": lambda harts: ("sum", 50 * harts * (harts + 1) // 2),
    "queue": lambda harts: ("sum", 600 * 601 // 2),
    "starter": lambda harts: ("sum", 1001 * harts * (harts - 1) // 2),
}
# Guests whose hart 0 starts the others.
FIRST = {"starter"}


def called(program, *words):
    """What a call of the program prints, and its status."""
    return subprocess.run([program, *words], capture_output=True, timeout=SECONDS)


def differences(program, name, harts, place):
    """How one run differs from what is known, and its replay from the run."""
    journal = Path(place) / "journal"
    guest = GUESTS / (name + ".elf")
    options = ["--harts", str(harts)] + (["--start", "first"] if name in FIRST else [])
    try:
        got = called(program, "run", *options, "--journal", journal, guest, "counts")
    except subprocess.TimeoutExpired:
        yield f"didn't end in {SECONDS} seconds"
        return
    said = got.stderr.decode(errors="replace").splitlines()
    word, number = WRITES[name](harts)
    if got.stdout != f"{word} {number:016x}\n".encode():
        yield f"wrote {got.stdout!r}"
    if got.returncode:
        yield f"status {got.returncode}"
    lines = [re.fullmatch(r"hart (\d+) steps (\d+) blocks (\d+) exit 0", line) for line in said[:harts]]
    if len(lines) < harts or not all(lines) or [int(line[1]) for line in lines] != list(range(harts)):
        yield f"said {said[:harts]}"
        return
    # The boxes have counted each hart's beginning and end, and each instruction and block.
    steps, blocks = (sum(int(line[column]) for line in lines) for column in (2, 3))
    counted = dict(line.split() for line in said[harts + 2 :])
    for what, count in ("init", harts), ("insn", steps), ("block", blocks), ("exit", harts):
        if counted.get(what) != str(count):
            yield f"counted {counted.get(what)} of {what}, not {count}"
    head = journal.read_bytes()[:26]
    if head[:8] != MAGIC or head[16:18] != bytes([harts, name in FIRST]):
        yield f"wrote a journal that begins with {head.hex(' ')}"
    try:
        again = called(program, "replay", *options, guest, journal, "counts")
    except subprocess.TimeoutExpired:
        yield f"wasn't replayed in {SECONDS} seconds"
        return
    journal.unlink()
    if (again.stdout, again.stderr, again.returncode) != (got.stdout, got.stderr, got.returncode):
        yield f"was replayed otherwise: status {again.returncode}, {again.stdout!r}, {again.stderr[:500]!r}"


def main(arguments):
    program = Path(arguments[0]).resolve() if arguments else TOP / "tcg_host"
    rounds = int(arguments[1]) if len(arguments) > 1 else 2
    # The first call may build the program.
    subprocess.run([program, "disas", TOP / "examples" / "exit0.elf"], stdout=subprocess.DEVNULL)
    unknown = sorted({file.stem for file in GUESTS.glob("*.elf")} ^ set(WRITES))
    for name in unknown:
        print(f"harts: {name}: is a guest or is known, not both")
    runs = different = 0
    with tempfile.TemporaryDirectory() as place:
        for name in WRITES:
            for harts in HARTS * rounds:
                for _ in range(TRIES):
                    found = list(differences(program, name, harts, place))
                    if "status 9" not in found:
                        break
                runs += 1
                different += bool(found)
                for text in found:
                    print(f"harts: {name} on {harts}: {text}")
    print(f"harts: {runs} runs of {len(WRITES)} guests and their replays, {different + len(unknown)} differ")
    return 1 if different or unknown else 0


if __name__ == "__main__":
    sys.exit(main(sys.argv[1:]))
