#!/usr/bin/env python3
"""Carries out the examples of docs/using.md and of README.md and compares what they print.

    commands.py [PROGRAM]

PROGRAM stands in place of ./tcg_host. In a block that begins with ```console, a line that begins with `$ ` is a command, carried out
by the shell from the top of the repository, and the lines up to the next one are what it prints, output before errors; a line `...`
stands for any lines, and `...` in a line for any text. A line `[status N]` is the status, 0 where there is none.
"""

import re
import shlex
import subprocess
import sys
import tempfile
from pathlib import Path

TOP = Path(__file__).resolve().parent.parent
PAGES = ["README.md", "docs/using.md"]
SECONDS = 300


def examples(text):
    """The commands of a page, with the lines that each prints."""
    for block in re.findall(r"^```console\n(.*?)^```", text, re.S | re.M):
        for part in re.split(r"^\$ ", block, flags=re.M)[1:]:
            command, _, rest = part.partition("\n")
            yield command, rest.splitlines()


def is_printed(lines, printed):
    """Whether the lines are those of the example, in which `...` stands for any."""
    pattern = "".join("(.*\n)*?" if line == "..." else re.escape(line + "\n").replace(r"\.\.\.", ".*") for line in lines)
    return re.fullmatch(pattern, "".join(line + "\n" for line in printed)) is not None


def carried_out(command, program, place):
    """What a command prints, and its status. Files that an example names in /tmp stand in a place of their own."""
    command = command.replace("/tmp/", str(place) + "/").replace("./tcg_host", shlex.quote(str(program)))
    got = subprocess.run(command, shell=True, capture_output=True, timeout=SECONDS, cwd=TOP)
    printed = (got.stdout + got.stderr).decode(errors="replace").replace(str(place) + "/", "/tmp/")
    lines = printed.splitlines()
    if got.returncode:
        lines.append(f"[status {got.returncode}]")
    return lines


def main(arguments):
    program = Path(arguments[0]).resolve() if arguments else TOP / "tcg_host"
    # The first call may build the program.
    subprocess.run([program, "disas", TOP / "examples" / "exit0.elf"], stdout=subprocess.DEVNULL)
    count = different = 0
    for page in PAGES:
        with tempfile.TemporaryDirectory() as place:
            for command, lines in examples((TOP / page).read_text()):
                printed = carried_out(command, program, Path(place))
                count += 1
                if not is_printed(lines, printed):
                    different += 1
                    print(f"commands: {page}: `{command}` prints", *printed, sep="\n    ")
    print(f"commands: {count} carried out, {different} differ")
    return 1 if different or not count else 0


if __name__ == "__main__":
    sys.exit(main(sys.argv[1:]))
