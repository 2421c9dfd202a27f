#!/usr/bin/env python3
"""Runs the lines of the shell that documents show, and compares what each prints with the lines below it.

    python3 tools/worked/transcripts.py [PAGE..]

The pages are docs/use/program.md and the program's own, or those that are named. A line is `    $ COMMAND`; the indented
lines after it are what it prints, errors too. The commands of a page run one after the other in one folder, in which
crates/ is that of the repository, with the program that `rt ci` left in crates/firnuubal/out on the path. Each command
that prints something else is said, and then the status is 1.
"""

import os
import pathlib
import subprocess
import sys
import tempfile

TOP = pathlib.Path(__file__).resolve().parents[2]
PAGES = ["docs/use/program.md", "crates/firnuubal/README.md"]
INDENT, PROMPT = "    ", "    $ "


def transcripts(text):
    """Each command, and the lines that it is to print."""
    command, printed = None, []
    for line in text.splitlines():
        if line.startswith(PROMPT) or not line.startswith(INDENT):
            if command is not None:
                yield command, printed
            command, printed = (line[len(PROMPT) :], []) if line.startswith(PROMPT) else (None, [])
        elif command is not None:
            printed.append(line[len(INDENT) :])
    if command is not None:
        yield command, printed


def differing(page, folder):
    """What differs at each command of a page."""
    program = TOP / "crates/firnuubal/out"
    environment = {**os.environ, "PATH": f"{program}:{os.environ['PATH']}"}
    for command, expected in transcripts((TOP / page).read_text(encoding="utf-8")):
        words = ["bash", "-c", command]
        ran = subprocess.run(words, cwd=folder, env=environment, stdout=subprocess.PIPE, stderr=subprocess.STDOUT, check=False)
        found = ran.stdout.decode().splitlines()
        yield "" if found == expected else f"{page}: {command}: expected {expected}, found {found}"


def main():
    found = []
    for page in sys.argv[1:] or PAGES:
        with tempfile.TemporaryDirectory() as folder:
            (pathlib.Path(folder) / "crates").symlink_to(TOP / "crates")
            found += differing(page, folder)
    faults = list(filter(None, found))
    for fault in faults:
        print(f"tools/worked/transcripts.py: {fault}")
    print(f"tools/worked/transcripts.py: {len(found)} commands, {len(faults)} otherwise")
    return 1 if faults or not found else 0


if __name__ == "__main__":
    sys.exit(main())
