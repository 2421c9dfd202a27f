#!/usr/bin/env python3
"""Prints the map of the crates' files: what the head of each says.

    python3 tools/docs/map.py               # each crate
    python3 tools/docs/map.py CRATE..       # its modules, its definitions (specs/) and its lemmas (proofs/)
    python3 tools/docs/map.py --find WORD   # the files of all crates whose head has a word that begins so
    python3 tools/docs/map.py --check       # that each file has a head, and docs/ARCHITECTURE.md names each crate

A head is the comment at the top of a file, or if there is none that of its first documented item. Crates are in the
order of crates.txt, in which each stands after those that it uses. Tests, and answers in the proof of one function, need
no head.
"""

import pathlib
import re
import signal
import sys

TOP = pathlib.Path(__file__).resolve().parents[2]
CRATES = TOP / "crates"
MARKS = {".rt": "//!? ", ".antt": "-- "}
ROOTS = ("lib", "main")


def crates():
    lines = (TOP / "crates.txt").read_text().splitlines()
    return [line.partition(":")[0].split()[0] for line in lines if line.strip() and not line.startswith("#")]


def paragraph(mark, text):
    """The first lines that begin with a mark, without it, as one line."""
    found = re.search(rf"^(?:{mark}\S.*\n)+", text, re.M)
    return " ".join(re.sub(f"^{mark}", "", line) for line in found[0].splitlines()) if found else ""


def head_of(file):
    """The first paragraph of a file's head."""
    text, mark = file.read_text(), MARKS[file.suffix]
    return paragraph(mark, text) if re.match(mark, text) else paragraph("/// ", text)


def root_of(crate):
    files = [CRATES / crate / "src" / f"{root}.rt" for root in ROOTS]
    return next(file for file in files if file.exists())


def files_of(crate):
    """The files of a crate except its root, its lists of files, and what belongs to the proof of one function."""
    for folder, ending in [("src", ".rt"), ("specs", ".antt"), ("proofs", ".antt")]:
        files = sorted((CRATES / crate / folder).rglob(f"*{ending}"))
        yield from (it for it in files if it != root_of(crate) and it.stem not in ("Lib", "Answers", "Invariants"))


def named(file):
    return str(file.relative_to(CRATES))


def all_files():
    return [file for crate in crates() for file in [root_of(crate), *files_of(crate)]]


def print_crate(crate):
    print(f"{crate}: {head_of(root_of(crate))}")
    for file in files_of(crate):
        print(f"  {file.relative_to(CRATES / crate)}: {head_of(file)}")


def check():
    page = (TOP / "docs" / "ARCHITECTURE.md").read_text()
    faults = [f"docs/ARCHITECTURE.md has no row of {it}" for it in crates() if not re.search(rf"^\| `{it}`", page, re.M)]
    faults += [f"{named(it)} has no head" for it in all_files() if not head_of(it) and "#[test]" not in it.read_text()]
    print("".join(f"{it}\n" for it in faults) + f"tools/docs/map.py: {len(crates())} crates, {len(faults)} faults")
    return 1 if faults else 0


def print_found(word):
    for file in all_files():
        if re.search(rf"\b{re.escape(word)}", head_of(file), re.I):
            print(f"{named(file)}: {head_of(file)}")


def main(words):
    if words == ["--check"]:
        return check()
    if words[:1] == ["--find"] and len(words) == 2:
        print_found(words[1])
    elif unknown := [it for it in words if it not in crates()]:
        print(f"tools/docs/map.py: {unknown[0]} is not a crate of crates.txt", file=sys.stderr)
        return 2
    elif words:
        for crate in words:
            print_crate(crate)
    else:
        for crate in crates():
            print(f"{crate}: {head_of(root_of(crate))}")
    return 0


if __name__ == "__main__":
    signal.signal(signal.SIGPIPE, signal.SIG_DFL)
    sys.exit(main(sys.argv[1:]))
