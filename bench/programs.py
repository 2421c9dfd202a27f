#!/usr/bin/env python3
"""Times the commands of firnuubal, of which links, text and clean stand beside programs of the same work over html5ever,
and prints a table.

    python3 bench/programs.py [--quick] [--real]

All but `check` read pages as they arrive. A time is the processor time of a process, user and system, the best of some runs in
which the programs take turns. The peak of memory is read where all but the end of the input was handed in. MB are
1,000,000 bytes. Where html5ever can't be built the programs are timed alone. What cleans over html5ever makes no tree, so
beside it stands `clean` by the standard policy without the rule `tree`. Beside `clean` with it stands ammonia, where it is
there (Debian's librust-ammonia-dev): it builds a tree, reads its input whole, and keeps other pages, by rules of its own.

The row `write_back` is of the program of crates/write_back, which writes a page back by its tokens and keeps the page that it writes,
beside a serializer by hand over html5ever, which prints as it goes. html5ever reads a processing instruction as a comment.
"""

import argparse
import os
import pathlib
import subprocess
import sys
import tempfile

import build
import corpora
import measure

CRATES = pathlib.Path(__file__).resolve().parent.parent / "crates"
PROGRAM = CRATES / "firnuubal/out/firnuubal"
NO_TREE = "clean without tree"
WRITE_BACK = "write_back"
# What does the same work over html5ever: a program of beside/ and its words.
COMMANDS = {"links": ["pages", "links"], "text": ["pages", "text"], NO_TREE: ["clean"], "clean": ["ammonia"], WRITE_BACK: ["write_back"], "tokens": None, "check": None, "rewrite": None}


def command_of(name, folder):
    """The program of a row, and its words."""
    if name == WRITE_BACK:
        return CRATES / "write_back/out/write_back", []
    if name != NO_TREE:
        return PROGRAM, [name]
    policy = subprocess.run([PROGRAM, "clean", "--print-policy"], capture_output=True, check=True).stdout
    file = folder / "policy"
    file.write_bytes(policy.replace(b"\ntree\n", b"\n"))
    return PROGRAM, ["clean", "--policy", str(file)]


def peak_memory(program, words, corpus):
    """The most memory that a command had after the whole input, in bytes."""
    process = subprocess.Popen([program, *words], stdin=subprocess.PIPE, stdout=subprocess.DEVNULL)
    with process.stdin, open(corpus, "rb") as source:
        while piece := source.read(1 << 16):
            process.stdin.write(piece)
        process.stdin.flush()
        peak = measure.high_water(process)
    _, status, _ = os.wait4(process.pid, 0)
    measure.check_status(process, status)
    return peak


def without_number(line):
    """A printed link, without the number of its line."""
    return line.split(b" ", 1)[-1]


def difference(name, turns):
    """In words how many lines of the outputs of two turns differ, in more than a number where they are links."""
    files = []
    for number, (program, words, corpus) in enumerate(turns):
        files.append(corpus.with_suffix(f".{number}"))
        measure.print_to(program, words, corpus, files[-1])
    kept = without_number if name == "links" else bytes
    return f"{measure.lines_apart(*files, kept):,}"


def print_command(name, corpus, beside, runs):
    """Prints the row of a command and a corpus; `beside` is where the programs over html5ever are."""
    program, own = command_of(name, corpus.parent)
    turns = [(program, own, corpus)]
    other, *words = COMMANDS[name] or [""]
    if beside and (beside / other).is_file():
        turns.append((beside / other, words, corpus))
    size = corpus.stat().st_size / corpora.MB
    ours, *theirs = measure.best_times(turns, runs)
    peak = peak_memory(program, own, corpus) / corpora.MB
    cells = [f"`{name}`", f"{size:.0f}", f"{ours:.2f}", f"{size / ours:.0f}", f"{peak:.1f}"]
    for seconds in theirs:
        apart = f"{other}'s rules" if other in build.MORE else difference(name, turns)
        cells += [f"{seconds:.2f}", f"{seconds / ours:.2f}", apart]
    print(f"| {' | '.join(cells)} |", flush=True)


def built_beside(folder):
    """Where the programs over html5ever are, or none where they can't be built."""
    folder.mkdir()
    try:
        programs, words = build.build(folder)
    except build.CannotBuild as error:
        print(f"html5ever is left out: {error}", file=sys.stderr)
        return None
    print(f"Beside {words}.\n")
    return programs


def texts(chosen):
    """The pages to read, each made when it is asked for."""
    if chosen.real:
        yield corpora.real_pages() or sys.exit("the packages can't be fetched: `apt-get update`, and then again")
        return
    for megabytes in [1, 4] if chosen.quick else [1, 10, 100]:
        yield corpora.full_pages(megabytes)


def main():
    parser = argparse.ArgumentParser(description=__doc__.splitlines()[0])
    parser.add_argument("--quick", action="store_true", help="smaller pages, fewer runs")
    parser.add_argument("--real", action="store_true", help="real pages, from Debian's documentation packages")
    chosen = parser.parse_args()
    with tempfile.TemporaryDirectory() as name:
        folder = pathlib.Path(name)
        beside = built_beside(folder / "beside")
        header = ["Command", "MB", "Seconds", "MB/s", "Peak, MB"]
        if beside:
            header += ["html5ever, s", "Ratio", "Lines that differ"]
        print(f"| {' | '.join(header)} |\n|{'---|' * len(header)}")
        corpus = folder / "pages"
        for text in texts(chosen):
            corpus.write_bytes(text)
            for command in COMMANDS:
                print_command(command, corpus, beside, 2 if chosen.quick else 3)


if __name__ == "__main__":
    main()
