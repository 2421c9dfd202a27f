#!/usr/bin/env python3
"""Times what reads tokens from C and Rust, the tokenizer alone, and others beside them, each with a sink that counts, and
prints tables.

    python3 bench/readers.py [--quick] [--real]

It takes the archive that `bindings/check.sh` left in bindings/out and the program of crates/count_tokens that `rt ci` left
there, builds the examples `count` over the archive, and runs all in turns: whole, which is 65,536 bytes at a time, and from C
in pieces of 1,500 bytes, too, as packets bring them. Beside them are html5ever's own tokenizer and, on pages that are not
joined, libxml2's push parser without its tree (Debian's libxml2-dev), where it is there. A time is the processor time of a
process, user and system, the best of some runs. Instructions are those of the first 3 MB, by callgrind, where that is there.
MB are 1,000,000 bytes.

With --real a row more is of the pages apart, each a file, which C reads in one handle (`html5_restart`); its ratio is to
html5ever's time for all of them joined.

The second table is of one token of many bytes, read from C: its time should grow as it does, and the peak of memory by no
more than a copy for each layer.
"""

import argparse
import itertools
import pathlib
import re
import shutil
import subprocess
import sys
import tempfile

import build
import corpora
import measure
from programs import texts

TOP = pathlib.Path(__file__).resolve().parent.parent
BINDINGS = TOP / "bindings"
ALONE = TOP / "crates/count_tokens/out/count_tokens"
PACKET = "1500"
WHOLE = "65536"
COUNTED = 3 * corpora.MB  # bytes of which the instructions are counted
LONG_TOKENS = {
    "a text": (b"", b""),
    "a comment": (b"<!--", b"-->"),
    "a quoted value": (b'<a b="', b'">'),
    "a name": (b"<", b">"),
}


def built_in_c(folder):
    """The example in C."""
    program = folder / "count-c"
    words = ["gcc", "-std=c99", "-O2", str(BINDINGS / "c/examples/count.c"), str(BINDINGS / "out/libfirnuubal.a")]
    subprocess.run([*words, "-o", str(program)], check=True)
    return program


def built_in_rust(folder):
    """The example in Rust."""
    words = ["cargo", "build", "--quiet", "--offline", "--release", "--example", "count", "--target-dir", str(folder)]
    subprocess.run(words, cwd=BINDINGS / "rust", check=True)
    return folder / "release/examples/count"


def built_over_libxml2(folder):
    """The program over libxml2, or none where that is not there."""
    program = folder / "libxml2"
    source = pathlib.Path(__file__).resolve().parent / "beside/libxml2.c"
    words = ["gcc", "-O2", "-I/usr/include/libxml2", str(source), "-lxml2", "-o", str(program)]
    return program if subprocess.run(words, capture_output=True).returncode == 0 else None


def said(turn):
    """What a program prints of a corpus."""
    program, words, corpus = turn
    with open(corpus, "rb") as source:
        return subprocess.run([program, *words], stdin=source, capture_output=True, check=True, text=True).stdout.strip()


def instructions(turn, folder):
    """How many instructions a byte a program takes for a prefix of a corpus, in words."""
    program, words, corpus = turn
    if not shutil.which("valgrind"):
        return ""
    beginning = folder / "beginning"
    beginning.write_bytes(corpus.read_bytes()[:COUNTED])
    size = beginning.stat().st_size
    if len(words) > 1:
        files, size = first_files(words[1:], COUNTED)
        words = [words[0], *files]
    words = ["valgrind", "--tool=callgrind", f"--callgrind-out-file={folder / 'callgrind'}", str(program), *words]
    with open(beginning, "rb") as source:
        ran = subprocess.run(words, stdin=source, capture_output=True, text=True, check=True)
    counted = int(re.search(r"Collected : (\d+)", ran.stderr)[1])
    return f"{counted / size:.1f}"


def print_rows(programs, corpus, runs):
    """Prints a row for each program with its words, of which html5ever's is named so."""
    size = corpus.stat().st_size / corpora.MB
    turns = {name: (program, words, corpus) for name, (program, words) in programs.items()}
    times = dict(zip(turns, measure.best_times(list(turns.values()), runs)))
    for name, turn in turns.items():
        peak = measure.print_to(*turn, corpus.with_suffix(".said")) / corpora.MB
        ratio = times["html5ever"] / times[name]
        cells = [name, f"{size:.0f}", f"{times[name]:.2f}", f"{size / times[name]:.0f}", f"{ratio:.2f}", f"{peak:.1f}"]
        print(f"| {' | '.join([*cells, instructions(turn, corpus.parent), said(turn)])} |", flush=True)


def files_of(pages, folder):
    """The pages as files of a folder: their names."""
    folder.mkdir()
    files = [folder / str(number) for number in range(len(pages))]
    for file, page in zip(files, pages):
        file.write_bytes(page)
    return [str(file) for file in files]


def first_files(files, most):
    """Of these files those that have no more bytes than so many, and how many they have."""
    sizes = list(itertools.accumulate(pathlib.Path(file).stat().st_size for file in files))
    count = sum(size <= most for size in sizes)
    return files[:count], sizes[count - 1]


def print_long_tokens(program, corpus, sizes):
    """Prints a row for one token of each kind and size."""
    print("\n| One token | MB | Seconds | Peak, MB |\n|---|---|---|---|")
    for name, (front, back) in LONG_TOKENS.items():
        for size in sizes:
            corpus.write_bytes(front + b"a" * (size * corpora.MB) + back)
            seconds = measure.processor_seconds(program, [], corpus)
            peak = measure.print_to(program, [], corpus, corpus.with_suffix(".said")) / corpora.MB
            print(f"| {name} | {size} | {seconds:.2f} | {peak:.0f} |", flush=True)


def main():
    parser = argparse.ArgumentParser(description=__doc__.splitlines()[0])
    parser.add_argument("--quick", action="store_true", help="smaller pages, fewer runs")
    parser.add_argument("--real", action="store_true", help="real pages, from Debian's documentation packages")
    chosen = parser.parse_args()
    with tempfile.TemporaryDirectory() as name:
        folder = pathlib.Path(name)
        (folder / "beside").mkdir()
        try:
            beside, words = build.build(folder / "beside")
        except build.CannotBuild as error:
            sys.exit(str(error))
        in_c = built_in_c(folder)
        programs = {
            "the tokenizer alone": (ALONE, []),
            "C": (in_c, []),
            "C, in pieces of 1,500": (in_c, [PACKET]),
            "Rust": (built_in_rust(folder / "rust"), []),
            "html5ever": (beside / "count", []),
        }
        over_libxml2 = None if chosen.real else built_over_libxml2(folder)
        if over_libxml2:
            programs["libxml2"] = (over_libxml2, [])
        print(f"Beside {words}.\n")
        print("| Reader | MB | Seconds | MB/s | Ratio | Peak, MB | Instructions a byte | Found |\n|---|---|---|---|---|---|---|---|")
        corpus = folder / "pages"
        if chosen.real:
            programs["C, a page at a time"] = (in_c, [WHOLE, *files_of(corpora.real_pages_apart(), folder / "apart")])
        for text in texts(chosen):
            corpus.write_bytes(text)
            print_rows(programs, corpus, 2 if chosen.quick else 5)
        print_long_tokens(in_c, corpus, [1, 10] if chosen.quick else [1, 10, 100])


if __name__ == "__main__":
    main()
