#!/usr/bin/env python3
"""Times html5tok beside html5ever itself, and prints tables.

    python3 bench/bench.py [--quick] [--real] [--program PATH] [--without-beside]

html5ever is Debian's package of it, under a program of ours that prints the same lines (beside/main.rs); build.py
builds it anew in each call. Where it can't be built, html5tok is timed alone. A time is the processor time of a
process, user and system, the best of some runs in which the programs take turns. MB are 1,000,000 bytes.
"""

import argparse
import filecmp
import pathlib
import sys
import tempfile
from typing import NamedTuple

import build
import corpora
import measure

PROGRAM = pathlib.Path(__file__).resolve().parent.parent / "crates" / "html5tok" / "out" / "html5tok"
SETTINGS = {
    "whole": [],
    "`--cut 4096`": ["--cut", "4096"],
    "`--exact`": ["--exact"],
    "`--cut 1`": ["--cut", "1"],
}
NOTES = """
Ratio: html5ever's seconds by ours, so above 1 ours is faster. Lines that differ: in brackets those that differ in more
than an error's text. A message of html5ever 0.26 names character and state only with `--exact`, one of 0.40.1 or ours
only without it: where errors are many, each setting costs the program more that names them.
"""
MB = corpora.MB


class Sizes(NamedTuple):
    """How much is read, and how often."""

    runs: int
    megabytes: int  # of pages, and of plain text
    odd: int  # `<`, and NULs
    long: int  # line breaks, and bytes of a value and of a name
    attributes: int
    linear: list  # megabytes of pages


FULL = Sizes(runs=5, megabytes=8, odd=MB, long=8 * MB, attributes=10_000, linear=[1, 2, 4, 8, 16, 32])
QUICK = Sizes(runs=2, megabytes=1, odd=MB // 10, long=MB // 2, attributes=1_000, linear=[1, 2, 4])


class Case(NamedTuple):
    """A text to read, and the words that it is read with: those of both programs, and those of html5tok alone."""

    name: str
    text: bytes
    words: list
    ours: list = []


def cases(sizes):
    """The cases of the first table, each made when it is asked for."""
    table = ["--table", corpora.table()]
    yield Case(f"pages, {sizes.megabytes} MB", corpora.pages(sizes.megabytes), [])
    yield Case(f"pages of entities, {sizes.megabytes} MB", corpora.entity_pages(sizes.megabytes), [], table)
    yield Case(f"full pages, {sizes.megabytes} MB", corpora.full_pages(sizes.megabytes), [], table)
    yield Case(f"{sizes.odd:,} `&`", b"&" * sizes.odd, [], table)
    yield Case(f"a number of {sizes.long / MB:g} MB", corpora.long_number(sizes.long), [], table)
    yield Case(f"plain text, {sizes.megabytes} MB", corpora.plain_text(sizes.megabytes), ["--state", "plaintext"])
    yield Case(f"{sizes.odd:,} `<`", b"<" * sizes.odd, [])
    yield Case(f"{sizes.odd:,} NULs", b"\0" * sizes.odd, [])
    yield Case(f"{sizes.long:,} line breaks", b"\n" * sizes.long, [])
    yield Case(f"a value of {sizes.long / MB:g} MB", corpora.long_value(sizes.long), [])
    yield Case(f"a tag's name of {sizes.long / MB:g} MB", corpora.long_name(sizes.long), [])
    yield Case(f"{sizes.attributes:,} attributes of a tag", corpora.many_attributes(sizes.attributes), [])


def real_case():
    """The pages of Debian's documentation packages, which are fetched."""
    text = corpora.real_pages()
    if not text:
        sys.exit("the packages of real pages can't be fetched: `apt-get update`, and then again")
    return Case(f"real pages, {len(text) / MB:.0f} MB", text, [], ["--table", corpora.table()])


def linear_cases(sizes):
    """The cases of the second table: kinds of input, each in several sizes."""
    for megabytes in sizes.linear:
        yield Case("pages, whole", corpora.pages(megabytes), [])
    table = ["--table", corpora.table()]
    for megabytes in sizes.linear[::2]:
        yield Case("pages of entities, whole", corpora.entity_pages(megabytes), [], table)
    for megabytes in sizes.linear[::2]:
        yield Case("full pages, whole", corpora.full_pages(megabytes), [], table)
    for size in (sizes.long // 8, sizes.long):
        yield Case("a number, whole", corpora.long_number(size), [])
    for size in (MB // 8, MB):
        yield Case("characters, `--cut 1`", corpora.ascii_text(size), ["--cut", "1"])
    for size in (sizes.long // 8, sizes.long):
        yield Case("a value, whole", corpora.long_value(size), [])


def print_row(*cells):
    print(f"| {' | '.join(cells)} |", flush=True)


def print_header(*cells):
    print_row(*cells)
    print_row(*["---"] * len(cells))


def time_and_speed(seconds, size):
    return f"{seconds:.3f}", f"{size / max(seconds, 1e-6) / MB:.1f}"


def outputs(turns):
    """What each turn prints, in files, and the peak of the first."""
    files = []
    peaks = []
    for number, (program, words, corpus) in enumerate(turns):
        files.append(corpus.with_suffix(f".{number}"))
        peaks.append(measure.print_to(program, words, corpus, files[-1]))
    return files, peaks[0]


def measure_setting(programs, case, setting, corpus, runs):
    """Prints the row of a case and a setting. The first program is ours; the other, if any, html5ever's."""
    words = case.words + SETTINGS[setting]
    turns = [(program, words, corpus) for program in programs]
    turns[0] = (programs[0], words + case.ours, corpus)
    files, peak = outputs(turns)
    times = measure.best_times(turns, runs)
    ours = time_and_speed(times[0], len(case.text))
    if len(programs) == 1:
        print_row(case.name, setting, *ours, f"{peak / MB:.1f}")
    else:
        theirs = time_and_speed(times[1], len(case.text))
        ratio = f"{times[1] / times[0]:.2f}"
        print_row(case.name, setting, *theirs, *ours, ratio, f"{peak / MB:.1f}", measure.difference(*files))
    return files[0]


def measure_case(programs, case, folder, runs):
    """Prints the rows of a case, and ends the script where our output depends on the cut."""
    corpus = folder / "corpus"
    corpus.write_bytes(case.text)
    whole = folder / "whole"
    for setting in SETTINGS:
        output = measure_setting(programs, case, setting, corpus, runs)
        if setting == "whole":
            output.replace(whole)
        elif "--cut" in setting and not filecmp.cmp(whole, output, shallow=False):
            sys.exit(f"{case.name}: what html5tok prints differs by the cut")


def compare(programs, texts, runs, folder):
    """The first table, of these cases."""
    if len(programs) == 1:
        print()
        print_header("Case", "Setting", "Seconds", "MB/s", "Peak, MB")
    else:
        print(NOTES)
        ours = ["Ours, s", "MB/s", "Ratio", "Our peak, MB"]
        print_header("Case", "Setting", "html5ever, s", "MB/s", *ours, "Lines that differ")
    for case in texts:
        measure_case(programs, case, folder, runs)


def check_linear(program, sizes, folder):
    """The second table: seconds per MB stay the same where the time is linear."""
    rows = []
    turns = []
    for number, case in enumerate(linear_cases(sizes)):
        corpus = folder / f"linear.{number}"
        corpus.write_bytes(case.text)
        rows.append((case.name, len(case.text) / MB))
        turns.append((program, case.words + case.ours, corpus))
    print()
    print_header("Case", "MB", "Seconds", "Seconds per MB")
    for (name, megabytes), seconds in zip(rows, measure.best_times(turns, sizes.runs)):
        print_row(name, f"{megabytes:.3g}", f"{seconds:.3f}", f"{seconds / megabytes:.4f}")


def options():
    parser = argparse.ArgumentParser(description="Times html5tok beside html5ever.")
    parser.add_argument("--quick", action="store_true", help="small texts, and the best of two runs")
    parser.add_argument("--real", action="store_true", help="real pages alone, from Debian's documentation packages")
    parser.add_argument("--program", type=pathlib.Path, default=PROGRAM, help="the program to time")
    parser.add_argument("--without-beside", action="store_true", help="time html5tok alone")
    return parser.parse_args()


def beside(folder):
    """The program over html5ever, in a list, or an empty one where it can't be built."""
    folder.mkdir()
    try:
        programs, words = build.build(folder)
    except build.CannotBuild as error:
        print(f"html5ever is left out: {error}", file=sys.stderr)
        return []
    print(f"Beside {words}.")
    return [programs / "beside"]


def main():
    chosen = options()
    program = chosen.program.resolve()
    if not program.is_file():
        sys.exit(f"there is no {program}: `rt run < /dev/null` in crates/html5tok builds it")
    sizes = QUICK if chosen.quick else FULL
    with tempfile.TemporaryDirectory() as name:
        folder = pathlib.Path(name)
        programs = [program]
        if not chosen.without_beside:
            programs += beside(folder / "beside")
        print(f"Processor seconds, the best of {sizes.runs} runs.")
        if chosen.real:
            compare(programs, [real_case()], sizes.runs, folder)
        else:
            compare(programs, cases(sizes), sizes.runs, folder)
            check_linear(program, sizes, folder)


if __name__ == "__main__":
    main()
