"""The command: its words, the cases on all processors, and what is said of them."""

from __future__ import annotations

import argparse
import collections
import datetime
import multiprocessing
import os
import pathlib
import sys
import time

import compare

from .kinds import Check, Clean, Kind, Peer, Rewrite, Tokens
from .places import Places
from .running import SKIPPED
from .shrinking import smallest
from .tree import Tree
from .written import Pages, Written

CRATES = pathlib.Path(__file__).resolve().parents[2] / "crates"
KINDS = {"tokens": Tokens, "clean": Clean, "check": Check, "rewrite": Rewrite, "places": Places, "written": Written, "tree": Tree}


class Worker:
    """What each process compares."""

    kind: Kind


def arguments() -> argparse.Namespace:
    parser = argparse.ArgumentParser(
        prog="tools/compare", description=compare.__doc__, formatter_class=argparse.RawDescriptionHelpFormatter
    )
    parser.add_argument("kind", choices=KINDS)
    parser.add_argument("folder", nargs="?", type=pathlib.Path, help="pages in place of random cases, for `written`")
    parser.add_argument("--cases", type=int, help="how many; without it 5000, 2000 or 1000, by the kind")
    parser.add_argument("--seed", default="1", help="a word that chooses the cases, or `today`; without it 1")
    parser.add_argument("--program", help="without it the one that `rt ci` left in crates/")
    parser.add_argument("--peer", choices=["html5lib", "parse5"], help="compare `tokens` with this tokenizer")
    parser.add_argument("--self-test", action="store_true", help="plant wrong changes, and find each")
    said = parser.parse_args()
    if said.folder and said.kind != "written" or said.peer and said.kind != "tokens":
        parser.error(f"{said.kind} has no {'peer' if said.peer else 'folder'}")
    if said.self_test and (said.folder or said.peer):
        parser.error("the self-test is of random cases and of models")
    said.seed = datetime.date.today().isoformat() if said.seed == "today" else said.seed
    return said


def kind_of(said: argparse.Namespace) -> Kind:
    """The comparison that the words say. Its programs have to be there."""
    kind = Pages if said.folder else Peer if said.peer else KINDS[said.kind]
    paths = [str(CRATES / name / "out" / name) for name in kind.programs]
    paths[0] = os.path.abspath(said.program or paths[0])
    for path in paths:
        if not os.access(path, os.X_OK):
            print(f"{path}: no such program; `rt ci` leaves it there", file=sys.stderr)
            sys.exit(2)
    return kind(said, paths)


def begin(said: argparse.Namespace):
    Worker.kind = kind_of(said)


# ---- comparing


def compared(numbers: range) -> tuple[collections.Counter, list]:
    """What came of some cases, up to the first that differs, and that case with its number."""
    kind, counts, runs = Worker.kind, collections.Counter(), []
    for number in numbers:
        case = kind.case(number)
        expected = kind.expected(case)
        counts["skipped" if expected is SKIPPED else "cases"] += 1
        if expected is not SKIPPED:
            counts["with exact errors"] += case.has("--exact")
            counts["bytes"] += len(case.text.encode())
            runs += [(number, cut, expected) for cut in kind.cuts(case, number)]
    for (number, case, expected), found in zip(runs, kind.found([case for _, case, _ in runs])):
        counts["runs"] += 1
        if not kind.agrees(case, found, expected):
            return counts, [(number, case)]
    return counts, []


def batches(numbers: range, size: int) -> list[range]:
    return [numbers[at : at + size] for at in range(0, len(numbers), size)]


def compare_all(kind: Kind, pool, count: int | None) -> int:
    """Compares the cases, and shows those that differ."""
    begun, total, differing = time.monotonic(), collections.Counter(), []
    for counts, found in pool.imap(compared, batches(kind.numbers(count), kind.batch)):
        total += counts
        differing += found
        if len(differing) >= kind.most:
            break
    for number, case in differing:
        again = "differs" if kind.differs(case) else "differed in its run, and alone it does not"
        case = smallest(case, kind.differs) if kind.is_made_smaller else case
        print(f"case {number} {again}:\n{kind.difference(case)}")
    seconds = time.monotonic() - begun
    counts = [f"{total[what]} {what}" for what in ("cases", "with exact errors", "skipped", "runs", "bytes") if total[what]]
    print(f"tools/compare {kind.said}: {', '.join(counts)}, {len(differing)} otherwise, {seconds:.0f} seconds")
    return 1 if differing else 0


# ---- the test of the tests


def seen(numbers: range) -> list:
    """Some cases, and what a wrong change is looked for in."""
    cases = [Worker.kind.case(number) for number in numbers]
    return list(zip(cases, Worker.kind.seen(cases)))


def self_test(kind: Kind, pool, count: int | None) -> int:
    """Says at which case each planted change is found."""
    found = sum(pool.map(seen, batches(kind.numbers(count), kind.batch)), [])
    missed = 0
    for name, finds in kind.planted():
        at = next((at for at, (case, it) in enumerate(found) if finds(case, it)), None)
        missed += at is None
        print(f"{name}: " + ("not found" if at is None else f"found at case {at}"))
    for name in kind.unseen(found):
        missed += 1
        print(f"{name}: not found")
    print(f"tools/compare {kind.said}: {missed} not found in {len(found)} cases")
    return 1 if missed else 0


def main() -> int:
    said = arguments()
    kind = kind_of(said)
    with multiprocessing.Pool(initializer=begin, initargs=(said,)) as pool:
        return (self_test if said.self_test else compare_all)(kind, pool, said.cases)
