#!/usr/bin/python3
"""Reads many pages by 1, 2 and 4 processes of Python, and by as many threads, and prints a table.

    /usr/bin/python3 bench/scale.py [--quick]

A session takes one call at a time, so each process or thread has sessions of its own, which `firnuubal.links` makes. A
thread helps where the library reads while another runs Python. A time is by the clock, from when all workers are ready
until the last page is read, the best of some runs: what else runs on the machine shows in it. It takes the library as
python.py does. Each page is of 1 MB, made (`full_pages` in corpora.py), and all are the same. It compares with nothing.
"""

import argparse
import concurrent.futures
import pathlib
import sys
import time

TOP = pathlib.Path(__file__).resolve().parent.parent
sys.path.insert(0, str(TOP / "bindings" / "python" / "src"))

import corpora
import firnuubal

PAGE = corpora.full_pages(1)
KINDS = {
    "processes": concurrent.futures.ProcessPoolExecutor,
    "threads": concurrent.futures.ThreadPoolExecutor,
}


def links_in(_number):
    return sum(1 for _ in firnuubal.links(PAGE))


def seconds(kind, workers, pages):
    """How long so many workers take for so many pages, once each has read one."""
    with KINDS[kind](workers) as pool:
        ready = set(pool.map(links_in, range(4 * workers)))
        began = time.monotonic()
        found = set(pool.map(links_in, range(pages)))
        ended = time.monotonic()
    if found != ready or len(found) != 1:
        sys.exit(f"the workers found {sorted(found | ready)} links")
    return ended - began


def main():
    parser = argparse.ArgumentParser(description=__doc__)
    parser.add_argument("--quick", action="store_true")
    quick = parser.parse_args().quick
    pages, runs = (16, 1) if quick else (128, 3)
    print(f"| {pages} pages of 1 MB by | 1, MB/s | 2, MB/s | 4, MB/s |\n|---|---|---|---|")
    for kind in KINDS:
        speeds = [pages / min(seconds(kind, workers, pages) for _ in range(runs)) for workers in (1, 2, 4)]
        print(f"| {kind} | {' | '.join(f'{speed:.0f}' for speed in speeds)} |", flush=True)


if __name__ == "__main__":
    main()
