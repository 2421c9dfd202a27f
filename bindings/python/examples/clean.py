#!/usr/bin/env python3
"""Prints what the standard policy keeps of the page on standard input, as firnuubal clean does.

    clean.py [PIECE] < PAGE
"""

import pathlib
import sys

sys.path.insert(0, str(pathlib.Path(__file__).resolve().parent.parent / "src"))

import firnuubal


def main():
    size = int(sys.argv[1]) if len(sys.argv) > 1 else 4096
    with firnuubal.Cleaner() as cleaner:
        while piece := sys.stdin.buffer.read(size):
            sys.stdout.buffer.write(cleaner.feed(piece).encode())
        sys.stdout.buffer.write(cleaner.end().encode())


if __name__ == "__main__":
    main()
