"""Runs the proved program: `python -m firnuubal clean < PAGE`."""

import importlib.metadata
import os
import pathlib
import sys
from typing import Iterator

from ._library import FOLDER, HERE

NAME = "firnuubal"


def _installed() -> Iterator[pathlib.Path]:
    """The programs that the installed package has."""
    try:
        files = importlib.metadata.files(NAME) or []
    except importlib.metadata.PackageNotFoundError:
        return
    for file in files:
        if file.name == NAME and file.parent.name == "bin":
            yield pathlib.Path(str(file.locate()))


def _programs() -> Iterator[pathlib.Path]:
    """Where the program may be: where the library is, beside the package, or where pip put it."""
    yield from (folder / NAME for folder in (FOLDER, HERE))
    yield from _installed()


def main() -> None:
    program = next((it for it in _programs() if it.is_file() and os.access(it, os.X_OK)), None)
    if program is None:
        sys.exit(f"firnuubal: there is no program {NAME} in {FOLDER}, and none that pip installed: this package has none")
    os.execv(program, [NAME, *sys.argv[1:]])


if __name__ == "__main__":
    main()
