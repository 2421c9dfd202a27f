#!/usr/bin/env python3
"""Measures all that bench/ measures, one script after another, and prints their tables.

    python3 bench/all.py [--quick] [--real]

| Script | What it times | Beside |
|---|---|---|
| bench.py | html5tok, which prints each token | html5ever 0.26 |
| programs.py | the commands of firnuubal | programs of ours over html5ever 0.26; for `clean` ammonia, too |
| readers.py | counting tokens: alone, from C and from Rust; one long token | html5ever 0.26, libxml2's push parser |
| python.py | the package for Python | html.parser, html5lib, lxml, bleach |
| scale.py | many pages by 1, 2 and 4 processes or threads of Python | nothing |
| decoding.py | the decoders of encodings | encoding_rs |

Each says at its head what it wants, what it leaves out where that isn't there, and what it doesn't compare. It wants the
programs that `rt ci` leaves and the library that bindings/check.sh builds.
"""

import pathlib
import subprocess
import sys

HERE = pathlib.Path(__file__).resolve().parent
# Each script, with the Python that runs it and whether it reads real pages.
SCRIPTS = [
    ("bench.py", sys.executable, True),
    ("programs.py", sys.executable, True),
    ("readers.py", sys.executable, True),
    ("python.py", "/usr/bin/python3", True),
    ("scale.py", "/usr/bin/python3", False),
    ("decoding.py", sys.executable, False),
]


def main():
    given = sys.argv[1:]
    if not set(given) <= {"--quick", "--real"}:
        sys.exit(__doc__)
    failed = []
    for script, python, reads_pages in SCRIPTS:
        words = [word for word in given if reads_pages or word != "--real"]
        print(f"\n## {script} {' '.join(words)}\n", flush=True)
        if subprocess.run([python, HERE / script, *words], check=False).returncode:
            failed.append(script)
    if failed:
        sys.exit(f"failed: {', '.join(failed)}")


if __name__ == "__main__":
    main()
