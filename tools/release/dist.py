#!/usr/bin/env python3
"""Puts a release into dist/, or says what dist/ has.

    python3 tools/release/dist.py
    python3 tools/release/dist.py --check

A release is what bindings/build.sh left in bindings/out, the archive, the shared library, the header, the extension for
Python and the program, with a wheel and a source distribution made of them, and a record. That names the version, the
toolchains, a hash of the sources and one of each file. The program is left out where it wasn't built. A release is made
at the end of a change that callers see, not at each commit.

With --check each file is compared with its hash in the record. Where the record names the sources and the toolchains
that are here, and all was built, the release is made once more, and must be the same to the byte. But of the program a
line says where another was built. Else a line says of which version it is. Status 0: all that was compared is the same.
1: something differs, or there is no release.
"""

import hashlib
import json
import os
import pathlib
import subprocess
import sys
import tempfile

TOP = pathlib.Path(__file__).resolve().parents[2]
DIST = TOP / "dist"
OUT = TOP / "bindings" / "out"
RECORD = DIST / "record.json"
BUILT = ("firnuubal.h", "libfirnuubal.a", "libfirnuubal.so", "_fast.abi3.so")
# The program, which is shipped where it was built.
PROGRAM = "firnuubal"
# The headers of Python are those of this version.
TOOLCHAINS = (("rt", "version"), ("gcc", "--version"), ("ld", "--version"), ("python3", "--version"))
SHIPPED = ("bindings/c/firnuubal.h", "bindings/c/firnuubal.map", "bindings/c/cpu.c", "bindings/build.sh")
SHIPPED += ("bindings/python/backend.py", "bindings/python/pyproject.toml")
SHIPPED += ("bindings/python/native/_fast.c", "bindings/python/native/build.sh", "bindings/python/README.md")
SHIPPED += ("LICENSE-APACHE", "LICENSE-MIT", "crates/html5policy/README.md")

sys.dont_write_bytecode = True
sys.path.insert(0, str(TOP / "bindings" / "python"))


def said(*words):
    """The first line that a command prints."""
    return subprocess.run(words, capture_output=True, text=True, check=True).stdout.split("\n")[0]


def below(crate, lines):
    """A crate and those of the repository that it stands on."""
    found = {crate}
    for name in lines[crate][1].split():
        if name in lines and name not in found:
            found |= below(name, lines)
    return found


def sources():
    """The files of which a release is made."""
    listed = [line.partition(":") for line in (TOP / "crates.txt").read_text(encoding="utf-8").splitlines()]
    lines = {head.split()[0]: (head, names) for head, _, names in listed if head and not head.startswith("#")}
    for crate in sorted(below("html5c", lines) | below(PROGRAM, lines)):
        yield from sorted((TOP / "crates" / crate / "src").rglob("*.rt"))
    yield from (TOP / name for name in SHIPPED)
    yield from sorted(it for it in (TOP / "bindings/python/src/firnuubal").iterdir() if it.suffix in (".py", ".pyi"))


def sum_of(content):
    return hashlib.sha256(content).hexdigest()


def sum_of_sources():
    found = hashlib.sha256()
    for file in sources():
        found.update(f"{file.relative_to(TOP)} {sum_of(file.read_bytes())}\n".encode())
    return found.hexdigest()


def packages_into(folder):
    """Makes the wheel in a folder, and the source distribution where there is one."""
    import backend

    backend.build_wheel(folder)
    try:
        backend.build_sdist(folder)
    except NotImplementedError:
        pass


def release_into(folder):
    """Makes a release in a folder, and answers its record."""
    import backend

    for name in (*BUILT, PROGRAM):
        if name in BUILT or (OUT / name).is_file():
            (folder / name).write_bytes((OUT / name).read_bytes())
    if (folder / PROGRAM).is_file():
        (folder / PROGRAM).chmod(0o755)
    packages_into(folder)
    files = sorted(file.name for file in folder.iterdir())
    return {
        "version": backend.project()["version"],
        "toolchains": [said(name, word) for name, word in TOOLCHAINS],
        "sources": sum_of_sources(),
        "files": {name: sum_of((folder / name).read_bytes()) for name in files},
    }


def not_built():
    """The files of a release that bindings/out lacks."""
    return [name for name in BUILT if not (OUT / name).is_file()]


def make():
    if not_built():
        sys.exit(f"tools/release/dist.py: bindings/out has no {', '.join(not_built())}: run bindings/build.sh")
    DIST.mkdir(exist_ok=True)
    for file in DIST.iterdir():
        file.unlink()
    record = release_into(DIST)
    RECORD.write_text(json.dumps(record, indent=4) + "\n", encoding="utf-8")
    without = "" if PROGRAM in record["files"] else f", without {PROGRAM}, which bindings/out has not"
    print(f"tools/release/dist.py: dist/ has version {record['version']}{without}")
    return 0


def differing(record):
    """The files that aren't those of the record, and the program where it can't be run."""
    here = {file.name: sum_of(file.read_bytes()) for file in DIST.iterdir() if file != RECORD}
    wrong = [name for name in sorted({*here, *record["files"]}) if here.get(name) != record["files"].get(name)]
    if PROGRAM in here and not os.access(DIST / PROGRAM, os.X_OK):
        wrong.append(PROGRAM)
    return wrong


def built_otherwise(record, again):
    """The files of a release made again that aren't those of the record. The program is named, and may be another."""
    names = [name for name in again["files"] if again["files"][name] != record["files"].get(name)]
    if PROGRAM in names:
        print(f"tools/release/dist.py: bindings/out has another {PROGRAM} than the record")
    return [name for name in names if name != PROGRAM]


def check():
    if not RECORD.is_file():
        print("tools/release/dist.py: dist/ has no release")
        return 1
    record = json.loads(RECORD.read_text(encoding="utf-8"))
    wrong = differing(record)
    of = "other sources or toolchains"
    if not_built():
        of = f"other sources or of these: bindings/out has no {', '.join(not_built())} to make it again"
    else:
        with tempfile.TemporaryDirectory() as folder:
            again = release_into(pathlib.Path(folder))
        if all(again[key] == record[key] for key in ("sources", "toolchains")):
            wrong += built_otherwise(record, again)
            of = "these sources, made again to the byte"
    for name in wrong:
        print(f"tools/release/dist.py: {name} in dist/ is not what it says")
    if not wrong:
        print(f"tools/release/dist.py: dist/ has version {record['version']}, of {of}")
    return min(len(wrong), 1)


def main():
    if sys.argv[1:] not in ([], ["--check"]):
        sys.exit(__doc__)
    return check() if sys.argv[1:] else make()


if __name__ == "__main__":
    sys.exit(main())
