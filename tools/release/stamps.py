#!/usr/bin/env python3
"""Lets `rt lib` take the libraries that `rt ci` proved, and no others.

    python3 tools/release/stamps.py rt ci
    python3 tools/release/stamps.py

`rt ci` leaves the library of each crate in its out/, without the stamp by which rt knows what a library was made of.
So `rt lib`, which bindings/check.sh calls after it, would prove all of them once more.

With the words `rt ci` this runs that command. If it passes, out/proved.json says what it proved: by which toolchain,
and of each crate a sum of its files, of its line of crates.txt and of the crates below it, and a sum of its library. A
crate whose files changed meanwhile is not named. out/dearest has the ten crates that cost the most processor. Then, and
with no words, it writes the stamps that are missing, by the toolchain's own function: that of each library which is the
one that the record names, where the files still are those that were proved. Each that is refused is said in a line, and
then the status is 1.

Where the toolchain has no such function it writes no stamps, and all is proved again, in some half an hour.
"""

import collections
import contextlib
import functools
import hashlib
import importlib.machinery
import importlib.util
import json
import os
import pathlib
import subprocess
import sys

TOP = pathlib.Path(__file__).resolve().parents[2]
RECORD = TOP / "out" / "proved.json"
DEAREST = TOP / "out" / "dearest"
SECONDS = 2  # between two looks at what runs


def said(*words):
    """What a command of the toolchain prints."""
    return subprocess.run(["rt", *words], capture_output=True, text=True, check=True).stdout.strip()


def toolchain():
    """The module of the toolchain that knows crates and their stamps."""
    loader = importlib.machinery.SourceFileLoader("rtlib", str(pathlib.Path(said("doc")).parent / "bin" / "rtlib.py"))
    module = importlib.util.module_from_spec(importlib.util.spec_from_loader("rtlib", loader))
    loader.exec_module(module)
    return module


def stamps_of(crates):
    """The stamp of each of these crates, by its name. A stamp is made from those of the crates below, each of which is asked
    once, and not once for each way that leads to it."""
    for kind in {type(it) for it in crates}:
        kind.stamp = functools.lru_cache(maxsize=None)(kind.stamp)
    return {it.name: it.stamp() for it in crates}


def sum_of(words, folder, files):
    """A sum of these words, and of these files with their places in a folder."""
    found = hashlib.sha256(repr(words).encode())
    for file in files:
        text = file.read_bytes()
        found.update(f"{file.relative_to(folder)} {len(text)} ".encode())
        found.update(text)
    return found.hexdigest()


def files_in(*folders):
    """The files in these folders and below them, in a fixed order."""
    return sorted(file for folder in folders for file in folder.rglob("*") if file.is_file())


def library_of(name):
    """The library of a crate: a folder, which need not be there."""
    return TOP / "crates" / name / "out" / "rlib" / f"{name}.rlib"


def has_stamp(name):
    return (library_of(name).parent / "stamp").exists()


def sum_of_library(name):
    """A sum of a library's files, or none where there is no library."""
    files = files_in(library_of(name))
    return sum_of(name, TOP, files) if files else None


def lines():
    """The line of each crate in crates.txt: all its words, and those that name what is below it."""
    listed = [line.partition("#")[0] for line in (TOP / "crates.txt").read_text(encoding="utf-8").split("\n")]
    return {line.partition(":")[0].split()[0]: (line.split(), line.partition(":")[2].split()) for line in listed if line.strip()}


def sums():
    """A sum of each crate's files, its line and HANDLES, with those of the crates below it."""
    listed, found = lines(), {}
    handles = (TOP / "HANDLES").read_bytes() if (TOP / "HANDLES").exists() else b""

    def found_of(name):
        if name not in found:
            words, below = listed[name]
            folder = TOP / "crates" / name
            files = files_in(*(folder / part for part in ("src", "specs", "proofs")))
            found[name] = sum_of((handles, words, [found_of(it) for it in below if it in listed]), folder, files)
        return found[name]

    return {name: found_of(name) for name in listed}


def unstamped():
    """Each library that lies there without a stamp, and when its files were written: `rt ci` may put it back as it was."""
    names = [name for name in lines() if library_of(name).exists() and not has_stamp(name)]
    return {name: [file.stat().st_mtime_ns for file in files_in(library_of(name))] for name in names}


def took(began, ended):
    """What passed between two times, of the clock and of the processors that ran this script's children."""
    clock = ended.elapsed - began.elapsed
    processor = (ended.children_user - began.children_user) + (ended.children_system - began.children_system)
    return f"{clock / 60:.1f} minutes by the clock and {processor / 60:.1f} of processor"


def working():
    """Each process that works in the folder of a crate: its number and start, that crate, and its seconds of processor."""
    for number in filter(str.isdigit, os.listdir("/proc") if os.path.isdir("/proc/self") else ()):
        # (it may end meanwhile, or be another user's)
        with contextlib.suppress(OSError):
            path = pathlib.Path(os.readlink(f"/proc/{number}/cwd"))
            said = pathlib.Path(f"/proc/{number}/stat").read_text(errors="replace").rpartition(")")[2].split()
            if path.parts[: len(TOP.parts) + 1] == (*TOP.parts, "crates") and path != TOP / "crates":
                name = path.relative_to(TOP / "crates").parts[0]
                yield (number, said[19]), (name, (int(said[11]) + int(said[12])) / os.sysconf("SC_CLK_TCK"))


def run_watched(*words):
    """The status of a command, and the ten crates that cost the most processor. What a process does after the last look at
    it is missed."""
    seen, totals = {}, collections.Counter()
    with subprocess.Popen(words) as process:
        while process.poll() is None:
            with contextlib.suppress(subprocess.TimeoutExpired):
                process.wait(SECONDS)
            seen.update(working())
    for name, seconds in seen.values():
        totals[name] += seconds
    return process.returncode, totals.most_common(10)


def prove():
    """Runs `rt ci` and leaves the record of what it proved. Answers its status, or else how many crates changed."""
    RECORD.unlink(missing_ok=True)
    DEAREST.unlink(missing_ok=True)
    before, lay_there = sums(), unstamped()
    began = os.times()
    status, dearest = run_watched("rt", "ci")
    print(f"tools/release/stamps.py: rt ci took {took(began, os.times())}", flush=True)
    if status:
        return status
    DEAREST.parent.mkdir(exist_ok=True)
    DEAREST.write_text("".join(f"{seconds / 60:16.1f}  {name}\n" for name, seconds in dearest), encoding="utf-8")
    after, lie_there = sums(), unstamped()
    made = [name for name, written in lie_there.items() if written != lay_there.get(name)]
    changed = [name for name in after if after[name] != before.get(name)]
    proved = {
        name: {"files": files, "library": sum_of_library(name) if name in made else None}
        for name, files in after.items()
        if name not in changed
    }
    RECORD.write_text(json.dumps({"toolchain": said("version"), "crates": proved}, indent=1), encoding="utf-8")
    for name in changed:
        print(f"tools/release/stamps.py: {name}: its files, or those of a crate below it, changed while rt ci ran")
    return len(changed)


def refusal(name, files, record):
    """Why the library of a crate with these files gets no stamp by the record, or an empty text."""
    proved = record.get("crates", {}).get(name)
    if not proved:
        return "out/proved.json does not name it: run python3 tools/release/stamps.py rt ci"
    if record["toolchain"] != said("version"):
        return "another toolchain proved it"
    if proved["files"] != files:
        return "its files, or those of a crate below it, changed since rt ci proved them"
    return "" if proved["library"] == sum_of_library(name) else "it is not the library that rt ci made: remove its out/rlib"


def write_stamps():
    """Writes the stamp of each library that has none and that the record names, and answers how many it refused."""
    record = json.loads(RECORD.read_text(encoding="utf-8")) if RECORD.exists() else {}
    wanted = unstamped()
    # The stamps come first: they are of no later files than those whose sums are looked at.
    stamps = stamps_of([it for it in toolchain().crates_below(str(TOP)) if it.name in wanted])
    files = sums()
    reasons = {name: refusal(name, files[name], record) for name in stamps}
    for name, why in reasons.items():
        if why:
            print(f"tools/release/stamps.py: {name}: no stamp: {why}")
        else:
            (library_of(name).parent / "stamp").write_text(stamps[name], encoding="utf-8")
    refused = len([why for why in reasons.values() if why])
    print(f"tools/release/stamps.py: {len(reasons) - refused} stamps written, {refused} refused")
    return refused


def main():
    sys.dont_write_bytecode = True
    if sys.argv[1:] not in ([], ["rt", "ci"]):
        sys.exit(__doc__)
    os.chdir(TOP)
    if sys.argv[1:] and prove():
        return 1
    try:
        return min(write_stamps(), 1)
    except (AttributeError, OSError, subprocess.CalledProcessError) as error:
        print(f"tools/release/stamps.py: no stamps: {error}")
        return 0


if __name__ == "__main__":
    sys.exit(main())
