#!/usr/bin/env python3
"""Runs firnuubal and html5tok with one call of the system that fails: a request for memory, a read or a write.

    python3 tools/worked/faults.py [--self-test]

Each request is refused in turn, each read of a byte and each write of a byte fails in turn, until a run has no such call
left; by the standard's table, which asks for memory some two thousand times, many of the requests are. After each is
compared what was printed, what was said and the status, with what was written by hand in tools/worked/faults_rows.py: so a
refusal that is swallowed shows, and a byte that is printed after a failure. Reads and writes of a byte each change
nothing. The programs are those that `rt ci` proved and left in crates/firnuubal/out and crates/html5tok/out. The calls
fail by tools/worked/faults.c, which gcc builds; without gcc, that is said.

By --self-test the same is tried of a small program, tools/worked/faults_planted.c, with a mistake in each run. Each must be
found, and nothing where there is no mistake. Each run that differs is said, and then the status is 1.
"""

import mmap
import pathlib
import shutil
import struct
import subprocess
import sys
import tempfile
from typing import NamedTuple

import commands
import faults_rows

TOOLS = pathlib.Path(__file__).resolve().parent
KINDS = struct.Struct("=5Q")


class Faults(NamedTuple):
    """What fails in a run, as tools/worked/faults.c says."""

    memory: int = 0
    read: int = 0
    write: int = 0
    say: int = 0
    error: int = 0
    give: int = 0
    take: int = 0


class Ran(NamedTuple):
    """How a run went, how many requests for memory it made, and how many calls failed."""

    printed: str
    said: str
    status: int
    requests: int
    failed: int


class Bench:
    """A folder with the files that the programs read, and with the library by which calls fail."""

    def __init__(self, folder):
        self.folder = folder
        self.programs = commands.PROGRAMS
        self.seconds = 20
        self.runs = 0
        for name, content in faults_rows.FILES.items():
            (folder / name).write_bytes(content)
        self.built("faults.c", "faults.so", "-shared", "-fPIC")
        (folder / "counts").write_bytes(bytes(KINDS.size))
        with open(folder / "counts", "r+b") as counts:
            self.counts = mmap.mmap(counts.fileno(), KINDS.size)

    def built(self, source, name, *words):
        """Builds a file in C."""
        given = ["gcc", "-O2", "-Wall", "-Wextra", "-Werror", *words, TOOLS / source, "-o", self.folder / name]
        subprocess.run(given, check=True)
        return self.folder / name

    def ran(self, row, faults):
        """Runs a row's program with what fails. A run that doesn't end has no status."""
        self.runs += 1
        self.counts[:] = bytes(KINDS.size)
        (self.folder / "stdin").write_bytes(row.given)
        environment = {
            "LD_PRELOAD": str(self.folder / "faults.so"),
            "FAULTS": ",".join(map(str, faults)),
            "FAULTS_COUNTS": str(self.folder / "counts"),
        }
        program, *words = row.words
        with open(self.folder / "stdin", "rb") as given:
            how = {"cwd": self.folder, "env": environment, "stdin": given, "capture_output": True}
            try:
                ended = subprocess.run([self.programs[program], *words], check=False, timeout=self.seconds, **how)
            except subprocess.TimeoutExpired:
                return Ran("", "", None, 0, 1)
        requests, _, _, _, failed = KINDS.unpack(self.counts)
        told = [bytes_told.decode(errors="replace") for bytes_told in (ended.stdout, ended.stderr)]
        return Ran(*told, ended.returncode, requests, failed)


def is_whole(row, ran):
    """Whether a run went as if nothing had failed."""
    return ran[:3] == (row.printed, row.said, row.status)


def is_end(end, ran):
    """Whether a run ended so, with a prefix of what the end says is cut, and with the text around it."""
    rest = len(ran.printed) - len(end.after)
    cut = ran.printed[len(end.before) : rest]
    return (ran.said, ran.status) == (end.said, end.status) and (
        ran.printed == end.before + cut + end.after and end.cut.startswith(cut)
    )


def told(row, faults, ran):
    """What differs of a run, in a line."""
    fails = " ".join(f"{name} {value}" for name, value in faults._asdict().items() if value)
    return f"{' '.join(row.words)}: {fails}: printed {ran.printed[-300:]!r}, said {ran.said!r}, status {ran.status}"


def places(total, stride):
    """The requests that are refused, of so many: each, or with a stride the first, some between and the last."""
    return [place for place in range(1, total + 1) if place < 100 or total - 300 < place or place % stride == 0]


def refuse_each(bench, row):
    """Refuses each request for memory in turn. Each of the row's ends has to come."""
    first = bench.ran(row, Faults())
    if not is_whole(row, first) or first.requests < row.requests:
        yield f"{told(row, Faults(), first)}, {first.requests} requests"
        return
    missing = set(row.ends)
    for place in places(first.requests, row.stride):
        ran = bench.ran(row, Faults(memory=place))
        found = [end for end in row.ends if is_end(end, ran)]
        missing -= set(found)
        if ran.failed != 1 or not (found or is_whole(row, ran)):
            yield told(row, Faults(memory=place), ran)
    for end in missing:
        yield f"{' '.join(row.words)}: no refused request is answered by {end!r}"
    last = bench.ran(row, Faults(memory=first.requests + 1))
    if last.failed or not is_whole(row, last):
        yield told(row, Faults(memory=first.requests + 1), last)


def fail_each_read(bench, row):
    """Lets each read of a byte fail in turn: one for each byte, and those that find the end, or none."""
    reads = len(row.given) + 1 if row.failing else 0
    for place in range(1, reads + 2):
        faults = Faults(read=place, error=row.error, give=1)
        ran = bench.ran(row, faults)
        ends = [ending[1:] for ending in row.failing if ending.reads < place <= reads]
        wanted = ends[-1] if ends else (row.printed, row.said, row.status)
        if ran[:3] != wanted or ran.failed != (place <= reads):
            yield told(row, faults, ran)


def fail_each_write(bench, row):
    """Lets each write of a byte fail in turn, in each way. What was written before it stays, and nothing comes after it."""
    size = len(row.printed.encode())
    for error, said, status in row.refusals:
        for place in row.writes or range(1, size + 1):
            faults = Faults(write=place, error=error, take=1)
            ran = bench.ran(row, faults)
            beginning = row.printed.encode()[: place - 1].decode(errors="replace")
            if ran[:3] != (beginning, said, status) or ran.failed != 1:
                yield told(row, faults, ran)
        ran = bench.ran(row, Faults(write=size + 1, error=error, take=1))
        if ran.failed or not is_whole(row, ran):
            yield told(row, Faults(write=size + 1, error=error, take=1), ran)


def fail_to_say(bench, row):
    """Lets the fourth write of a byte to standard error fail: three bytes were said, and the status is the same."""
    for error in (faults_rows.NOTHING, faults_rows.FAILED):
        faults = Faults(say=4, error=error, take=1)
        ran = bench.ran(row, faults)
        if ran[:3] != (row.printed, row.said[:3], row.status) or ran.failed != (len(row.said) > 3):
            yield told(row, faults, ran)


def move_little(bench, row):
    """Reads and writes a few bytes at once, which changes nothing."""
    for size in (1, 2, 3):
        faults = Faults(give=size, take=size)
        ran = bench.ran(row, faults)
        if not is_whole(row, ran):
            yield told(row, faults, ran)


SWEEPS = {
    refuse_each: faults_rows.refused,
    fail_each_read: faults_rows.failing_reads,
    fail_each_write: faults_rows.failing_writes,
    fail_to_say: faults_rows.unsaid,
    move_little: faults_rows.in_pieces,
}


def differing(bench):
    """What differs, of all rows."""
    return [answer for sweep, rows in SWEEPS.items() for row in rows() for answer in sweep(bench, row)]


def not_found(bench):
    """The planted mistakes that are not found, and what is found without one."""
    bench.programs = {"planted": bench.built("faults_planted.c", "planted")}
    for sweep in SWEEPS:
        yield from sweep(bench, faults_rows.planted("none"))
    bench.seconds = 2
    sweeps = {sweep.__name__: sweep for sweep in SWEEPS}
    for mistake, name in faults_rows.MISTAKES.items():
        found = next(sweeps[name](bench, faults_rows.planted(mistake)), None)
        yield from [] if found else [f"a program that {mistake}: {name} finds nothing"]


def main():
    if not shutil.which("gcc"):
        print("tools/worked/faults.py: there is no gcc here, so calls that fail are left out")
        return 0
    with tempfile.TemporaryDirectory() as name:
        bench = Bench(pathlib.Path(name))
        faults = list(not_found(bench)) if "--self-test" in sys.argv else differing(bench)
    for answer in faults:
        print(f"tools/worked/faults.py: {answer}")
    print(f"tools/worked/faults.py: {bench.runs} runs, {len(faults)} otherwise")
    return 1 if faults else 0


if __name__ == "__main__":
    sys.exit(main())
