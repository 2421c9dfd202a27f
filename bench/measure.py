"""Runs of a program: the time that it takes, its peak of memory, and what it prints beside another."""

import collections
import filecmp
import os
import pathlib
import subprocess
import sys


PART = 65_536  # bytes of output that are read at once


def check_status(process, status):
    """Ends the script where a program failed. The command `check` ends with 1 where it found something."""
    process.returncode = os.waitstatus_to_exitcode(status)
    if process.returncode > (list(process.args)[1:2] == ["check"]) or process.returncode < 0:
        sys.exit(f"{' '.join(map(str, process.args))} ended with status {process.returncode}")


def processor_seconds(program, words, corpus):
    """User and system time of one run, with its output thrown away."""
    with open(corpus, "rb") as source:
        process = subprocess.Popen([program, *words], stdin=source, stdout=subprocess.DEVNULL)
        _, status, usage = os.wait4(process.pid, 0)
    check_status(process, status)
    return usage.ru_utime + usage.ru_stime


def best_times(turns, runs):
    """The best time of each turn, a program with its words and its corpus, where they are run one after another."""
    rounds = [[processor_seconds(*turn) for turn in turns] for _ in range(runs)]
    return [min(times) for times in zip(*rounds)]


def high_water(process):
    """The most memory that a running process had so far, in bytes."""
    for line in pathlib.Path(f"/proc/{process.pid}/status").read_text().splitlines():
        if line.startswith("VmHWM:"):
            return int(line.split()[1]) * 1024
    return 0


def print_to(program, words, corpus, target):
    """Keeps what a program prints; answers its peak of memory, which is read after each part of that.

    What wait4 tells of the peak would count this script's own memory. The pipe is small, so that the program is still
    at its last lines when the peak is read last.
    """
    with open(corpus, "rb") as source, open(target, "wb") as output:
        process = subprocess.Popen(
            [program, *words], stdin=source, stdout=subprocess.PIPE, bufsize=0, pipesize=4096
        )
        with process.stdout:
            peak = 0
            while part := process.stdout.read(PART):
                output.write(part)
                peak = max(peak, high_water(process))
        _, status, _ = os.wait4(process.pid, 0)
    check_status(process, status)
    return peak


def without_message(line):
    """A printed line, without the text of an error."""
    if line.startswith(b"error "):
        return b" ".join(line.split(b" ", 2)[:2])
    return line


def lines_apart(first, second, kept):
    """How many lines, of those that are kept of each, one output has and the other hasn't."""
    counts = collections.Counter()
    with open(first, "rb") as lines:
        counts.update(map(kept, lines))
    with open(second, "rb") as lines:
        counts.subtract(map(kept, lines))
    more = sum(count for count in counts.values() if count > 0)
    fewer = sum(-count for count in counts.values() if count < 0)
    return max(more, fewer)


def difference(first, second):
    """In words how many lines of two outputs differ, and how many of those in more than an error's text."""
    if filecmp.cmp(first, second, shallow=False):
        return "0"
    lines = lines_apart(first, second, lambda line: line)
    if lines == 0:
        return "order"
    return f"{lines:,} ({lines_apart(first, second, without_message):,})"
