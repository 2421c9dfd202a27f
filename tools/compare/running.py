"""Runs a program on a case, and says how a case and what comes of it are shown."""

from __future__ import annotations

import shlex
import subprocess

from cases.case import Ended, Words
from cases.maker import standard_table

# what is expected of a case of which nothing is said
SKIPPED = object()
SECONDS = 60


def run(command: list[str], given: bytes, **how) -> Ended:
    try:
        ran = subprocess.run(command, input=given, capture_output=True, timeout=SECONDS, check=False, **how)
    except subprocess.TimeoutExpired:
        return Ended(None, "", f"not ended after {SECONDS} seconds\n")
    return Ended(ran.returncode, ran.stdout.decode(errors="replace"), ran.stderr.decode(errors="replace"))


def run_program(program: list[str], case: Words) -> Ended:
    return run([*program, *case.flat_words], case.text.encode())


def printf_format(text: str) -> str:
    """The text as a format of the shell's `printf`."""
    plain = {byte: chr(byte) for byte in range(0x20, 0x7F) if chr(byte) not in "\\%'"}
    return "".join(plain.get(byte, f"\\{byte:03o}") for byte in text.encode())


def shell_word(word: str) -> str:
    return '"$(python3 tools/gen/entities.py)"' if word == standard_table() else shlex.quote(word)


def command_line(program: list[str], case: Words) -> str:
    return f"printf -- '{printf_format(case.text)}' | {' '.join(map(shell_word, [*program, *case.flat_words]))}"


def shown(answer: object) -> str:
    if isinstance(answer, Ended):
        printed = answer.lines + answer.errors
        line_end = "" if printed.endswith("\n") else "\n"
        return printed + line_end + ("" if answer.status == 0 else f"status {answer.status}\n")
    return "".join(f"{event}\n" for event in answer)
