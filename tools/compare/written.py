"""Pages written back by their tokens: what html5tok reads of a page, with what it reads of that page written back.

The lines are the same but for errors, numbers of lines, where a text is cut, and the mark of an attribute that was left
out. Half of the random texts, and each page of a folder once more, are written and read as where scripting is enabled.
html5tok knows no scripting, so it is given `noembed`, which always has raw text, for each `noscript`. A page in which
`noembed` stands is not read so. Half of both halves, and the pages that are read so, have characters escaped by name.
"""

from __future__ import annotations

import argparse
import pathlib
import re
from collections.abc import Callable, Iterator

from cases.case import Case, Ended
from cases.maker import peer_case_of, standard_table

from .kinds import Kind
from .running import SKIPPED, run_program

# What becomes `noscript` in random texts that are read with scripting, and what is one name in their lines.
NOEMBED, NOSCRIPT = re.compile("(?ai)noembed|noframes|style|xmp"), re.compile("(?ai)noscript|noembed")
QUOTED = re.compile(r'"((?:[^"\\]|\\.)*)"')
# What a faulty writer would write in place of what stands there.
FAULTS = {
    "a script is escaped": ("<script><", "<script>&#60;"),
    "a noscript is escaped": ("<noscript><", "<noscript>&#60;"),
    "a title is not escaped": ("&#60;", "<"),
    "an ampersand is not escaped": ("&#38;", "&"),
    "an ampersand is not escaped by name": ("&amp;", "&"),
    "a name is another": ("&nbsp;", " "),
    "a quote is not escaped": ("&#34;", '"'),
    "a quote is not escaped by name": ("&quot;", '"'),
    "a carriage return is not escaped": ("&#13;", "\r"),
    "a byte order mark is not escaped": ("&#65279;", "\ufeff"),
    "a NUL is left out": ("\0", ""),
    "a comment ends early": ("-->", "--> -->"),
    "a value has no quotes": ('="', "="),
    "an end tag loses its attributes": (re.compile(r"(</[a-z]+) [^>]*>"), r"\1>"),
    "a doctype has no quirks": (re.compile(r"<!DOCTYPE[^>]*>"), "<!DOCTYPE html>"),
    "a tag does not close itself": ("/>", ">"),
}
# How a text is written, and read.
SCRIPTING, NAMES = ("--scripting",), ("--names",)
WAYS = (), (SCRIPTING,), (NAMES,), (SCRIPTING, NAMES)
# Texts in which each escape is needed, and one in which it is not.
ESCAPED = ("<title>&lt;/title x</title>", "a&amp;lt;b&#13;c", "<p title='&quot; x'>", "&#65279;a", "\0a")
ESCAPED += ("<noscript><p title=a>&lt;</p></noscript>&lt;", "&nbsp;")
CHOSEN = [Case(words, text) for text in ESCAPED for words in WAYS]


def case_of(seed: str, number: int) -> Case:
    """The text of that number: those that are chosen, and then random ones."""
    if number < len(CHOSEN):
        return CHOSEN[number]
    words, text = WAYS[number % len(WAYS)], peer_case_of(f"{seed} written", number - len(CHOSEN)).text
    return Case(words, NOEMBED.sub("noscript", text) if SCRIPTING in words else text)


def lines_of(printed: str) -> list[str]:
    """Printed lines, without what is not compared."""
    lines = []
    for line in printed.split("\n"):
        word = line.split(" ", 1)[0]
        if word == "error":
            continue
        if word == "text" and lines and lines[-1].startswith("text "):
            lines[-1] = lines[-1][:-1] + QUOTED.search(line)[1] + '"'
            continue
        lines.append(re.sub(" duplicates$", "", re.sub("^([a-z]+) [0-9]+", r"\1", line)))
    return lines


class Written(Kind):
    """Random texts."""

    programs, maker, cases = ("write_back", "html5tok"), case_of, 1000

    def __init__(self, said: argparse.Namespace, paths: list[str]):
        super().__init__(said, paths)
        self.judge, self.reader = "of the text itself", [paths[1], "--table", standard_table()]

    def numbers(self, count: int | None) -> range:
        return range(len(CHOSEN) + super().numbers(count).stop)

    def read(self, case: Case, text: str) -> Ended:
        """How html5tok ends over a text that is written in the way of a case, with what is compared of its lines."""
        is_scripted = SCRIPTING in case.words
        ended = run_program(self.reader, Case((), NOSCRIPT.sub("noembed", text) if is_scripted else text))
        lines = "\n".join(lines_of(ended.lines))
        return Ended(ended.status, NOSCRIPT.sub("noscript", lines) if is_scripted else lines, ended.errors)

    def expected(self, case: Case) -> Ended:
        return self.read(case, case.text)

    def found(self, cases: list[Case]) -> Iterator[Ended]:
        for case in cases:
            written = run_program(self.command, case)
            yield written if written.status or written.errors else self.read(case, written.lines)

    def agrees(self, case: Case, found: Ended, expected: Ended) -> bool:
        return found == expected and (found.status, found.errors) == (0, "")

    def seen(self, cases: list[Case]) -> list:
        return [(run_program(self.command, case).lines, self.expected(case)) for case in cases]

    def planted(self) -> Iterator[tuple[str, Callable]]:
        for name, fault in FAULTS.items():
            yield name, lambda case, seen, fault=fault: self.is_found(fault, case, *seen)

    def is_found(self, fault: tuple, case: Case, written: str, expected: Ended) -> bool:
        """Whether a page that is written with a fault is read otherwise."""
        old, new = fault
        wrong = written.replace(old, new) if isinstance(old, str) else old.sub(new, written)
        return wrong != written and self.read(case, wrong) != expected


class Pages(Written):
    """The pages of a folder that are UTF-8, each in two ways. All that differ are shown, by their first lines that do."""

    batch, most, is_made_smaller = 1, float("inf"), False

    def __init__(self, said: argparse.Namespace, paths: list[str]):
        super().__init__(said, paths)
        self.files = list(filter(is_utf8, sorted(said.folder.rglob("*.html"))[: said.cases]))

    def numbers(self, count: int | None) -> range:
        return range(2 * len(self.files))

    def case(self, number: int) -> Case:
        return Case((WAYS[0], WAYS[3])[number % 2], self.files[number // 2].read_bytes().decode())

    def expected(self, case: Case) -> object:
        is_unread = SCRIPTING in case.words and "noembed" in case.text.lower()
        return SKIPPED if is_unread else super().expected(case)

    def difference(self, case: Case) -> str:
        lines = [ended.lines.split("\n") for ended in (self.expected(case), *self.found([case]))]
        first = next((pair for pair in zip(*lines) if pair[0] != pair[1]), [it[-1:] for it in lines])
        return f"{' '.join(case.flat_words)}: {case.text[:200]!r}: {first}"


def is_utf8(file: pathlib.Path) -> bool:
    try:
        file.read_bytes().decode()
        return True
    except UnicodeDecodeError:
        return False
