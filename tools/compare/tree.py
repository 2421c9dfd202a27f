"""Trees of pages: what print_trees prints, with what the definition of tree construction builds."""

from __future__ import annotations

import sys
from collections.abc import Callable, Iterator

from cases.case import Case, Ended
from cases.trees import CHOSEN, tree_case_of
from model import construction, parsing
from model.definitions import Definitions

from .kinds import Kind
from .planted import TREE_CHANGES, Change

PIECES = ("1", "2", "3", "7")


class Tree(Kind):
    """Each page is parsed whole and in pieces."""

    programs, model, maker, cases, batch = ("print_trees",), "parsing", tree_case_of, 1000, 20

    def numbers(self, count: int | None) -> range:
        return range(len(CHOSEN) + super().numbers(count).stop)

    def cuts(self, case: Case, number: int) -> list[Case]:
        return [case, case.with_word("--piece", PIECES[number % len(PIECES)])]

    def planted(self) -> Iterator[tuple[str, Callable[[Case, Ended], bool]]]:
        for change in TREE_CHANGES:
            yield change.name, lambda case, ended, wrong=definition_with(change): built_by(wrong, case) != ended


def definition_with(change: Change) -> Definitions:
    """The definition of tree construction with a change in one of its modules."""
    sources = construction.sources()
    count = sources[change.module].count(change.right)
    if count != 1:
        sys.exit(f"{change.module}.antt: {change.right!r} stands there {count} times, and not once")
    return Definitions([*{**sources, change.module: sources[change.module].replace(change.right, change.wrong)}.values()])


def built_by(definition: Definitions, case: Case) -> Ended:
    return Ended(*parsing.run(case.flat_words, case.given, definition))
