"""What is compared: cases, the programs that run them, and what should come of each."""

from __future__ import annotations

import argparse
import importlib
import pathlib
import tempfile
from collections.abc import Callable, Iterator

from cases.case import Case, Ended, Words
from cases.checking import check_page_of
from cases.cleaning import clean_case_of
from cases.maker import CUTS, case_of, peer_case_of
from cases.rewriting import rewrite_page_of

from .planted import CHECKING_CHANGES, CLEANING_CHANGES, PROGRAM_CHANGES, REWRITING_CHANGES, load_all
from .running import SKIPPED, command_line, run, run_program, shown


class Kind:
    """A comparison of a program with a model."""

    programs = ("firnuubal",)
    words: tuple[str, ...] = ()  # of the program, before those of a case
    model = ""  # a module of tools/model
    changes = ()  # wrong ones of the model
    maker: Callable[[str, int], Words]
    cases = 5000  # where the words don't say how many
    batch = 50  # cases that a process takes at once
    most = 3  # after so many that differ no more are looked for
    is_made_smaller = True

    def __init__(self, said: argparse.Namespace, paths: list[str]):
        self.seed, self.command = said.seed, [paths[0], *self.words]
        self.judge = said.peer or "the model"
        self.said = f"{said.kind}, seed {said.seed}" + (f", {said.peer}" if said.peer else "")
        self.runs_model = model_of(self.model) if self.model else None

    def numbers(self, count: int | None) -> range:
        return range(self.cases if count is None else count)

    def case(self, number: int) -> Words:
        return type(self).maker(self.seed, number)

    def cuts(self, case: Words, number: int) -> list[Words]:
        """How a case is run: of each way the same is expected."""
        return [case]

    def expected(self, case: Words) -> object:
        """What should come of a case, or `SKIPPED`."""
        return self.runs_model(case)

    def found(self, cases: list[Words]) -> Iterator[object]:
        """What comes of each case."""
        return (run_program(self.command, case) for case in cases)

    def agrees(self, case: Words, found: object, expected: object) -> bool:
        return found == expected

    def differs(self, case: Words) -> bool:
        expected = self.expected(case)
        return expected is not SKIPPED and not self.agrees(case, next(iter(self.found([case]))), expected)

    def difference(self, case: Words) -> str:
        """A case that differs: a command line, what comes of it, and what should."""
        found, expected = next(iter(self.found([case]))), self.expected(case)
        said = f"---- the program\n{shown(found)}---- {self.judge}\n{shown(expected)}"
        return f"{command_line(self.command, case)}\n{said}"

    def seen(self, cases: list[Words]) -> list:
        """What planted changes are looked for in."""
        return list(self.found(cases))

    def planted(self) -> Iterator[tuple[str, Callable[[Words, object], bool]]]:
        """Wrong changes, and whether each is found in a case."""
        for change, module in load_all(self.changes, self.model):
            yield change.name, lambda case, ended, wrong=module: ended_by(wrong, case) != ended

    def unseen(self, found: list) -> Iterator[str]:
        """What should have been found in all cases and was not."""
        yield from ()


def ended_by(module, case: Words) -> Ended:
    return Ended(*module.run(case.flat_words, case.given))


def model_of(name: str) -> Callable[[Words], Ended]:
    module = importlib.import_module(f"model.{name}")
    return lambda case: ended_by(module, case)


class Tokens(Kind):
    """Each text is read whole and in pieces."""

    programs, model, changes, maker = ("html5tok",), "program", PROGRAM_CHANGES, case_of

    def cuts(self, case: Words, number: int) -> list[Words]:
        return [case, case.with_word("--cut", CUTS[number % len(CUTS)])]


class Peer(Tokens):
    """With another tokenizer."""

    model, maker = "", peer_case_of

    def __init__(self, said: argparse.Namespace, paths: list[str]):
        super().__init__(said, paths)
        from .peer import PEERS

        self.peer = PEERS[said.peer]()

    def expected(self, case: Case) -> object:
        return self.peer.expected(case)

    def found(self, cases: list[Words]) -> Iterator[object]:
        return map(self.peer.of_program, super().found(cases))


class Clean(Kind):
    """By policies."""

    words, model, changes, maker = ("clean",), "cleaning", CLEANING_CHANGES, clean_case_of


class Rewrite(Kind):
    """By words that say what is changed."""

    words, model, changes, maker, cases = ("rewrite",), "rewriting", REWRITING_CHANGES, rewrite_page_of, 2000


class Check(Kind):
    """Many pages are files of one run, and a page has the lines that begin with its name."""

    words, model, changes, maker, cases, batch = ("check",), "checking", CHECKING_CHANGES, check_page_of, 2000, 500

    def found(self, cases: list[Words]) -> Iterator[object]:
        with tempfile.TemporaryDirectory() as folder:
            names = [str(number) for number in range(len(cases))]
            for name, case in zip(names, cases):
                (pathlib.Path(folder) / name).write_bytes(case.text.encode())
            ended = run([*self.command, *names], b"", cwd=folder)
        lines = dict.fromkeys(names, "")
        for line in ended.lines.split("\n")[:-1]:
            name, _, rest = line.partition(":")
            lines[name] = lines.get(name, "") + f"-:{rest}\n"
        is_well = not ended.errors and ended.status == int(bool(ended.lines)) and len(lines) == len(names)
        return iter([Ended(int(bool(lines[name])), lines[name], "") if is_well else ended for name in names])
