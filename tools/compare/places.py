"""Where tokens stand: what print_places says of texts, with a model, and with how tokens are written in their places."""

from __future__ import annotations

import re
from collections.abc import Iterator
from dataclasses import dataclass, replace

from cases.case import Case, Ended
from cases.maker import CUTS, case_of
from cases.worked import worked_cases
from model.characters import in_name
from model.printed import quoted

from .kinds import Kind
from .planted import PLACES_CHANGES

# How each token is written, and how where the text ends within it.
NAME = "(?P<name>[A-Za-z][^\t\n\f\r />]*)"
CONTENT = "(?!-?>)(?:(?!--!?>).)*"
BOGUS = "<(?:!(?!--)|/(?![A-Za-z>]))[^>]*"
WRITTEN = {
    "start": f"<{NAME}.*>",
    "end": f"</{NAME}.*>",
    "comment": f"<!---?>|<!--{CONTENT}--!?>|{BOGUS}>",
    "pi": r"<\?[^>]*>",
    "doctype": "(?i:<!doctype)[^>]*>",
    "null": "\0",
    "error": ".",
}
CUT_OFF = {"comment": f"<!--{CONTENT}|{BOGUS}", "pi": r"<\?[^>]*", "doctype": "(?i:<!doctype)[^>]*", "error": "", "eof": ""}
PLAIN = re.compile('[^&<\\]\ufeff"\\\\\0-\x1f\x7f]*')


@dataclass(frozen=True)
class Said:
    """A token as it is printed: its places, the run before it as that stands in quotes, and its line."""

    text: int
    begin: int
    end: int
    run: str
    line: str

    @property
    def kind(self) -> str:
        return self.line.partition(" ")[0]


def tokens_of(lines: str) -> list[Said]:
    """The tokens of printed lines."""
    found = []
    for printed in re.split(r"^(?=\d)", lines, flags=re.MULTILINE)[1:]:
        numbers, *rest = printed.split("\n")
        run = rest.pop(0)[len('text "') : -1] if rest[0].startswith("text") else ""
        found.append(Said(*map(int, numbers.split()), run, rest[0]))
    return found


# ---- what stands in a place


def is_written(token: Said, source: bytes) -> bool:
    """Whether the text in the token's place is as such a token is written."""
    text = source[token.begin : token.end].decode(errors="backslashreplace")
    written = re.fullmatch(WRITTEN.get(token.kind, "(?!)"), text, re.DOTALL)
    if written is None:
        cut_off = token.kind in CUT_OFF and re.fullmatch(CUT_OFF[token.kind], text, re.DOTALL)
        return bool(cut_off) and token.end == len(source)
    if token.kind not in ("start", "end"):
        return True
    return token.line.split(" ", 2)[2].startswith(quoted(in_name(written["name"])))


def is_run(token: Said, source: bytes) -> bool:
    """Whether the text in the run's place is the run, where it is plain text."""
    text = source[token.text : token.begin].decode(errors="backslashreplace")
    return not PLAIN.fullmatch(text) or text == token.run


def are_places(tokens: list[Said], source: bytes) -> bool:
    """Whether runs and tokens, errors apart, follow one another from the first byte to the last, as they are written."""
    at = last = 0
    for token in tokens:
        is_error = token.kind == "error"
        follows = token.text == (token.begin if is_error else at) and last <= token.end <= len(source)
        in_order = token.text <= token.begin <= token.end
        if not (follows and in_order and is_run(token, source) and is_written(token, source)):
            return False
        at, last = at if is_error else token.end, token.end
    return at == len(source) and tokens[-1].kind == "eof"


# ---- comparing


def without_foreign(case: Case) -> Case:
    """The case without the word for foreign content, which `PlaceReader` doesn't know."""
    return replace(case, words=tuple(group for group in case.words if group[0] != "--foreign"))


def known_case_of(seed: str, number: int) -> Case:
    return without_foreign(case_of(seed, number))


class Places(Kind):
    """The worked cases, by numbers below 0, and random ones, whole and in each cut."""

    programs, model, changes, maker, cases = ("print_places",), "places", PLACES_CHANGES, known_case_of, 1000
    worked = [case for case, _ in worked_cases() if not case.has("--foreign")]

    def numbers(self, count: int | None) -> range:
        return range(-len(self.worked), super().numbers(count).stop)

    def case(self, number: int) -> Case:
        return self.worked[number] if number < 0 else super().case(number)

    def cuts(self, case: Case, number: int) -> list[Case]:
        return [case, *(case.with_word("--cut", cut) for cut in CUTS)]

    def agrees(self, case: Case, found: Ended, expected: Ended) -> bool:
        return found == expected and (found.status != 0 or are_places(tokens_of(found.lines), case.given))

    def unseen(self, found: list) -> Iterator[str]:
        """The moved places that are taken for right."""
        for case, ended in found:
            if ended.status == 0:
                yield from (f"{case}: moved {token}" for token in taken_for_places(case, ended))


# ---- the test of the tests


def moved(token: Said) -> list[Said]:
    """The token with one of its places a byte further on or back."""
    return [replace(token, **{place: getattr(token, place) + by}) for place in ("text", "begin", "end") for by in (1, -1)]


def taken_for_places(case: Case, ended: Ended) -> list[Said]:
    """The moved places that are none, and are taken for some."""
    tokens, source = tokens_of(ended.lines), case.text.encode()
    others = ((at, other) for at, token in enumerate(tokens) for other in moved(token))
    return [other for at, other in others if are_places([*tokens[:at], other, *tokens[at + 1 :]], source)]
