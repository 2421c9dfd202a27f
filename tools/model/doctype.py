"""Doctypes: docs/GRAMMAR.md, "One doctype as source text" and "Doctypes"."""

from __future__ import annotations

import re

from .characters import in_name, in_value, lower_case
from .messages import Doctype, Told
from .reading import DATA, Item, Reading

SPACE = re.compile("[\t\n\f ]*")
DOCTYPE_NAME = re.compile("[^\t\n\f >]*")
QUOTES = {'"': "DoubleQuoted", "'": "SingleQuoted"}
# the states that errors name where an identifier can stand: directly after what is before it, and after white space
AFTER_PUBLIC = ("AfterDoctypeKeyword(Public)", "BeforeDoctypeIdentifier(Public)")
AFTER_SYSTEM = ("AfterDoctypeKeyword(System)", "BeforeDoctypeIdentifier(System)")
BETWEEN = ("AfterDoctypeIdentifier(Public)", "BetweenDoctypePublicAndSystemIdentifiers")


def begins_keyword(held: str) -> bool:
    return "public".startswith(lower_case(held)) or "system".startswith(lower_case(held))


class WrittenDoctype:
    """A doctype, read from after its word up to its `>`, or to the end, with what its places tell.
    `wanted` is the state that the error of the end names, and nothing where a rest is skipped."""

    def __init__(self, reading: Reading, start: int):
        self.reading = reading
        self.told: Told = []
        self.name: str | None = None
        self.identifiers: dict[str, str | None] = {"Public": None, "System": None}
        self.quirks = False
        self.wanted: str | None = "Doctype"
        found = reading.find(">", start)
        self.is_closed = found is not None
        self.stop = reading.end if found is None else found
        self.read_name(start)

    def doctype(self, quirks: bool) -> Doctype:
        return Doctype(self.name, self.identifiers["Public"], self.identifiers["System"], quirks)

    def after_space(self, at: int) -> int:
        return at + len(self.reading.run(SPACE, at))

    def read_name(self, start: int):
        at = self.after_space(start)
        self.wanted = "Doctype" if at == start else "BeforeDoctypeName"
        if at == self.stop:
            self.not_given("BeforeDoctypeName")
            return
        if at == start:
            self.told += self.reading.saw(at, "Doctype")
        self.told += self.reading.nuls(at, at + 1, "BeforeDoctypeName")
        name = self.reading.run(DOCTYPE_NAME, at)
        self.name = in_name(name)
        self.told += self.reading.nuls(at + 1, at + len(name), "DoctypeName")
        self.read_after_name(at + len(name))

    def read_after_name(self, start: int):
        at = self.after_space(start)
        self.wanted = "DoctypeName" if at == start else "AfterDoctypeName"
        keyword = lower_case(self.reading.text[at : min(at + 6, self.stop)])
        if keyword == "public":
            self.read_identifier("Public", at + 6, AFTER_PUBLIC)
        elif keyword == "system":
            self.read_identifier("System", at + 6, AFTER_SYSTEM)
        elif at < self.stop:
            self.skip(at, "AfterDoctypeName", quirks=True, decided=self.reading.after_longest(at, begins_keyword))

    def read_identifier(self, kind: str, start: int, states: tuple[str, str]):
        """Reads what comes at the place of an identifier. After a keyword one has to."""
        at = self.after_space(start)
        self.wanted = states[0] if at == start else states[1]
        if at == self.stop:
            if states != BETWEEN:
                self.not_given(self.wanted)
        elif self.reading.text[at] not in QUOTES:
            self.skip(at, self.wanted, quirks=True)
        else:
            if at == start:
                self.told += self.reading.saw(at, self.wanted)
            self.read_quoted(kind, at + 1, self.reading.text[at])

    def read_quoted(self, kind: str, start: int, quote: str):
        """Reads an identifier up to its quote, or to the `>` that cuts it off."""
        state = f"DoctypeIdentifier{QUOTES[quote]}({kind})"
        found = self.reading.text.find(quote, start, self.stop)
        stop = self.stop if found < 0 else found
        self.told += self.reading.nuls(start, stop, state)
        self.identifiers[kind] = in_value(self.reading.text[start:stop])
        if found < 0:
            self.wanted = state
            self.not_given(state)
        elif kind == "Public":
            self.read_identifier("System", stop + 1, BETWEEN)
        else:
            self.read_end(self.after_space(stop + 1))

    def read_end(self, at: int):
        """Reads what comes after the identifier of the system and white space."""
        self.wanted = "AfterDoctypeIdentifier(System)"
        if at < self.stop:
            self.skip(at, self.wanted, quirks=False)

    def not_given(self, state: str):
        """The `>` stands where something else is wanted."""
        if self.is_closed:
            self.told += self.reading.saw(self.stop, state)
            self.quirks = True

    def skip(self, at: int, state: str, quirks: bool, decided: int | None = None):
        """Skips a rest, whose first character is an error."""
        self.told += self.reading.saw(at, state, decided) + self.reading.nuls(at, self.stop, "BogusDoctype")
        self.quirks = quirks
        self.wanted = None


def doctype_item(reading: Reading, start: int) -> Item:
    written = WrittenDoctype(reading, start)
    if written.is_closed:
        return Item(written.stop + 1, written.told + [(written.stop, written.doctype(written.quirks))], DATA)
    if written.wanted is None:
        return Item(reading.end, written.told + [(reading.end, written.doctype(written.quirks))], None)
    told = written.told + reading.saw_end(written.wanted)
    return Item(reading.end, told + [(reading.end, written.doctype(quirks=True))], None)
