"""Tags: docs/GRAMMAR.md, "One tag as source text" and "Tags"."""

from __future__ import annotations

import enum
import re

from .characters import WHITE_SPACE, in_name, in_value
from .messages import Error, Tag, Told
from .reading import Item, Reading
from .reference import Found, found_in
from .replies import mode_after

TAG_NAME = re.compile("[^\t\n\f />]*")
ATTRIBUTE_NAME = re.compile("[^\t\n\f />][^\t\n\f />=]*")
EQUALS_SIGN = re.compile("[\t\n\f ]*=[\t\n\f ]*")
BARE_VALUE = re.compile("[^\t\n\f >]*")


class Place(enum.Enum):
    """A place in a tag."""

    IN_NAME = enum.auto()
    BEFORE_ATTRIBUTE = enum.auto()
    IN_ATTRIBUTE_NAME = enum.auto()
    AFTER_ATTRIBUTE_NAME = enum.auto()
    BEFORE_VALUE = enum.auto()
    IN_DOUBLE_QUOTED = enum.auto()
    IN_SINGLE_QUOTED = enum.auto()
    IN_UNQUOTED = enum.auto()
    AFTER_QUOTED_VALUE = enum.auto()
    AFTER_SOLIDUS = enum.auto()


# the state that an error names at a place
STATE_AT = {
    Place.IN_NAME: "TagName",
    Place.BEFORE_ATTRIBUTE: "BeforeAttributeName",
    Place.IN_ATTRIBUTE_NAME: "AttributeName",
    Place.AFTER_ATTRIBUTE_NAME: "AfterAttributeName",
    Place.BEFORE_VALUE: "AttributeValue(Unquoted)",
    Place.IN_DOUBLE_QUOTED: "AttributeValue(DoubleQuoted)",
    Place.IN_SINGLE_QUOTED: "AttributeValue(SingleQuoted)",
    Place.IN_UNQUOTED: "AttributeValue(Unquoted)",
    Place.AFTER_QUOTED_VALUE: "AfterAttributeValueQuoted",
    Place.AFTER_SOLIDUS: "SelfClosingStartTag",
}


class WrittenTag:
    """A tag, read part by part, with what its places tell."""

    def __init__(self, reading: Reading, start: int):
        self.reading = reading
        self.is_end = reading.stands_at(start, "</")
        first = start + (2 if self.is_end else 1)
        name = reading.run(TAG_NAME, first)
        self.name = in_name(name)
        self.told = reading.nuls(first, first + len(name), STATE_AT[Place.IN_NAME])
        self.attributes: list[tuple[str, str]] = []
        self.place = Place.IN_NAME
        self.at_end: Told = []
        self.stop = self.read_parts(first + len(name))

    def read_parts(self, at: int) -> int:
        """Reads up to the `>` of the tag, or to the end, and answers where that is."""
        while at < self.reading.end and self.reading.text[at] != ">":
            self.told += self.place_error(at)
            c = self.reading.text[at]
            if c in WHITE_SPACE:
                after_name = self.place in (Place.IN_ATTRIBUTE_NAME, Place.AFTER_ATTRIBUTE_NAME)
                self.place = Place.AFTER_ATTRIBUTE_NAME if after_name else Place.BEFORE_ATTRIBUTE
                at += 1
            elif c == "/":
                self.place = Place.AFTER_SOLIDUS
                at += 1
            else:
                at = self.read_attribute(at)
        return at

    def place_error(self, at: int) -> Told:
        """The error of a character that its place doesn't expect. The `>` is no such character."""
        c = self.reading.text[at]
        if self.place == Place.AFTER_SOLIDUS or (self.place == Place.AFTER_QUOTED_VALUE and c not in WHITE_SPACE + "/"):
            return self.reading.saw(at, STATE_AT[self.place])
        return []

    def read_attribute(self, at: int) -> int:
        name = self.reading.run(ATTRIBUTE_NAME, at)
        after_name = self.place == Place.AFTER_ATTRIBUTE_NAME
        if name[0] in "\0\"'<=":
            self.told += self.reading.saw(at, "AfterAttributeName" if after_name else "BeforeAttributeName")
        self.told += self.duplicate_error(at)
        for later in range(at + 1, at + len(name)):
            if self.reading.text[later] in "\0\"'<":
                self.told += self.reading.saw(later, "AttributeName")
        self.attributes.append((in_name(name), ""))
        self.place = Place.IN_ATTRIBUTE_NAME
        equals = EQUALS_SIGN.match(self.reading.text, at + len(name))
        return at + len(name) if equals is None else self.read_value(equals.end())

    def read_value(self, at: int) -> int:
        """Reads the value that begins here, and answers where it ends, after its quote."""
        c = self.reading.next(at)
        if c in ("", ">"):
            self.place = Place.BEFORE_VALUE
            return at
        if c == '"':
            return self.read_quoted(at, Place.IN_DOUBLE_QUOTED)
        if c == "'":
            return self.read_quoted(at, Place.IN_SINGLE_QUOTED)
        stop = at + len(self.reading.run(BARE_VALUE, at))
        self.place = Place.IN_UNQUOTED
        self.read_run(at, stop)
        return stop

    def read_quoted(self, at: int, place: Place) -> int:
        quote = self.reading.find(self.reading.text[at], at + 1)
        self.place = place
        self.read_run(at + 1, self.reading.end if quote is None else quote)
        if quote is None:
            return self.reading.end
        self.place = Place.AFTER_QUOTED_VALUE
        return quote + 1

    def read_run(self, at: int, stop: int):
        """Decodes a value from left to right. The value's end decides each `&` at the latest."""
        shown = ""
        while at < stop:
            c = self.reading.text[at]
            if c == "&":
                found = found_in(self.reading, self.reading.text[at + 1 : stop + 1], is_value=True)
                self.tell_reference(at, found)
                shown += found.characters
                at += 1 + found.taken
            else:
                self.told += self.value_error(at)
                shown += in_value(c)
                at += 1
        self.attributes[-1] = (self.attributes[-1][0], shown)

    def tell_reference(self, at: int, found: Found):
        """The errors of a reference are reported at its `&`, or if it is not decided, at the end."""
        if found.is_decided:
            self.told += [(at, Error(message, at + 1 + found.held)) for message in found.errors]
        else:
            self.at_end += [(self.reading.end, Error(message)) for message in found.errors]

    def value_error(self, at: int) -> Told:
        c = self.reading.text[at]
        odd = self.reading.exact and self.place == Place.IN_UNQUOTED and c in "\"'<=`"
        return self.reading.saw(at, STATE_AT[self.place]) if c == "\0" or odd else []

    # ---- Duplicates, and the end of a tag

    def repeats(self, n: int) -> bool:
        """Whether the attribute has the name of one before it."""
        return self.attributes[n][0] in [name for name, _ in self.attributes[:n]]

    def duplicate_error(self, at: int) -> Told:
        """The error of the last attribute, where the next one begins or the tag ends."""
        last = len(self.attributes) - 1
        return [(at, Error("Duplicate attribute"))] if self.attributes and self.repeats(last) else []

    def tag(self) -> Tag:
        kept = [attribute for n, attribute in enumerate(self.attributes) if not self.repeats(n)]
        return Tag(self.is_end, self.name, kept, self.place == Place.AFTER_SOLIDUS, len(kept) < len(self.attributes))

    def end_tag_errors(self, tag: Tag) -> Told:
        """What an end tag should not have."""
        told = []
        if tag.is_end and tag.attributes:
            told.append((self.stop, Error("Attributes on an end tag")))
        if tag.is_end and tag.self_closing:
            told.append((self.stop, Error("Self-closing end tag")))
        return told

    def closing(self, tag: Tag) -> Told:
        """What the `>` tells."""
        missing = self.place == Place.BEFORE_VALUE
        value = [(self.stop, self.reading.error_of("=", "BeforeAttributeValue"))] if missing else []
        return value + self.duplicate_error(self.stop) + self.end_tag_errors(tag) + [(self.stop, tag)]


def tag_item(reading: Reading, place: int) -> Item:
    written = WrittenTag(reading, place)
    if written.stop == reading.end:
        return Item(reading.end, written.told + written.at_end + reading.saw_end(STATE_AT[written.place]), None)
    tag = written.tag()
    return Item(written.stop + 1, written.told + written.closing(tag), mode_after(tag))
