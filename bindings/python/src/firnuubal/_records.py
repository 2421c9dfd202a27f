"""Tokens, and how they are read from the library's records (crates/html5records/README.md).

The extension `_fast`, where it is there, has these readers in C (native/_fast.c). What it reads and refuses is the same.
"""

import struct
from typing import Any, Iterable, List, Mapping, NamedTuple, Optional, Tuple, TypeVar, Union, overload

from ._library import error_code


_Default = TypeVar("_Default")


_Kind = TypeVar("_Kind", bound=type)


def _is_same(token: Any, other: object) -> bool:
    return type(token) is type(other) and bool(tuple.__eq__(token, other))


def _is_other(token: Any, other: object) -> bool:
    return not _is_same(token, other)


def _hash(token: Any) -> int:
    return hash((type(token).__name__, tuple(token)))


def _token(kind: _Kind) -> _Kind:
    """A class of tokens: equal ones are of one kind, too."""
    for name, method in (("__eq__", _is_same), ("__ne__", _is_other), ("__hash__", _hash)):
        setattr(kind, name, method)
    return kind


@_token
class StartTag(NamedTuple):
    """A start tag, with the line on which its `>` stands, and its attributes as pairs of a name and a value."""

    line: int
    name: str
    attributes: Tuple[Tuple[str, str], ...]
    self_closing: bool
    duplicate_attributes: bool

    @overload
    def get(self, name: str) -> Optional[str]: ...

    @overload
    def get(self, name: str, default: _Default) -> Union[str, _Default]: ...

    def get(self, name: str, default: object = None) -> object:
        """The value of the attribute of this name."""
        return next((value for own, value in self.attributes if own == name), default)


@_token
class EndTag(NamedTuple):
    """An end tag."""

    line: int
    name: str
    attributes: Tuple[Tuple[str, str], ...]
    self_closing: bool
    duplicate_attributes: bool


@_token
class Text(NamedTuple):
    """A run of text, all of it, however it was fed, with the line on which it begins."""

    line: int
    text: str


@_token
class Comment(NamedTuple):
    """A comment, with the line on which it ends."""

    line: int
    text: str


@_token
class Instruction(NamedTuple):
    """A processing instruction: the text between `<?` and `>`."""

    line: int
    content: str


@_token
class Doctype(NamedTuple):
    """A document type. A part that it lacks is None."""

    line: int
    name: Optional[str]
    public_id: Optional[str]
    system_id: Optional[str]
    force_quirks: bool


@_token
class NullCharacter(NamedTuple):
    """U+0000 in text."""

    line: int


@_token
class ParseError(NamedTuple):
    """A parse error, with its message as html5ever has it."""

    line: int
    message: str

    @property
    def code(self) -> Optional[str]:
        """The code that the standard has for it, as `eof-in-tag`, if it has one. With exact errors that of a character or
        of the end is not known."""
        return error_code(self.message)


@_token
class End(NamedTuple):
    """The end of the page."""

    line: int


class Link(NamedTuple):
    """A link, with the line on which its tag ends."""

    line: int
    address: str


Token = Union[StartTag, EndTag, Text, Comment, Instruction, Doctype, NullCharacter, ParseError, End]


class Placed(NamedTuple):
    """A token with its place in the page: where it begins and where the text after it does. So `page[begin:end]` is the token
    in its source, in characters of a text or in bytes.

    A text has the place of its run, with its references as they are written. An error has that of the character at which it
    is reported; the end has an empty one."""

    token: Token
    begin: int
    end: int


# The classes of tokens by their kind, from 1 on.
CLASSES = (StartTag, EndTag, Text, Comment, Instruction, Doctype, NullCharacter, ParseError, End)

_END_TAG, _TEXT, _DOCTYPE, _ERROR, _PLACES = 2, 3, 6, 8, 10
_TAGS = {1: StartTag, 2: EndTag}
_WITH_TEXT = {4: Comment, 5: Instruction, 8: ParseError}
_LINE_ALONE = {7: NullCharacter, 9: End}

_number = struct.Struct("<Q").unpack_from
_two_numbers = struct.Struct("<QQ").unpack_from
_three_numbers = struct.Struct("<QQQ").unpack_from
_tag_head = struct.Struct("<QBQ").unpack_from
_new = tuple.__new__


def _attributes(data: bytes, at: int, count: int) -> Tuple[Tuple[Tuple[str, str], ...], int]:
    """So many attributes, and the place after them."""
    found = []
    for _ in range(count):
        name = at + 8
        value = name + _number(data, at)[0] + 8
        at = value + _number(data, value - 8)[0]
        found.append((data[name : value - 8].decode(), data[value:at].decode()))
    return tuple(found), at


def _after_attributes(data: bytes, at: int, count: int) -> int:
    """The place after so many attributes, which are not read."""
    for _ in range(2 * count):
        at += 8 + _number(data, at)[0]
    return at


def _doctype(data: bytes, at: int) -> Tuple[Token, int]:
    line, flags = _number(data, at)[0], data[at + 8]
    at += 9
    parts: List[Any] = []
    for flag in (1, 2, 4):
        part = None
        if flags & flag:
            begin = at + 8
            at = begin + _number(data, at)[0]
            part = data[begin:at].decode()
        parts.append(part)
    name, public_id, system_id = parts
    return Doctype(line, name, public_id, system_id, flags & 8 > 0), at


def _other(kind: int, data: bytes, at: int) -> Tuple[Any, int]:
    """A token other than a tag or a text, from the place after its kind, and the place after it."""
    if kind == _DOCTYPE:
        return _doctype(data, at)
    if kind in _LINE_ALONE:
        return _LINE_ALONE[kind](_number(data, at)[0]), at + 8
    line, size = _two_numbers(data, at)
    end = at + 16 + size
    return _WITH_TEXT[kind](line, data[at + 16 : end].decode()), end


def _exact(taken: bytes) -> bytes:
    """Bytes of a subclass as bytes of just that type."""
    if not isinstance(taken, bytes):
        raise TypeError(f"what was taken is bytes, not of type {type(taken).__name__}")
    return memoryview(taken).tobytes()


class Reader:
    """Reads tokens from records as they are taken. All records but a text are taken whole. With places each is `Placed`, in
    bytes of UTF-8.

    Bytes that are no records are a ValueError, and then the reader is of no more use."""

    def __init__(
        self, errors: bool = True, texts: bool = True, tags: Optional[Iterable[str]] = None, places: bool = False
    ) -> None:
        # Whether parse errors are read. Else they end no text.
        self._errors = errors
        self._texts = texts
        # The names whose tags are read, in bytes, where not all are.
        self._tags = None if tags is None else frozenset(map(str.encode, tags))
        # The parts of the text that is open, and the line on which it begins.
        self._open: Any = None
        self._line = 1
        # The texts that no other token has followed, where errors are left out.
        self._run: List[bytes] = []
        self._run_line = 1
        # Where the next token stands and the run before it, once that is read: where each begins, and where the token ends.
        # With places a run is one text, whatever the errors in it, and comes after them.
        self._with_places = places
        self._places: Any = None

    def read(self, taken: bytes) -> List[Any]:
        """The tokens whose end was taken."""
        if type(taken) is not bytes:
            taken = _exact(taken)
        tokens: List[Any] = []
        try:
            end = self._read_records(taken, tokens)
        except (struct.error, LookupError, OverflowError):
            end = -1
        if end != len(taken):
            raise ValueError("what was taken is no whole record")
        return tokens

    def _read_records(self, taken: bytes, tokens: List[Any]) -> int:
        """Reads all that was taken, and answers the place where the last record ends, as it says."""
        at, size = 0, len(taken)
        if self._open is not None:
            at = self._read_text(taken, 0, tokens)
        while at < size:
            kind = taken[at]
            if self._with_places and self._places is None:
                at = self._read_places(kind, taken, at + 1)
            elif kind == _TEXT:
                self._open = []
                at = self._read_text(taken, at + 1, tokens)
            elif kind <= _END_TAG:
                if self._run:
                    self._end_run(tokens)
                at = self._read_tag(kind, taken, at + 1, tokens)
            else:
                at = self._read_other(kind, taken, at + 1, tokens)
        return at

    def _read_places(self, kind: int, taken: bytes, at: int) -> int:
        if kind != _PLACES:
            raise LookupError("a record of places stands before each token")
        self._places = _three_numbers(taken, at)
        return at + 24

    def _append(self, token: Any, tokens: List[Any]) -> None:
        """Adds a token, with its place if it has one."""
        if self._places is None:
            tokens.append(token)
            return
        run, begin, end = self._places
        if type(token) is Text:
            tokens.append(Placed(token, run, begin))
        else:
            tokens.append(Placed(token, begin, end))

    def _read_text(self, taken: bytes, at: int, tokens: List[Any]) -> int:
        """Reads on in the open text, up to its end or to all that was taken."""
        end = taken.find(b"\xff", at)
        if self._texts:
            self._open.append(taken[at:] if end < 0 else taken[at:end])
        if end < 0:
            return len(taken)
        parts, self._open = self._open, None
        if not self._texts:
            return end + 1
        if self._errors or self._with_places:
            self._append(_new(Text, (self._line, b"".join(parts).decode())), tokens)
        else:
            if not self._run:
                self._run_line = self._line
            self._run += parts
        return end + 1

    def _read_tag(self, kind: int, taken: bytes, at: int, tokens: List[Any]) -> int:
        """Reads a tag from the place after its kind, or passes over it, and answers the place after it."""
        which = _TAGS[kind]
        self._line, flags, size = _tag_head(taken, at)
        end: int = at + 17 + size
        name = taken[at + 17 : end]
        count = _number(taken, end)[0]
        if self._tags is not None and name not in self._tags:
            self._places = None
            return _after_attributes(taken, end + 8, count)
        attributes, end = _attributes(taken, end + 8, count) if count else ((), end + 8)
        self._append(_new(which, (self._line, name.decode(), attributes, flags & 1 > 0, flags & 2 > 0)), tokens)
        self._places = None
        return end

    def _read_other(self, kind: int, taken: bytes, at: int, tokens: List[Any]) -> int:
        if kind == _ERROR and not self._errors:
            line, size = _two_numbers(taken, at)
            self._reach(kind, line)
            self._places = None
            after: int = at + 16 + size
            return after
        if self._run:
            self._end_run(tokens)
        token, at = _other(kind, taken, at)
        self._reach(kind, token.line)
        self._append(token, tokens)
        self._places = None
        return at

    def _reach(self, kind: int, line: int) -> None:
        """Notes the line where a text begins that is next. With places an error comes before the text in which it stands."""
        if kind != _ERROR or not self._with_places:
            self._line = line

    def _end_run(self, tokens: List[Any]) -> None:
        tokens.append(Text(self._run_line, b"".join(self._run).decode()))
        self._run = []


class LinkReader:
    """Reads links: of the tags that are named, the attribute that is named for each."""

    def __init__(self, attributes: Mapping[str, str]) -> None:
        self._attributes = attributes
        self._reader = Reader(texts=False, tags=attributes)

    def read(self, taken: bytes) -> List[Link]:
        """The links whose tags were taken."""
        tags = (token for token in self._reader.read(taken) if type(token) is StartTag)
        found = ((tag.line, tag.get(self._attributes[tag.name])) for tag in tags)
        return [Link(line, address) for line, address in found if address is not None]


class TextReader:
    """Reads texts, but those after a start tag of the elements that are hidden and before their end tag."""

    def __init__(self, hidden: Iterable[str]) -> None:
        self._reader = Reader(tags=hidden)
        self._within = False

    def read(self, taken: bytes) -> List[str]:
        """The texts whose end was taken."""
        texts = []
        for token in self._reader.read(taken):
            if type(token) is StartTag or type(token) is EndTag:
                self._within = type(token) is StartTag
            elif type(token) is Text and not self._within:
                texts.append(token.text)
        return texts
