"""Pages and their pieces: what they may be, and how their bytes are read."""

from typing import Any, Iterable, Iterator, Optional, Protocol, Union

from ._arguments import kind_of, text_of
from ._library import ROOM

# A piece of a page.
Piece = Union[str, bytes, bytearray, memoryview]


class File(Protocol):
    """A file that is read: of texts, or of bytes."""

    def read(self, size: int, /) -> Union[str, bytes, None]:
        """The next part, of no more than so many characters or bytes. An empty one is the end."""


# A page: a text, bytes, a file of either, or pieces of either.
Page = Union[Piece, File, Iterable[Piece]]

# How bytes are read, in place of the label of an encoding: as UTF-8 alone, so that others are refused; or as the page tells.
STRICT, AUTO = None, b""
_UTF_8 = b"utf-8"

# The labels of UTF-8 in the Encoding Standard.
_UTF_8_LABELS = frozenset("unicode-1-1-utf-8 unicode11utf8 unicode20utf8 utf-8 utf8 x-unicode20utf8".split())


def label_of(encoding: str, errors: str) -> Optional[bytes]:
    """How bytes are read by these arguments: a label, AUTO or STRICT."""
    if type(encoding) is type(errors) is str and encoding == "auto" and errors == "replace":
        return AUTO
    if isinstance(errors, bool):
        raise TypeError("errors is 'replace' or 'strict'; whether parse errors are told is said by parse_errors")
    errors, encoding = text_of("errors", errors), text_of("encoding", encoding)
    is_utf_8 = encoding.strip("\t\n\f\r ").lower() in _UTF_8_LABELS
    if errors == "strict":
        if not is_utf_8:
            raise ValueError(f"errors='strict' goes with encoding='utf-8' alone, not with {encoding!r}")
        return STRICT
    if errors != "replace":
        raise LookupError(f"errors is 'replace' or 'strict', not {errors!r}")
    if encoding == "auto":
        return AUTO
    if encoding == "":
        raise LookupError("unknown encoding: ''")
    return _UTF_8 if is_utf_8 else encoding.encode("utf-8", "surrogatepass")


def takes_texts(label: Optional[bytes]) -> bool:
    """Whether a text may be handed in, too: it is in no encoding but its own."""
    return label in (STRICT, AUTO, _UTF_8)


def bytes_of(piece: Any) -> bytes:
    """A piece as bytes of just that type, a text as its UTF-8. What they hold is theirs, whatever a subclass says of it."""
    if type(piece) is bytes:
        return piece
    if isinstance(piece, str):
        return str.encode(piece)
    try:
        return memoryview(piece).tobytes()
    except TypeError:
        raise TypeError(f"a piece of a page is a str or bytes, not of type {kind_of(piece)}") from None


def pieces_of(page: Any, size: int = ROOM) -> Iterable[Any]:
    """The pieces of a page, those of a text, bytes or a file no longer than the size."""
    if isinstance(page, str):
        return _cut(str.__str__(page), size)
    if isinstance(page, (bytes, bytearray, memoryview)):
        return _cut(bytes_of(page), size)
    if hasattr(page, "read"):
        return _pieces_of_file(page, size)
    try:
        pieces: Iterator[Any] = iter(page)
    except TypeError:
        said = "a page is a str, bytes, a file of either, or an iterable of pieces of either"
        raise TypeError(f"{said}, not of type {kind_of(page)}") from None
    return pieces


def _cut(page: Any, size: int) -> Iterable[Piece]:
    if len(page) <= size:
        return (page,)
    return (page[at : at + size] for at in range(0, len(page), size))


def _pieces_of_file(file: File, size: int) -> Iterator[Piece]:
    while True:
        piece = file.read(size)
        if piece is None:
            raise BlockingIOError("the page's read() gave None: it has no bytes now, and doesn't wait for more")
        piece = str.__str__(piece) if isinstance(piece, str) else bytes_of(piece)
        if not piece:
            return
        yield piece
