"""The tokenizer, and what is read of whole pages."""

import ctypes
import enum
import sys
from typing import Any, Callable, Iterable, Iterator, List, Mapping, Optional, Tuple, Union

from ._arguments import member, names_of, tag_name, text_of, whole_number
from ._errors import Status, TokenizerError
from ._library import ROOM, Handle, Options, encoding_of, library, taken
from ._pages import STRICT, Page, Piece, bytes_of, label_of, pieces_of, takes_texts
from ._places import Characters
from ._readers import LinkReader, Reader, TextReader
from ._records import Link, Placed, Token
from ._session import FREE, MOST, Session, alone, in_use, refused
from ._spares import Kept, Spares, page_at_start


class State(enum.IntEnum):
    """The state in which a reading starts, or goes on after a reply."""

    DATA = 0
    PLAINTEXT = 1
    RCDATA = 2
    RAWTEXT = 3
    SCRIPT_DATA = 4
    CDATA_SECTION = 5


class Replies(enum.IntEnum):
    """What the tokenizer does after tags."""

    STANDARD = 0  # scripts, styles, titles and their like are no markup
    NONE = 1  # all is markup
    PAUSING = 2  # as the standard's, and it pauses after </script> and <meta charset=..>
    CALLER = 3  # it pauses after each tag, and all is markup unless `reply` says otherwise


class Fed(enum.IntEnum):
    """What a feed came to: all was read, or it paused and the rest waits."""

    DONE = 0
    SCRIPT = 1
    ENCODING = 2
    TAG = 12


# What a status means that no call is refused with.
_FED = {fed.value: fed for fed in Fed}

# Replies by which nothing pauses.
_WITHOUT_PAUSES = (Replies.STANDARD, Replies.NONE)


class Tokenizer(Session):
    """A tokenizer. Its tokens wait in it until they are read.

    Use it in a `with`, so that its memory is given back at once. One call at a time may use it: another, of another thread or
    from within, is a RuntimeError. While the library reads, other threads of Python run.

    With `parse_errors=False` parse errors are left out, so that each run of text is one token. With `texts=False` texts are
    passed over, and with `tags`, some names in small letters, all other tags. `limit` is how many bytes it may hold: what was
    fed since all was read and no item was open, and the records of tokens that were not read. A piece that goes past it is
    refused (`Status.LIMIT`), and nothing changes.

    The pieces of a page are all texts, or all bytes; the first that isn't empty decides. Bytes are read in the encoding that
    the page tells as to a browser ("auto"), or in that of a label of the Encoding Standard, as "shift_jis", which a byte order
    mark overrules. An unknown label is a LookupError. Bytes invalid in the encoding are U+FFFD. With
    `encoding="utf-8", errors="strict"` they are refused (`Status.NOT_UTF8`). A text is itself, so it goes with no label but
    UTF-8's.

    With `places` each token has its place (`placed_tokens`), in characters where the pieces are texts, and else in bytes. They
    go only with the standard's replies and in content that is not foreign, and bytes are UTF-8 alone then, and others refused.
    Nothing pauses, and what steers the reading is refused. A text comes with the token after it, and an error before the text
    in which it stands. It is slower, and holds the bytes fed since the last token.
    """

    _spares = Spares(4)

    def __init__(
        self,
        *,
        state: Union[State, int] = State.DATA,
        replies: Union[Replies, int] = Replies.STANDARD,
        last_start_tag: str = "",
        exact_errors: bool = False,
        keep_bom: bool = False,
        foreign: bool = False,
        parse_errors: bool = True,
        texts: bool = True,
        tags: Optional[Iterable[str]] = None,
        limit: Optional[int] = None,
        encoding: str = "auto",
        errors: str = "replace",
        places: bool = False,
    ) -> None:
        super().__init__()
        replies = member("replies", replies, Replies)
        label = label_of(encoding, errors)
        if places and (replies != Replies.STANDARD or foreign or not takes_texts(label)):
            raise ValueError("places go with the standard's replies alone, without foreign content, and in UTF-8")
        state = member("state", state, State)
        options = Options(state, replies, bool(exact_errors), bool(keep_bom), bool(foreign), bool(places))
        if tags is not None:
            tags = [tag_name("tags", name) for name in names_of("tags", tags, '{"a", "p"}')]
        reader = Reader(bool(parse_errors), bool(texts), tags, bool(places))
        limit = None if limit is None else whole_number("limit", limit, 0, (1 << 64) - 1)
        self._begin(reader, options, _last_start_tag(last_start_tag), limit, STRICT if places else label)

    @alone
    def _begin(self, reader: Any, options: Options, last_start_tag: bytes, limit: Optional[int], label: Optional[bytes]) -> None:
        self._reader = reader
        self._options = options
        self._last_start_tag = last_start_tag
        self._limit = limit
        self._label = label
        self._kind = None
        self._is_cut = limit is None and options.replies in _WITHOUT_PAUSES
        # With places what tells them in characters, where the page is a text.
        self._characters = Characters() if options.places else None
        self._room = ctypes.create_string_buffer(ROOM)
        # What the handle keeps; None where there is no handle yet. One is made once it is known how the page is read.
        self._kept: Optional[Kept] = None
        self._handle = Handle()
        if not takes_texts(label) or options.places:
            self._begin_page(label)

    @property
    def encoding(self) -> Optional[str]:
        """The name of the encoding in which the page's bytes are read, once it is known; None of a text."""
        return self._encoding()

    @alone
    def _encoding(self) -> Optional[str]:
        if self._kind is bytes and self._label is STRICT:
            return "UTF-8"
        return encoding_of(self._handle)

    @alone
    def close(self) -> None:
        """Gives the memory back, except a table of names that the next tokenizer takes over. Tokens that were read stay."""
        handle, kept = self._handle, self._kept
        self._handle = Handle()
        self._kept = (None, None, False)
        self._kind = None
        if handle.is_open and kept is not None:
            self._spares.keep(kept, handle)
        else:
            handle.close()

    def feed(self, piece: Piece) -> Fed:
        """Reads the next piece, a text or bytes. After a pause it goes on, with the waiting text and this piece.

        Where bytes are not UTF-8, and are to be, all before them is read, and then it is refused (`Status.NOT_UTF8`). A pause
        before them comes first: then no feed takes anything until that was said.

        A piece of more than 1 MiB is read in parts, and signals are seen between them; where a part is refused, those before it
        were read. It is not so where there is a limit, which a whole piece is within or isn't, and with replies that pause,
        since the text after a pause waits in the library."""
        # As `alone` does it, in less time.
        turn = self._turn
        try:
            del turn[0]
        except IndexError:
            raise in_use(self) from None
        try:
            if type(piece) is not bytes or self._kind is not bytes:
                piece = self._to_bytes(piece)
            return self._fed(piece)
        finally:
            turn[:] = FREE

    def _fed(self, data: bytes) -> Fed:
        if self._kept is None:
            self._begin_page(STRICT)
        if len(data) <= MOST or not self._is_cut:
            return self._fed_whole(data)
        for at in range(0, len(data), MOST):
            self._fed_whole(data[at : at + MOST])
        return Fed.DONE

    def _fed_whole(self, data: bytes) -> Fed:
        status = library.html5_feed(self._handle, data, len(data))
        if self._characters is not None and self._kind is str and (status == 0 or library.html5_is_over(self._handle)):
            self._characters.add(data)
        return self._answer(status)

    def _begin_page(self, label: Optional[bytes]) -> None:
        """Takes a handle in which bytes are read as the label says, or says that of the one that there is."""
        if self._kept is None:
            kept = self._limit, label, self._options.places
            handle, status = page_at_start(self._spares, kept, self._last_start_tag, self._options)
            if status == Status.BAD_OPTION and label:
                raise LookupError(f"unknown encoding: {label.decode('utf-8', 'surrogatepass')!r}")
            self._check(status)
            self._handle = handle
            self._kept = kept
        elif not self._handle.is_open:
            raise TokenizerError(Status.CLOSED)
        elif label is not STRICT and label != self._kept[1]:
            self._check(library.html5_set_encoding(self._handle, label, len(label)))
            self._kept = self._limit, label, self._options.places

    def _begun(self) -> Handle:
        """The handle, also where no piece has said yet of which kind the page is."""
        if self._kept is None:
            self._begin_page(STRICT)
        return self._handle

    @alone
    def insert(self, text: str) -> None:
        """Puts a text in front of the waiting text, as document.write does."""
        data = bytes_of(text)
        self._check(library.html5_insert(self._begun(), data, len(data)))

    @alone
    def reply(self, state: Union[State, int]) -> None:
        """Reads the rest in a state, as a tree builder asks after a start tag. Raw text is read up to the end tag of
        the last start tag. Within a tag or another item, which is never so after a pause, it is refused."""
        self._check(library.html5_reply(self._begun(), member("state", state, State)))

    @alone
    def set_foreign(self, foreign: bool) -> None:
        """Says whether the current node is outside the HTML namespace, so that <![CDATA[ opens a section."""
        self._check(library.html5_set_foreign(self._begun(), bool(foreign)))

    @alone
    def end(self) -> Fed:
        """Ends the page. The bytes held until they tell their encoding are read first, and may pause: then it is
        ended again."""
        return self._ended()

    def _ended(self) -> Fed:
        return self._answer(library.html5_end(self._begun()))

    def is_over(self) -> bool:
        """Whether nothing more is read: the page has ended, or a call was refused for good."""
        turn = self._turn
        try:
            del turn[0]
        except IndexError:
            raise in_use(self) from None
        try:
            return bool(library.html5_is_over(self._handle))
        finally:
            turn[:] = FREE

    def tokens(self) -> Iterator[Token]:
        """The tokens that were sent and not read yet. A text comes when its end is known."""
        turn = self._turn
        try:
            del turn[0]
        except IndexError:
            raise in_use(self) from None
        try:
            found: List[Any] = self._read()
        finally:
            turn[:] = FREE
        return (placed.token for placed in found) if self._options.places else iter(found)

    @alone
    def placed_tokens(self) -> Iterator[Placed]:
        """The same tokens, each with its place. It wants a tokenizer with `places`."""
        if not self._options.places:
            raise ValueError("the tokenizer has no places")
        found = self._read()
        return iter(found if self._characters is None or self._kind is not str else self._characters.told(found))

    def _read(self) -> Any:
        return self._reader.read(taken(library.html5_take, self._handle, self._room))

    def _check(self, status: int) -> None:
        if status:
            raise refused(status, library.html5_error_at, self._handle)

    def _answer(self, status: int) -> Fed:
        """What a feed or an end came to."""
        if status not in _FED:
            self._check(status)
        return _FED[status]


def _last_start_tag(given: str) -> bytes:
    name = text_of("last_start_tag", given)
    return tag_name("last_start_tag", name).encode() if name else b""


# What is read of a tokenizer, in steps.
_Read = Callable[[Tokenizer], Iterable[Any]]


def _read_of(tokenizer: Tokenizer, pieces: Iterable[Piece], read: _Read) -> Iterator[Any]:
    """What is read of a page's pieces, past all pauses, and of its end."""
    with tokenizer:
        for piece in pieces:
            fed, data = None, tokenizer._to_bytes(piece)
            while fed != Fed.DONE:
                fed, error = _fed(tokenizer, data)
                yield from read(tokenizer)
                if error:
                    raise error
                data = b""
        fed = None
        while fed != Fed.DONE:
            fed = tokenizer._ended()
            yield from read(tokenizer)


def _fed(tokenizer: Tokenizer, data: bytes) -> Tuple[Optional[Fed], Optional[TokenizerError]]:
    """What a feed came to, or why it was refused."""
    try:
        return tokenizer._fed(data), None
    except TokenizerError as error:
        return None, error


def tokens(
    page: Page,
    *,
    piece: int = ROOM,
    state: Union[State, int] = State.DATA,
    replies: Union[Replies, int] = Replies.STANDARD,
    last_start_tag: str = "",
    exact_errors: bool = False,
    keep_bom: bool = False,
    foreign: bool = False,
    parse_errors: bool = True,
    texts: bool = True,
    tags: Optional[Iterable[str]] = None,
    limit: Optional[int] = None,
    encoding: str = "auto",
    errors: str = "replace",
) -> Iterator[Token]:
    """The tokens of a page, as they are read, past all pauses.

    The page is a text, bytes, a file of either, or an iterable of pieces of either. It is read in pieces of `piece` characters
    or bytes. The other keywords are those of `Tokenizer`: so bytes are read as the page tells, and a text is itself. Where bytes
    are refused, the tokens before them come first, and then the error.
    """
    tokenizer = Tokenizer(
        state=state,
        replies=replies,
        last_start_tag=last_start_tag,
        exact_errors=exact_errors,
        keep_bom=keep_bom,
        foreign=foreign,
        parse_errors=parse_errors,
        texts=texts,
        tags=tags,
        limit=limit,
        encoding=encoding,
        errors=errors,
    )
    return _read_of(tokenizer, pieces_of(page, whole_number("piece", piece, 1, sys.maxsize)), Tokenizer._read)


def placed_tokens(
    page: Page,
    *,
    piece: int = ROOM,
    state: Union[State, int] = State.DATA,
    last_start_tag: str = "",
    exact_errors: bool = False,
    keep_bom: bool = False,
    parse_errors: bool = True,
    texts: bool = True,
    tags: Optional[Iterable[str]] = None,
    limit: Optional[int] = None,
) -> Iterator[Placed]:
    """The tokens of a page, each with its place: `page[begin:end]` is the token's source, where the page is a text or
    bytes. Of a file or an iterable of texts places count characters, and of others bytes.

        for token, begin, end in firnuubal.placed_tokens(page):
            print(page[begin:end])

    The page and the keywords are those of `tokens`, except what `places` of `Tokenizer` doesn't go with: bytes are UTF-8, and
    others are refused.
    """
    tokenizer = Tokenizer(
        state=state,
        last_start_tag=last_start_tag,
        exact_errors=exact_errors,
        keep_bom=keep_bom,
        parse_errors=parse_errors,
        texts=texts,
        tags=tags,
        limit=limit,
        places=True,
    )
    return _read_of(tokenizer, pieces_of(page, whole_number("piece", piece, 1, sys.maxsize)), Tokenizer.placed_tokens)


_LINKS: Mapping[str, str] = {"a": "href", "area": "href", "link": "href", "img": "src", "script": "src", "iframe": "src"}


def links(page: Page, *, encoding: str = "auto", errors: str = "replace") -> Iterator[Link]:
    """The links of a page: `href` of a, area and link, `src` of img, script and iframe, as firnuubal links prints them but
    for tabs and line breaks in them, which stay. `encoding` and `errors` are those of `Tokenizer`."""
    return _read_with(LinkReader(_LINKS), page, encoding, errors)


def text(page: Page, *, encoding: str = "auto", errors: str = "replace") -> str:
    """The text of a page, without its scripts and styles, as firnuubal text prints it. `encoding` and `errors` are those of
    `Tokenizer`."""
    return "".join(_read_with(TextReader(("script", "style")), page, encoding, errors))


def _read_with(reader: Any, page: Page, encoding: str, errors: str) -> Iterator[Any]:
    """What a reader makes of the records of a page."""
    tokenizer = Tokenizer(encoding=encoding, errors=errors)
    tokenizer._reader = reader
    return _read_of(tokenizer, pieces_of(page), Tokenizer._read)
