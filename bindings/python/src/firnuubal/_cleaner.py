"""Cleaning: what a policy keeps of a page."""

import ctypes
import threading
from typing import Dict, Iterable, Mapping, Optional, Tuple

from ._arguments import whole_number
from ._errors import Status, TokenizerError
from ._library import ROOM, Handle, encoding_of, library, taken
from ._pages import STRICT, Page, Piece, label_of, pieces_of, takes_texts
from ._policy import LINK_REL, Policy, Said, cleaner_handle, keywords_of, said_of
from ._session import MOST, Session, alone, refused


class Cleaner(Session):
    """Cleans pages by a policy, one after the other, each as its pieces arrive.

    Use it in a `with`, so that its memory is given back at once. One call at a time may use it: another, of another thread or
    from within, is a RuntimeError. `limit` is how many bytes it may hold: those fed since all was read and no item was open,
    and the text that no tag has ended yet. A piece that goes past it is refused (`Status.LIMIT`), and nothing changes.

    The pieces of a page are all texts, or all bytes. Bytes are read in the encoding that the page tells as to a browser
    ("auto"), or in that of a label of the Encoding Standard, as "shift_jis", which a byte order mark overrules. An unknown
    label is a LookupError. Bytes invalid in the encoding are U+FFFD. With `encoding="utf-8", errors="strict"` they are
    refused (`Status.NOT_UTF8`). A text is itself, so it goes with no label but UTF-8's.
    """

    def __init__(
        self,
        policy: Optional[Policy] = None,
        *,
        limit: Optional[int] = None,
        encoding: str = "auto",
        errors: str = "replace",
    ) -> None:
        super().__init__()
        limit = None if limit is None else whole_number("limit", limit, 0, (1 << 64) - 1)
        self._begin(said_of(policy), limit, label_of(encoding, errors))

    @classmethod
    def _by(cls, said: Said, label: Optional[bytes]) -> "Cleaner":
        """A cleaner by what a policy is by, and a label."""
        made = cls.__new__(cls)
        Session.__init__(made)
        made._begin(said, None, label)
        return made

    @alone
    def _begin(self, said: Said, limit: Optional[int], label: Optional[bytes]) -> None:
        self._said = said
        self._limit = limit
        self._label = label
        self._room = ctypes.create_string_buffer(ROOM)
        # The handles by how bytes are read, None for texts: once said, it stays in a handle. None is there once closed.
        self._handles: Optional[Dict[Optional[bytes], Handle]] = {}
        self._handle = Handle()
        self._kind = None
        self._is_begun = False
        if not takes_texts(self._label):
            self._begin_page(self._label)

    @property
    def encoding(self) -> Optional[str]:
        """The name of the encoding in which the page's bytes are read, once it is known; None of a text."""
        return self._encoding()

    @alone
    def _encoding(self) -> Optional[str]:
        if self._kind is bytes and self._label is STRICT:
            return "UTF-8"
        return encoding_of(self._handle)

    @alone
    def close(self) -> None:
        """Gives the memory back."""
        handles, self._handles, self._handle = self._handles or {}, None, Handle()
        self._kind = None
        for handle in handles.values():
            handle.close()

    @alone
    def feed(self, piece: Piece) -> str:
        """Reads the next piece, a text or bytes, and gives the kept part of the page so far.

        Where there is no limit a piece of more than 1 MiB is read in parts, and signals are seen between them; where a part is
        refused, those before it were read."""
        return self._fed(piece)

    @alone
    def end(self) -> str:
        """Ends the page, and gives the rest of its kept part. The next piece begins another page."""
        return self._ended()

    @alone
    def restart(self) -> None:
        """Begins another page, whatever became of this one."""
        self._restart()

    @alone
    def clean(self, page: Page) -> str:
        """The kept part of a whole page: a text, bytes, a file of either, or an iterable of pieces of either."""
        return self._cleaned(page)

    def _cleaned(self, page: Page) -> str:
        if self._is_begun:
            self._restart()
        kept = [self._fed(piece) for piece in pieces_of(page)]
        kept.append(self._ended())
        return "".join(kept)

    def _begin_page(self, label: Optional[bytes]) -> None:
        if self._handles is None:
            raise TokenizerError(Status.CLOSED)
        self._is_begun = True
        if label not in self._handles:
            self._handles[label] = self._new_handle(label)
        self._handle = self._handles[label]

    def _new_handle(self, label: Optional[bytes]) -> Handle:
        handle = cleaner_handle(self._said)
        if self._limit is not None:
            self._check(library.html5_set_limit(handle, self._limit))
        if label is not None:
            status = library.html5_set_encoding(handle, label, len(label))
            if status == Status.BAD_OPTION:
                raise LookupError(f"unknown encoding: {label.decode('utf-8', 'surrogatepass')!r}")
            self._check(status)
        return handle

    def _fed(self, piece: Piece) -> str:
        data = self._to_bytes(piece)
        if self._kind is None:
            self._begin_any_page()
        if len(data) <= MOST or self._limit is not None:
            return self._read(data)
        return "".join([self._read(data[at : at + MOST]) for at in range(0, len(data), MOST)])

    def _read(self, data: bytes) -> str:
        self._check(library.html5_cleaner_feed(self._handle, data, len(data)))
        return self._taken()

    def _ended(self) -> str:
        if self._kind is None:
            self._begin_any_page()
        self._check(library.html5_cleaner_end(self._handle))
        kept = self._taken()
        self._restart()
        return kept

    def _begin_any_page(self) -> None:
        """Begins a page of which no piece has said yet of which kind it is."""
        self._begin_page(STRICT if takes_texts(self._label) else self._label)

    def _restart(self) -> None:
        if self._handles is None or self._handle.is_open:
            self._check(library.html5_cleaner_restart(self._handle))
        self._kind = None
        self._is_begun = False

    def _taken(self) -> str:
        """The waiting text, which is cut between two characters."""
        return taken(library.html5_cleaner_take, self._handle, self._room).decode()

    def _check(self, status: int) -> None:
        if status:
            raise refused(status, library.html5_cleaner_error_at, self._handle)


# The cleaners of each thread, by their policies and encodings, so that each reads its policy and the names of characters once.
_cleaners = threading.local()
_MOST = 16


def _cleaned(page: Page, said: Said, label: Optional[bytes]) -> str:
    """The kept part of a page, by a cleaner that no other call has meanwhile, such as one of the page's own pieces."""
    known: Dict[Tuple[Said, Optional[bytes]], Cleaner] = _cleaners.__dict__.setdefault("known", {})
    cleaner = known.pop((said, label), None) or Cleaner._by(said, label)
    kept = cleaner._cleaned(page)
    known[said, label] = cleaner
    if len(known) > _MOST:
        known.pop(next(iter(known)))
    return kept


def clean(
    page: Page,
    policy: Optional[Policy] = None,
    *,
    tags: Optional[Iterable[str]] = None,
    attributes: Optional[Mapping[str, Iterable[str]]] = None,
    url_schemes: Optional[Iterable[str]] = None,
    clean_content_tags: Iterable[str] = (),
    link_rel: Optional[str] = LINK_REL,
    balance: Optional[bool] = None,
    tree: Optional[bool] = None,
    depth: Optional[int] = None,
    encoding: str = "auto",
    errors: str = "replace",
) -> str:
    """The kept part of a page: a text, bytes, a file of either, or an iterable of pieces of either.

    Without a policy and keywords the policy is the standard one. The keywords are those of `Policy`, with its defaults and its
    refusals; a policy of keywords is kept for the next call. `encoding` and `errors` are those of `Cleaner`: bytes are read as
    the page tells, and a text is itself.

    The kept part is made to fit, or balanced, as `Policy` says. A tokenizer that goes on after the kept tags, as the standard's
    does, reads it as exactly these tags and the text. Where it is made to fit, what a browser builds of it in a `div`, by the
    standard's rules, is the nesting of these tags, except a line feed straight after a `<pre>` or `<listing>`, which is
    ignored; else no promise is made of the tree.

    >>> clean("<p onclick=x>1")
    '<p>1</p>'
    """
    said: Said = keywords_of(tags, attributes, url_schemes, clean_content_tags, link_rel, balance, tree, depth)
    if policy is not None:
        if said is not None:
            raise TypeError("clean takes a policy or keywords, not both")
        said = said_of(policy)
    return _cleaned(page, said, label_of(encoding, errors))
