"""What a tokenizer and a cleaner have in common."""

import functools
from typing import Any, Callable, List, Optional, Tuple, TypeVar, cast

from ._errors import Status, TokenizerError
from ._library import Handle
from ._pages import bytes_of, takes_texts

_Call = TypeVar("_Call", bound=Callable[..., Any])
_Self = TypeVar("_Self", bound="Session")

# A piece is handed to the library in parts of no more bytes, so that Python sees signals between them.
MOST = 1 << 20

# The turn to use a session is a list, which holds this while no call has it, and else nothing.
FREE = (None,)


def in_use(session: object) -> RuntimeError:
    """The error of a call while another has the turn."""
    return RuntimeError(f"the {type(session).__name__} is in use by another thread, or by a call that has not returned")


def alone(call: _Call) -> _Call:
    """A method beside which no other such method of its session runs, neither in another thread nor within it.

    The turn is taken and given back by statements that call nothing, and each is one step to other threads. Python handles
    signals after calls, so what a signal's function raises never comes between a step and its `try`. Nothing waits."""

    @functools.wraps(call)
    def guarded(self: "Session", *given: Any, **named: Any) -> Any:
        turn = self._turn
        try:
            del turn[0]
        except IndexError:
            raise in_use(self) from None
        try:
            return call(self, *given, **named)
        finally:
            turn[:] = FREE

    return cast(_Call, guarded)


class Session:
    """Pages that are read, one call at a time.

    The first piece of a page that isn't empty decides whether it is a text or bytes, and the others are of the same kind."""

    # How bytes are read (_pages.py), and the kind of the page's pieces, str or bytes, once that is known.
    _label: Optional[bytes]
    _kind: Optional[type] = None
    _turn: List[None]

    def __init__(self) -> None:
        # Where __init__ is called again, another call of the same object may be running.
        self.__dict__.setdefault("_turn", list(FREE))

    def __enter__(self: _Self) -> _Self:
        return self

    def __exit__(self, *_: object) -> None:
        self.close()

    def __reduce__(self) -> Tuple[object, ...]:
        raise TypeError(f"a {type(self).__name__} can't be copied or pickled: its page is in the library's memory")

    def close(self) -> None:
        """Gives the memory back."""
        raise NotImplementedError

    def _begin_page(self, label: Optional[bytes]) -> None:
        """Sees to it that the page's bytes are read as the label says."""
        raise NotImplementedError

    def _to_bytes(self, piece: Any) -> bytes:
        """A piece as bytes. The first one decides of which kind the page is."""
        kind = str if isinstance(piece, str) else bytes
        data = bytes_of(piece)
        if kind is not self._kind and data:
            self._decide(kind)
        return data

    def _decide(self, kind: type) -> None:
        if self._kind is not None:
            raise TypeError("the pieces of a page are of type str, or all are bytes")
        if kind is str and not takes_texts(self._label):
            raise TypeError("a str is in no encoding: hand in bytes, or leave the encoding out")
        self._begin_page(None if kind is str else self._label)
        self._kind = kind


def refused(status: int, error_at: Callable[[Handle], int], handle: Handle) -> TokenizerError:
    """The error of a call that answered this status."""
    at = error_at(handle) if status == Status.NOT_UTF8 else None
    return TokenizerError(Status(status), at)
