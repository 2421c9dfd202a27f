"""Places in a page that is a text: from bytes of its UTF-8 to characters."""

from typing import List

from ._records import ParseError, Placed, Token


class Characters:
    """Tells places in characters, by the fed bytes.

    A token begins no earlier than the one before it ended, errors apart, and so does the text before it. Errors come before
    the text in which they stand. So the text before the last token other than an error is let go."""

    def __init__(self) -> None:
        # The fed bytes, from this one on.
        self._data = bytearray()
        self._first = 0
        # A byte and the number of its character: where the last token ended, and of the last place that was given.
        self._end = self._last = (0, 0)

    def add(self, piece: bytes) -> None:
        """Adds the fed bytes."""
        self._data += piece

    def told(self, tokens: List[Placed]) -> List[Placed]:
        """The next tokens, with their places in characters."""
        found = [self._told(*token) for token in tokens]
        del self._data[: self._end[0] - self._first]
        self._first = self._end[0]
        return found

    def _told(self, token: Token, begin: int, end: int) -> Placed:
        found = Placed(token, self._character(begin), self._character(end))
        if type(token) is not ParseError:
            self._end = self._last
        return found

    def _character(self, byte: int) -> int:
        begin, number = self._last if self._last[0] <= byte else self._end
        number += len(self._data[begin - self._first : byte - self._first].decode())
        self._last = byte, number
        return number
