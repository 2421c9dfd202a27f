"""The readers of _records.py in C (native/_fast.c). The classes of what they make are handed in."""

from typing import Iterable, List, Mapping, Optional, Tuple, Type, Union

from ._records import Link, Placed, Token

class Reader:
    def __new__(
        cls,
        classes: Tuple[Type[Token], ...],
        placed: Type[Placed],
        errors: bool = True,
        texts: bool = True,
        tags: Optional[Iterable[str]] = None,
        places: bool = False,
    ) -> Reader: ...
    def read(self, taken: bytes, /) -> List[Union[Token, Placed]]: ...

class LinkReader:
    def __new__(cls, link: Type[Link], attributes: Mapping[str, str]) -> LinkReader: ...
    def read(self, taken: bytes, /) -> List[Link]: ...

class TextReader:
    def __new__(cls, hidden: Iterable[str]) -> TextReader: ...
    def read(self, taken: bytes, /) -> List[str]: ...
