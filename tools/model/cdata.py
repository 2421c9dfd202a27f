"""CDATA sections: docs/GRAMMAR.md, "One CDATA section as source text" and "CDATA sections"."""

from .messages import Null, Told, texts
from .reading import DATA, Item, Mode, Reading


def cdata_item(reading: Reading, start: int, mode: Mode) -> Item:
    """A CDATA section from after its opening on, up to the first `]]>`."""
    stop = reading.find("]]>", start)
    told: Told = []
    pieces = reading.text[start:stop].split("\0")
    for piece in pieces[:-1]:
        start += len(piece)
        told += texts(start, piece) + [(start, Null())]
        start += 1
    if stop is None:
        return Item(reading.end, told + texts(reading.end, pieces[-1]) + reading.nothing_at_end(mode), None)
    return Item(stop + 3, told + texts(stop + 2, pieces[-1]), DATA)
