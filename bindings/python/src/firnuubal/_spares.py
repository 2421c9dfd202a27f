"""Handles whose pages are over. Each keeps its table of names, which the next page takes over."""

from typing import Dict, List, Optional, Tuple

from ._library import Handle, Options, library

# What a handle keeps from page to page: its limit, how bytes are read, and whether tokens have places.
Kept = Tuple[Optional[int], Optional[bytes], bool]

# The options of a page that nobody reads, by whether its tokens have places.
_IDLE = {False: Options(), True: Options(places=True)}


class Spares:
    """Such handles, by what they keep: no more than so many of each of so many kinds.

    Threads share them without a lock, by steps of which each is done at once: so nothing waits here, neither a signal's
    function nor what is called as garbage is collected."""

    def __init__(self, most: int) -> None:
        self._most = most
        self._handles: Dict[Kept, List[Handle]] = {}

    def take(self, kept: Kept) -> Optional[Handle]:
        """A handle that keeps just this, if there is one."""
        try:
            return self._handles[kept].pop()
        except LookupError:
            return None

    def keep(self, kept: Kept, handle: Handle) -> None:
        """Keeps an open handle, or closes it. What it holds of its page is given back."""
        if library.html5_restart(handle, b"", 0, _IDLE[kept[2]]) != 0:
            handle.close()
            return
        if kept not in self._handles and len(self._handles) >= self._most:
            self._handles.clear()
        own = self._handles.setdefault(kept, [])
        if len(own) < self._most:
            own.append(handle)
        else:
            handle.close()


def page_at_start(spares: Spares, kept: Kept, last_start_tag: bytes, options: Options) -> Tuple[Handle, int]:
    """A handle at the start of a page, and the status of the calls that made it so."""
    handle = spares.take(kept)
    if handle is not None:
        return handle, library.html5_restart(handle, last_start_tag, len(last_start_tag), options)
    handle = Handle()
    status = library.html5_new(handle, last_start_tag, len(last_start_tag), options)
    limit, label, _ = kept
    if status == 0 and limit is not None:
        status = library.html5_set_limit(handle, limit)
    if status == 0 and label is not None:
        status = library.html5_set_encoding(handle, label, len(label))
    return handle, status
