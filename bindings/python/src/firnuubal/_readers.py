"""The readers of records: those of the extension `_fast`, where it is there, or else those in Python.

The extension stands in the package or beside the library. With FIRNUUBAL_PURE=1 in the environment it is left aside.
"""

import functools
import importlib.machinery
import importlib.util
import os
import sys
import warnings
from typing import Any, Callable

from . import _records
from ._library import FOLDER, HERE

_NAME = f"{__package__}._fast"


def _extension() -> Any:
    """The extension, or None if there is none for this Python, as on PyPy."""
    if os.environ.get("FIRNUUBAL_PURE"):
        return None
    spec = importlib.machinery.PathFinder.find_spec(_NAME, [str(HERE), str(FOLDER)])
    if spec is None or spec.loader is None:
        return None
    try:
        module = importlib.util.module_from_spec(spec)
        spec.loader.exec_module(module)
    except ImportError as error:
        warnings.warn(f"{spec.origin} can't be imported, so pages are read more slowly: {error}", RuntimeWarning, stacklevel=2)
        return None
    sys.modules[_NAME] = module
    setattr(sys.modules[__package__], "_fast", module)
    return module


_extended = _extension()

# Whether the extension reads records.
IS_FAST = _extended is not None

Reader: Callable[..., Any] = _records.Reader
LinkReader: Callable[..., Any] = _records.LinkReader
TextReader: Callable[..., Any] = _records.TextReader

if _extended is not None:
    Reader = functools.partial(_extended.Reader, _records.CLASSES, _records.Placed)
    LinkReader = functools.partial(_extended.LinkReader, _records.Link)
    TextReader = _extended.TextReader
