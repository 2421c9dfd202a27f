"""The library, libfirnuubal.so, and its calls."""

import ctypes
import os
import pathlib
import re
from typing import Any, List, Optional, Tuple

from . import __version__

NAME = "libfirnuubal.so"
HERE = pathlib.Path(__file__).resolve().parent


class Handle(ctypes.Structure):
    """What a call is given: html5_handle of firnuubal.h. One of zeros is closed. It frees what it holds when it goes."""

    _fields_ = [("at", ctypes.c_void_p), ("is_open", ctypes.c_bool)]

    # Set once the library is loaded. Held here, since a handle may go while Python ends, when modules are empty.
    _free: Any = None

    def close(self) -> None:
        """Gives the memory back."""
        if self.is_open:
            self._free(self)

    __del__ = close


class Options(ctypes.Structure):
    """html5_options of firnuubal.h."""

    _fields_ = [
        ("state", ctypes.c_uint32),
        ("replies", ctypes.c_uint32),
        ("exact_errors", ctypes.c_bool),
        ("keep_bom", ctypes.c_bool),
        ("foreign", ctypes.c_bool),
        ("places", ctypes.c_bool),
    ]


_HANDLE = ctypes.POINTER(Handle)
# Each pair is given bytes of just that type, and their length. A length that isn't theirs reads memory that isn't there.
_BYTES = [ctypes.c_char_p, ctypes.c_size_t]
_STATUS = ctypes.c_uint32

# Each call: the types of its arguments, and that of its answer.
_CALLS = {
    "html5_new": ([_HANDLE, *_BYTES, ctypes.POINTER(Options)], _STATUS),
    "html5_restart": ([_HANDLE, *_BYTES, ctypes.POINTER(Options)], _STATUS),
    "html5_feed": ([_HANDLE, *_BYTES], _STATUS),
    "html5_insert": ([_HANDLE, *_BYTES], _STATUS),
    "html5_reply": ([_HANDLE, _STATUS], _STATUS),
    "html5_set_foreign": ([_HANDLE, ctypes.c_bool], _STATUS),
    "html5_set_limit": ([_HANDLE, ctypes.c_uint64], _STATUS),
    "html5_set_encoding": ([_HANDLE, *_BYTES], _STATUS),
    "html5_encoding": ([_HANDLE, *_BYTES], ctypes.c_size_t),
    "html5_end": ([_HANDLE], _STATUS),
    "html5_take": ([_HANDLE, *_BYTES], ctypes.c_size_t),
    "html5_error_at": ([_HANDLE], ctypes.c_uint64),
    "html5_error_code": ([*_BYTES, *_BYTES], ctypes.c_size_t),
    "html5_is_over": ([_HANDLE], ctypes.c_bool),
    "html5_free": ([_HANDLE], None),
    "html5_policy_new": ([_HANDLE], _STATUS),
    "html5_policy_add": ([_HANDLE, ctypes.c_uint32, *_BYTES, *_BYTES], _STATUS),
    "html5_cleaner_begin": ([_HANDLE], _STATUS),
    "html5_cleaner_new": ([_HANDLE, *_BYTES, ctypes.POINTER(ctypes.c_uint64)], _STATUS),
    "html5_cleaner_restart": ([_HANDLE], _STATUS),
    "html5_cleaner_feed": ([_HANDLE, *_BYTES], _STATUS),
    "html5_cleaner_end": ([_HANDLE], _STATUS),
    "html5_cleaner_take": ([_HANDLE, *_BYTES], ctypes.c_size_t),
    "html5_cleaner_error_at": ([_HANDLE], ctypes.c_uint64),
}


def _tree() -> Optional[pathlib.Path]:
    """The source tree around the package, where it stands in one: its bindings/python is the project of this name."""
    if HERE.parts[-4:-1] != ("bindings", "python", "src"):
        return None
    project = HERE.parents[1] / "pyproject.toml"
    if not project.is_file() or not re.search('^name = "firnuubal"$', project.read_text(encoding="utf-8"), re.MULTILINE):
        return None
    return HERE.parents[3]


def _folders() -> List[pathlib.Path]:
    """Where the library may be: where it is said to be, or else in the package, or in the source tree around it."""
    said = os.environ.get("FIRNUUBAL_LIB")
    if said:
        return [pathlib.Path(said).absolute()]
    tree = _tree()
    return [HERE, tree / "bindings" / "out", tree / "dist"] if tree else [HERE]


def _version(loaded: ctypes.CDLL) -> str:
    """The version that a library says of itself."""
    try:
        call = loaded.html5_version
    except AttributeError:
        return "another version"
    call.argtypes, call.restype = [], ctypes.c_uint32
    number = call()
    return f"version {number >> 16}.{number >> 8 & 0xFF}.{number & 0xFF}"


def _load() -> Tuple[ctypes.CDLL, pathlib.Path]:
    folders = _folders()
    found = next((folder for folder in folders if (folder / NAME).is_file()), None)
    if found is None:
        places = ", ".join(map(str, folders))
        raise ImportError(f"{NAME} is not in {places}: install the wheel, or build it with bindings/build.sh")
    try:
        loaded = ctypes.CDLL(str(found / NAME))
    except OSError as error:
        raise ImportError(f"{found / NAME} can't be loaded: {error}") from error
    version = _version(loaded)
    if version != f"version {__version__}":
        raise ImportError(f"{found / NAME} is of {version}, and the package firnuubal of version {__version__}")
    for name, (arguments, answer) in _CALLS.items():
        function = getattr(loaded, name)
        function.argtypes, function.restype = arguments, answer
    return loaded, found


# The library, and the folder where it was found.
library, FOLDER = _load()
Handle._free = staticmethod(library.html5_free)

ROOM = 1 << 16


def taken(take: Any, handle: Any, room: Any) -> bytes:
    """All the bytes that wait in a handle."""
    count = take(handle, room, ROOM)
    if count < ROOM:
        return room[:count]  # type: ignore[no-any-return]
    parts = [room[:count]]
    while count == ROOM:
        count = take(handle, room, ROOM)
        parts.append(room[:count])
    return b"".join(parts)


def encoding_of(handle: Handle) -> Optional[str]:
    """The name of the encoding in which a handle's page is read, once it is known."""
    name = ctypes.create_string_buffer(16)
    count = library.html5_encoding(handle, name, len(name))
    return name.raw[:count].decode() or None


# There is room for each code in so many bytes.
_CODE_ROOM = 64


def error_code(message: str) -> Optional[str]:
    """The code that the standard has for a parse error with this message, if it has one."""
    text = str.encode(message, "utf-8", "surrogatepass")
    code = ctypes.create_string_buffer(_CODE_ROOM)
    count = library.html5_error_code(text, len(text), code, len(code))
    return code.raw[:count].decode() or None
