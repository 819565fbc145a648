"""The C library: how it is found, and how a text goes through it, in this process.

A call holds no lock of Python's, has no state, and may be made by many threads at once, each with at least 256 KiB of
stack. Ctrl-C is heeded after the call. What is called is told by the library's header, product_mix.h.
"""

import ctypes
import functools
import os
import sys
from pathlib import Path
from typing import Any, Callable, Optional, Sequence, Tuple

from ._errors import ProgramNotFound
from ._program import PathName, Reply

LIBRARY_VARIABLE = "PRODUCT_MIX_LIBRARY"
# The version of the library's functions that are called here, which is a part of its name.
VERSION = 1
LIBRARY_NAME = "libproduct_mix.so.%d" % VERSION
# The part of which product_mix_version tells this version.
FUNCTIONS = 0

# Where a reply has more room than it was given, the call is made again. Small texts have replies of up to some twenty
# times their size; those of large ones are about as long as they.
LEAST_ROOM = 4096
SMALL_TEXT = 1 << 16
SMALL_FACTOR = 20

_size = ctypes.c_size_t
# Many words are one text to the library, with a blank between them.
Library = Callable[[Sequence[str], bytes], Reply]


def find_library(library: Optional[PathName] = None) -> Optional[Library]:
    """The library given, or that of the variable ``PRODUCT_MIX_LIBRARY``; None where neither names one."""
    if library is not None:
        return _named(os.fspath(library), "library=")
    if os.environ.get(LIBRARY_VARIABLE):
        return _named(os.environ[LIBRARY_VARIABLE], LIBRARY_VARIABLE)
    return None


@functools.lru_cache(maxsize=None)
def usual_library() -> Optional[Library]:
    """The library of this version where the linker finds it, or beside this package or in the lib of this Python."""
    beside = [Path(__file__).with_name(LIBRARY_NAME), Path(sys.prefix, "lib", LIBRARY_NAME)]
    for path in (LIBRARY_NAME, *map(str, beside)):
        try:
            return _loaded(path)
        except OSError:
            continue
    return None


def _named(path: str, by: str) -> Library:
    try:
        return _loaded(path)
    except OSError as error:
        raise ProgramNotFound("the library %s, which %s names, can't be loaded: %s" % (path, by, error)) from error


@functools.lru_cache(maxsize=None)
def _loaded(path: str) -> Library:
    """The library at a path; an ``OSError`` where there is none of this version."""
    library = ctypes.CDLL(path)
    try:
        run, version = library.product_mix_run, library.product_mix_version
    except AttributeError as error:
        raise OSError("it is another library: %s" % error) from error
    version.argtypes, version.restype = [ctypes.c_uint32], ctypes.c_uint32
    if version(FUNCTIONS) != VERSION:
        raise OSError("its functions have the version %d, and %d is wanted" % (version(FUNCTIONS), VERSION))
    # Without these a length would be cut to the size of an int.
    run.argtypes = [ctypes.c_char_p, _size, ctypes.c_char_p, _size, ctypes.c_void_p, _size, ctypes.POINTER(_size)]
    run.restype = ctypes.c_uint32
    return functools.partial(_run, run)


def _run(function: Any, words: Sequence[str], text: bytes) -> Reply:
    word = " ".join(words).encode("utf-8", "surrogatepass")
    room = LEAST_ROOM + SMALL_FACTOR * min(len(text), SMALL_TEXT) + len(text)
    status, printed, needed = _call(function, word, text, room)
    if len(printed) < needed:
        status, printed, needed = _call(function, word, text, needed)
    return Reply(status, printed)


def _call(function: Any, word: bytes, text: bytes, least_room: int) -> Tuple[int, bytes, int]:
    # ctypes makes a type for each size of a buffer, which takes longer than the call: so there are few sizes.
    room = 1 << least_room.bit_length()
    out, needed = ctypes.create_string_buffer(room), _size()
    status = function(word, len(word), text, len(text), out, room, ctypes.byref(needed))
    return status, ctypes.string_at(out, needed.value) if needed.value <= room else b"", needed.value
