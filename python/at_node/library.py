"""The shared library `libat_node.so.1`: where it lies, and its functions for ctypes."""

from __future__ import annotations

import ctypes
import functools
import os
from pathlib import Path
from typing import Iterator

from .faults import LibraryMissing

NAME = "libat_node.so.1"
# The environment variable that names the file, before any other place.
VARIABLE = "AT_NODE_LIBRARY"
# The number of the library that this package is for.
NUMBER = 2

OK, NO_MEMORY, NO_SETUP, NO_SUCH_NODE, NO_EVENT, NOT_OPEN, MISSING, NO_ROOM = range(8)
MAX_DATAGRAM = 599
MAX_REPORT = 262_156
MAX_TIMERS = 6_040
MAX_SHOWN = 4_096
EVERYONE = 255


class Handle(ctypes.Structure):
    """The struct `at_node` of the header. It begins as no node."""

    _fields_ = [("pointer", ctypes.c_void_p)]


_HANDLE, _BYTES, _SIZE = ctypes.POINTER(Handle), ctypes.c_void_p, ctypes.c_size_t
_NUMBER, _LENGTH = ctypes.POINTER(ctypes.c_uint8), ctypes.POINTER(ctypes.c_size_t)
_ROOM = [_BYTES, _SIZE, _LENGTH]
_PARAMETERS = {
    "open": [_HANDLE, _BYTES, _SIZE, ctypes.c_uint8],
    "play": [_HANDLE, _BYTES, _SIZE],
    "receive": [_HANDLE, _BYTES, _SIZE],
    "next_datagram": [_HANDLE, _NUMBER, *_ROOM],
    "report": [_HANDLE, ctypes.c_uint32, *_ROOM],
    "refusal": [_HANDLE, _NUMBER, *_ROOM],
    "timers": [_HANDLE, *_ROOM],
    "show": [_BYTES, _SIZE, *_ROOM],
    "version": [],
}


def places() -> Iterator[Path]:
    """The files that the library may be: the one that is named, or those beside the package."""
    named = os.environ.get(VARIABLE)
    if named:
        yield Path(named)
        return
    for folder in Path(__file__).resolve().parents:
        yield folder / NAME
        yield folder / "lib" / NAME


def find() -> str:
    """The path of the library, or its name alone, for the system's loader to find."""
    for place in places():
        if place.is_file():
            return str(place)
    return os.environ.get(VARIABLE) or NAME


@functools.lru_cache(maxsize=None)
def load() -> ctypes.CDLL:
    """The library with the types of its functions. Raises LibraryMissing."""
    path = find()
    try:
        library = ctypes.CDLL(path)
        declare(library)
    except (OSError, AttributeError) as error:
        raise LibraryMissing(
            f"{path} can't be loaded ({error}): run `./atnode install PREFIX` at the top of the"
            f" repository, or let {VARIABLE} name the file {NAME}"
        ) from error
    number = library.at_node_version()
    if number != NUMBER:
        raise LibraryMissing(
            f"{path} has the number {number}, and this package is for {NUMBER}:"
            " install both from one source"
        )
    return library


def declare(library: ctypes.CDLL) -> None:
    """Gives the functions their types, so that ctypes refuses what is none of them."""
    for name, parameters in _PARAMETERS.items():
        function = getattr(library, "at_node_" + name)
        function.argtypes = parameters
        function.restype = ctypes.c_uint32
    library.at_node_close.argtypes = [_HANDLE]
    library.at_node_close.restype = None
