"""The functions of luzhanem.h, through ctypes. Nothing checks that they agree with it but the tests."""
from __future__ import annotations

import ctypes
import enum
import os
from typing import Any, Callable


class Refusal(enum.IntEnum):
    """The refusals; the values are the numbers of docs/RULES.md. luzhanem.h says what to do after each."""

    BUFFER_LENGTH = 1
    RECORD_RANGE = 2
    NO_SUCH_TRANSACTION = 3
    NOT_OPEN = 4
    ALREADY_OPEN = 5
    NO_SUCH_TARGET = 6
    READER_TOO_SHORT = 7
    SEEK_PAST_END = 8
    WRITE_PAST_END = 9
    RECORDS_FULL = 10
    LOG_FULL = 11
    APPEND_PAST_END = 12
    STALE = 13
    NO_SUCH_FILE = 14
    NO_PLACE_YET = 15
    LIST_TOO_LONG = 16
    BAD_LINE = 17
    STALE_READER = 18
    NOT_AT_REST = 19
    SCRIPT_RANGE = 20
    FILE_CLOSED = 21
    NO_SUCH_MINUTE = 22
    STILL_OPEN = 23
    NO_GRANT = 24
    NOT_READY = 25
    BAD_LIST = 26
    BAD_BUDGET = 27


class Refused(Exception):
    """A call was refused; `refusal` says why."""

    def __init__(self, answer: int) -> None:
        self.refusal = Refusal(-answer)
        super().__init__(f"{self.refusal.name}: {strerror(answer)}")


class ScriptCallStruct(ctypes.Structure):
    _fields_ = [(name, ctypes.c_size_t) for name in ("kind", "descriptor", "at", "count")]


class ScriptsStruct(ctypes.Structure):
    _fields_ = [("calls", ScriptCallStruct * 16 * 8), ("counts", ctypes.c_size_t * 8), ("count", ctypes.c_size_t)]


class OrderStruct(ctypes.Structure):
    _fields_ = [("order", ctypes.c_uint8 * 8), ("gap", ctypes.c_uint16), ("tried", ctypes.c_uint16)]


class PlaceStruct(ctypes.Structure):
    _fields_ = [("offset", ctypes.c_uint16), ("length", ctypes.c_uint16)]


class BlockStruct(ctypes.Structure):
    _fields_ = [
        ("record", ctypes.c_uint16 * 2115), ("files", ctypes.c_uint8 * 32768), ("logs", ctypes.c_uint8 * 32768),
        ("marks", ctypes.c_uint8 * 32768), ("undo", ctypes.c_uint8 * 4096), ("unused", ctypes.c_uint8 * 2),
    ]


class ImageStruct(ctypes.Structure):
    _fields_ = [("numbers", ctypes.c_uint8 * 552), ("files", ctypes.c_uint8 * 32768), ("undo", ctypes.c_uint8 * 4096)]


BLOCK_BYTES: int = BlockStruct.unused.offset
FILES_AT: int = BlockStruct.files.offset
IMAGE_BYTES: int = ctypes.sizeof(ImageStruct)
LINE_BYTES = 8238

PUT = ctypes.CFUNCTYPE(None, ctypes.c_void_p, ctypes.POINTER(ctypes.c_char), ctypes.c_size_t)


class RecorderStruct(ctypes.Structure):
    _fields_ = [("put", PUT), ("context", ctypes.c_void_p), ("line", ctypes.c_char * LINE_BYTES)]


def _load() -> ctypes.CDLL:
    """The library that LUZHANEM_LIBRARY names; else one beside this file; else the one the system finds."""
    named = os.environ.get("LUZHANEM_LIBRARY")
    beside = os.path.join(os.path.dirname(os.path.abspath(__file__)), "libluzhanem.so")
    error: OSError | None = None
    for name in [named] if named else [beside, "libluzhanem.so.0"]:
        try:
            return ctypes.CDLL(name)
        except OSError as e:
            error = e
    raise ImportError(f"libluzhanem.so is not found ({error}); LUZHANEM_LIBRARY can name it") from error


_library = _load()
_n, _p, _bytes, _int = ctypes.c_size_t, ctypes.c_void_p, ctypes.c_char_p, ctypes.c_int

# The arguments of each function; behind the store, or behind a line's buffer and its length.
_CALLS: dict[str, list[Any]] = {
    "fresh": [_n, _bytes], "begin": [_n], "abort": [_n], "seek": [_n, _n, _n], "write": [_n, _n, _bytes, _n],
    "get_file_pointer": [_n, _n], "read": [_n, _n, _p, _n], "commit": [_n, _n], "places": [_n, _n, _p, _n],
    "set_window": [_n, _n, _n], "undo": [], "dispatch": [_p, _bytes, _n, _p, _n, _n, _p],
    "dispatch_recorded": [_p, _bytes, _n, _p, _n, _n, _p, _p], "best_order": [_bytes, _n, _n, _n, _p], "offset": [_n],
    "file_of": [_n], "length": [_n], "state": [_n], "check": [], "save": [_p], "load": [_p], "replay_line": [_bytes, _n],
}
_LINES: dict[str, list[Any]] = {
    "fresh": [_bytes], "begin": [_n], "abort": [_n], "seek": [_n, _n, _n], "write": [_n, _n, _bytes, _n],
    "get_file_pointer": [_n, _n], "read": [_n, _n, _n], "commit": [_n, _n], "places": [_n, _n, _n],
    "set_window": [_n, _n, _n], "undo": [], "best_order": [_bytes, _n, _n, _n], "done": [_int], "number": [_int],
    "given": [_int, _p, _n], "listed": [_int, _p, _n], "ordered": [_int, _p, _n],
}


def _function(name: str, arguments: list[Any]) -> Callable[..., int]:
    function = getattr(_library, "luzhanem_" + name)
    function.argtypes, function.restype = arguments, _int
    return function  # type: ignore[no-any-return]


CALL = {name: _function(name, [_p, *arguments]) for name, arguments in _CALLS.items()}
LINE = {name: _function("line_" + name, [_p, _n, *arguments]) for name, arguments in _LINES.items()}

_library.luzhanem_strerror.restype = _library.luzhanem_errname.restype = _library.luzhanem_version.restype = _bytes
_library.luzhanem_size.restype = _n
SIZE: int = _library.luzhanem_size()
if SIZE != ctypes.sizeof(BlockStruct):
    raise ImportError(f"libluzhanem.so is of another version: {_library.luzhanem_version().decode()}")


def strerror(answer: int) -> str:
    return str(_library.luzhanem_strerror(answer).decode())


def errname(answer: int) -> str:
    return str(_library.luzhanem_errname(answer).decode())


def version() -> str:
    """The version of the library that is linked."""
    return str(_library.luzhanem_version().decode())


def layout() -> int:
    """The number of the library's layout: a block fits one layout only."""
    return int(_library.luzhanem_layout())
