"""Keeps what is committed in a store of `luzhanem` in a database, SQLite or PostgreSQL. Tested, not proved.

    from luzhanem import Refused
    from luzhanem_durable import Durable, NotSaved

    with Durable("sqlite:/var/lib/playout/one.db", "channel one", create=True) as d:
        d.store.begin(0)
        d.store.write(0, 3, b"14:02 jingle\\n")
        try:
            d.commit(0, minute=14 * 60 + 2)      # granted, and there after a crash
        except Refused:                          # not granted: d.store.commit says why
            ...
        except NotSaved:                         # granted in memory, not known to be on disk; the next sync tries again
            ...

`d.store` is a luzhanem.Store, and each of its calls may be made as before. What changes what is committed, other than
d.commit, is followed by d.sync(): set_window, undo, dispatch. Several threads may use one Durable; those that sync at the
same time share one save. luzhanem_durable.h describes each call.
"""
from __future__ import annotations

import ctypes
import os
from types import TracebackType
from typing import Any, Callable, NamedTuple

from luzhanem import Refused, Store

__all__ = [
    "BadArgument", "Channel", "Damaged", "Durable", "DurableError", "Fenced", "Format", "Loaded", "NoChannel", "NoMemory",
    "NotSaved", "Unreachable", "channels", "load",
]

CREATE, NORMAL, OFF = 1, 2, 4


class DurableError(Exception):
    """An answer of the layer; its text has the database's own words where there are some."""

    answer = 0


class NotSaved(DurableError):
    """Granted in memory and not known to be on disk; the next sync tries again."""

    answer = -101


class Fenced(DurableError):
    """Another open has taken the channel over; nothing more is written from here."""

    answer = -102


class Unreachable(DurableError):
    """The database cannot be opened, read or written."""

    answer = -103


class NoChannel(DurableError):
    """The database has no channel of this name."""

    answer = -104


class Format(DurableError):
    """The channel was written in another format, by another version."""

    answer = -105


class Damaged(DurableError):
    """A part of the channel is missing, or has another size or checksum."""

    answer = -106


class BadArgument(DurableError):
    """The URL or the name of the channel is not valid."""

    answer = -107


class NoMemory(DurableError):
    """There is no memory for it."""

    answer = -108


_ERRORS = {kind.answer: kind for kind in DurableError.__subclasses__()}


class Channel(NamedTuple):
    """A channel of a database, and how many saves and takeovers it had."""

    name: str
    generation: int


class Loaded(NamedTuple):
    """What is saved of a channel, and how many saves and takeovers it had."""

    store: Store
    generation: int


def _load() -> ctypes.CDLL:
    """The library that LUZHANEM_DURABLE_LIBRARY names; else one beside this file; else the one the system finds."""
    named = os.environ.get("LUZHANEM_DURABLE_LIBRARY")
    beside = os.path.join(os.path.dirname(os.path.abspath(__file__)), "libluzhanem_durable.so")
    error: OSError | None = None
    for name in [named] if named else [beside, "libluzhanem_durable.so.0"]:
        try:
            return ctypes.CDLL(name)
        except OSError as e:
            error = e
    raise ImportError(f"libluzhanem_durable.so is not found ({error}); LUZHANEM_DURABLE_LIBRARY can name it") from error


_LOCK = ctypes.CFUNCTYPE(None, ctypes.c_void_p)
_VISIT = ctypes.CFUNCTYPE(None, ctypes.c_void_p, ctypes.c_char_p, ctypes.c_int64)


class _LockStruct(ctypes.Structure):
    _fields_ = [("take", _LOCK), ("give", _LOCK), ("context", ctypes.c_void_p)]


_library = _load()


def _function(name: str, arguments: list[Any], result: Any = ctypes.c_int) -> Callable[..., Any]:
    function = getattr(_library, "luzhanem_durable_" + name)
    function.argtypes, function.restype = arguments, result
    return function  # type: ignore[no-any-return]


_p, _text = ctypes.c_void_p, ctypes.c_char_p
_open = _function("open", [ctypes.POINTER(_p), _text, _text, ctypes.c_int, _p, ctypes.POINTER(_LockStruct)])
_sync = _function("sync", [_p])
_close = _function("close", [_p], None)
_load_channel = _function("load", [_text, _text, _p, ctypes.POINTER(ctypes.c_int64)])
_list = _function("list", [_text, _VISIT, _p])
_error = _function("error", [], _text)


def _check(answer: int) -> int:
    """Raises for an answer below 0: a DurableError, or luzhanem's Refused."""
    if answer >= 0:
        return answer
    kind = _ERRORS.get(answer)
    raise Refused(answer) if kind is None else kind(_error().decode("utf-8", "replace"))


def _words(text: str) -> bytes:
    """As C takes it: one with a 0 in it would be cut there."""
    if "\0" in text:
        raise BadArgument("a text with a 0 in it")
    return text.encode()


class Durable:
    """A channel that is ours, and its store. Opening takes it over: a sync of its former holder raises Fenced.

    `store` is used where the channel is new, and becomes what is saved where it is not; a new Store where None. `create`
    makes the channel, its tables and SQLite's file where they are missing. `normal` survives the process and not always
    the machine; `off` never waits for a disk."""

    def __init__(
        self, url: str, channel: str, *, create: bool = False, normal: bool = False, off: bool = False,
        store: Store | None = None,
    ) -> None:
        self._at: int | None = None
        self.store: Store = Store() if store is None else store
        lock = self.store._lock
        # The library keeps these; so does this object.
        self._lock = _LockStruct(_LOCK(lambda _: lock.acquire() and None), _LOCK(lambda _: lock.release()), None)
        how = (CREATE if create else 0) | (NORMAL if normal else 0) | (OFF if off else 0)
        at = _p()
        with lock:
            _check(_open(ctypes.byref(at), _words(url), _words(channel), how, self.store._block, ctypes.byref(self._lock)))
        self._at = at.value

    def sync(self) -> None:
        """Returns when all that was committed before the call is on disk and the channel was still ours."""
        if self._at is None:
            raise ValueError("the channel is closed")
        _check(_sync(self._at))

    def commit(self, t: int, minute: int) -> frozenset[int]:
        """Commits t and syncs. Refused: not granted. A DurableError: granted in memory, and not known to be on disk."""
        if self._at is None:
            raise ValueError("the channel is closed")
        stale = self.store.commit(t, minute)
        self.sync()
        return stale

    def close(self) -> None:
        """Drops the connection; what was not synced is not saved. No thread may be in a sync. The store stays usable."""
        at, self._at = self._at, None
        _close(at)

    def __enter__(self) -> Durable:
        return self

    def __exit__(self, kind: type[BaseException] | None, error: BaseException | None, trace: TracebackType | None) -> None:
        self.close()

    def __del__(self) -> None:
        if getattr(self, "_at", None) is not None:
            self.close()


def load(url: str, channel: str) -> Loaded:
    """Reads a channel without taking it."""
    store, generation = Store(), ctypes.c_int64()
    _check(_load_channel(_words(url), _words(channel), store._block, ctypes.byref(generation)))
    return Loaded(store, generation.value)


def channels(url: str) -> list[Channel]:
    """The channels of a database, by name."""
    found: list[Channel] = []
    visit = _VISIT(lambda _, name, generation: found.append(Channel(name.decode("utf-8", "replace"), generation)))
    _check(_list(_words(url), visit, None))
    return found
