"""The class Store."""
from __future__ import annotations

import ctypes
import enum
import threading
from collections.abc import Callable, Iterable, Sequence
from dataclasses import dataclass
from typing import Any, BinaryIO, NamedTuple, Union

from ._library import (
    BLOCK_BYTES, CALL, FILES_AT, IMAGE_BYTES, LINE, LINE_BYTES, PUT, SIZE, OrderStruct, PlaceStruct, RecorderStruct,
    Refusal, Refused, ScriptsStruct,
)


class State(enum.IntEnum):
    """How a transaction stands."""

    CLOSED = 0
    OPEN = 1
    STALE = 2


@dataclass(frozen=True)
class Seek:
    descriptor: int
    offset: int


@dataclass(frozen=True)
class Write:
    """A write of `count` bytes of the dispatcher's data, from `start` on."""

    descriptor: int
    start: int
    count: int


@dataclass(frozen=True)
class GetFilePointer:
    descriptor: int


@dataclass(frozen=True)
class Read:
    descriptor: int
    count: int


ScriptCall = Union[Seek, Write, GetFilePointer, Read]


class Dispatched(NamedTuple):
    """The commits made, the refusal that ended each script (None: committed), and the reader's buffer."""

    commits: int
    ended: tuple[Refusal | None, ...]
    reader: bytes


class Order(NamedTuple):
    """An order to commit in; no order has more grants than grants + gap."""

    order: tuple[int, ...]
    grants: int
    gap: int
    tried: int


# Where lines go: a callable that takes one, with its end, or a file that is open for bytes.
Sink = Union[Callable[[bytes], Any], BinaryIO]
Bytes = Union[bytes, bytearray, memoryview]


def _number(n: int) -> int:
    """As a size_t; one that no size_t holds is out of every range, as the largest size_t is."""
    if not isinstance(n, int):
        raise TypeError(f"a number is wanted, not {type(n).__name__}")
    return n if 0 <= n < 2**64 else 2**64 - 1


def _octets(numbers: Iterable[int]) -> bytes:
    """A number that no octet holds is out of every range, as 255 is."""
    return bytes(min(_number(n), 255) for n in numbers)


def _bytes(data: Bytes) -> bytes:
    if isinstance(data, (str, int)):
        raise TypeError(f"bytes are wanted, not {type(data).__name__}")
    return bytes(data)


class Store:
    """A store in memory of its own. `record` names a sink for every call and its answer, from the first on."""

    def __init__(self, file_of: Sequence[int] | None = None, record: Sink | None = None) -> None:
        if file_of is not None and len(file_of) != 16:
            raise ValueError("sixteen file numbers are wanted, one for each descriptor")
        self._lock = threading.RLock()
        self._block = ctypes.create_string_buffer(SIZE)
        self._recorder: Callable[[bytes], Any] | None = None
        self._line = ctypes.create_string_buffer(LINE_BYTES)
        self.record_error: Exception | None = None
        """What the sink raised; recording has then stopped, and the calls go on."""
        if record is not None:
            self.record(record)
        list_ = None if file_of is None else _octets(file_of)
        self._recorded("fresh", (SIZE, list_), (list_,))

    def record(self, to: Sink | None) -> None:
        """Records from now on; None ends it. `replay` starts from block() as it is now: write that to a file first."""
        with self._lock:
            self._recorder = to if to is None or callable(to) else to.write
            self.record_error = None
            self._put(b"V1\n")

    @property
    def recording(self) -> bool:
        return self._recorder is not None

    def _put(self, line: bytes) -> None:
        if self._recorder is None:
            return
        try:
            self._recorder(line)
        except Exception as e:
            self.record_error, self._recorder = e, None

    def _put_line(self, name: str, *arguments: object) -> None:
        if self._recorder is not None:
            self._put(ctypes.string_at(self._line, LINE[name](self._line, LINE_BYTES, *arguments)))

    def _recorded(
        self, name: str, arguments: tuple[object, ...], recorded: tuple[object, ...] | None = None,
        answer: str = "done", given: tuple[object, ...] = (),
    ) -> int:
        """Makes a call under the lock, with its line before it and the line of its answer after it."""
        with self._lock:
            if self._recorder is None:
                r = CALL[name](self._block, *arguments)
            else:
                self._put_line(name, *(arguments if recorded is None else recorded))
                r = CALL[name](self._block, *arguments)
                self._put_line(answer, r, *given)
        if r < 0:
            raise Refused(r)
        return r

    def _look(self, name: str, *arguments: object) -> int:
        with self._lock:
            r = CALL[name](self._block, *arguments)
        if r < 0:
            raise Refused(r)
        return r

    def begin(self, t: int) -> None:
        """Opens transaction t."""
        self._recorded("begin", (_number(t),))

    def abort(self, t: int) -> None:
        """Ends t, and drops its writes."""
        self._recorded("abort", (_number(t),))

    def seek(self, t: int, d: int, offset: int) -> None:
        """Sets the offset of descriptor d in t."""
        self._recorded("seek", (_number(t), _number(d), _number(offset)))

    def write(self, t: int, d: int, data: Bytes) -> None:
        """Writes at that offset; an append if t has not looked at it."""
        data = _bytes(data)
        self._recorded("write", (_number(t), _number(d), data, len(data)))

    def get_file_pointer(self, t: int, d: int) -> int:
        """The offset of d in t, as t sees it; offset() looks from outside."""
        return self._recorded("get_file_pointer", (_number(t), _number(d)), answer="number")

    def read(self, t: int, d: int, n: int) -> bytes:
        """Up to n bytes at the offset of d in t, as far as the file goes, own writes first."""
        room = min(_number(n), 4096)
        out = ctypes.create_string_buffer(room)
        where = (_number(t), _number(d))
        given = self._recorded("read", (*where, out, room), (*where, room), "given", (out, room))
        return out.raw[:given]

    def commit(self, t: int, minute: int) -> frozenset[int]:
        """Applies what t wrote, at a minute of the day, and ends it. Answers the transactions that it made stale."""
        octet = self._recorded("commit", (_number(t), _number(minute)), answer="number")
        return frozenset(u for u in range(8) if octet >> u & 1)

    def places(self, t: int, f: int) -> list[tuple[int, int]]:
        """Where the writes of t on file f will land: offsets and lengths."""
        out, where = (PlaceStruct * 64)(), (_number(t), _number(f))
        n = self._recorded("places", (*where, out, 64), (*where, 64), "listed", (out, 64))
        return [(place.offset, place.length) for place in out[:n]]

    def set_window(self, f: int, start: int, end: int) -> None:
        """Bytes may go to file f from minute start on, before minute end."""
        self._recorded("set_window", (_number(f), _number(start), _number(end)))

    def undo(self) -> None:
        """Undoes the last commit."""
        self._recorded("undo", ())

    def dispatch(
        self, scripts: Sequence[Sequence[ScriptCall]], data: Bytes, minute: int, reader: Bytes = bytes(4096)
    ) -> Dispatched:
        """Runs script k as transaction k, in rounds, until each is committed or has failed.

        While the store records, the calls are made one by one, so that each has its line."""
        flat, ended, data = _flat(scripts), (ctypes.c_int * 8)(), _bytes(data)
        buffer = ctypes.create_string_buffer(_bytes(reader), len(reader))
        arguments = (ctypes.byref(flat), data, len(data), buffer, len(reader), _number(minute), ended)
        with self._lock:
            if self._recorder is None:
                commits = self._look("dispatch", *arguments)
            else:
                put = PUT(lambda _, line, n: self._put(ctypes.string_at(line, n)))
                commits = self._look("dispatch_recorded", *arguments, ctypes.byref(RecorderStruct(put)))
        ends = tuple(Refusal(-end) if end else None for end in ended[: len(scripts)])
        return Dispatched(commits, ends, buffer.raw)

    def best_order(self, transactions: Iterable[int], minute: int, budget: int = 40320) -> Order:
        """The order of these open transactions in which most would be committed, of at most budget orders tried."""
        list_, out = _octets(transactions), OrderStruct()
        asked = (list_, len(list_), _number(minute), _number(budget))
        found = ctypes.byref(out)
        grants = self._recorded("best_order", (*asked, found), asked, "ordered", (found, len(list_)))
        return Order(tuple(out.order[: len(list_)]), grants, out.gap, out.tried)

    def offset(self, d: int) -> int:
        """The committed offset of descriptor d, from outside every transaction."""
        return self._look("offset", _number(d))

    def file_of(self, d: int) -> int:
        """The file of descriptor d."""
        return self._look("file_of", _number(d))

    def length(self, f: int) -> int:
        """The committed length of file f."""
        return self._look("length", _number(f))

    def state(self, t: int) -> State:
        """How transaction t stands."""
        return State(self._look("state", _number(t)))

    def file(self, f: int) -> bytes:
        """What is committed of file f."""
        with self._lock:
            n = self._look("length", _number(f))
            return ctypes.string_at(ctypes.byref(self._block, FILES_AT + 4096 * f), min(n, 4096))

    def check(self) -> None:
        """Raises RECORD_RANGE if a number of the store is out of its range."""
        self._look("check")

    def save(self) -> bytes:
        """An image of what is committed, whatever is open, in the form of docs/IMAGE.md."""
        out = ctypes.create_string_buffer(IMAGE_BYTES)
        self._look("save", out)
        return out.raw

    @classmethod
    def load(cls, image: Bytes) -> Store:
        """A store from an image; it answers as the saved one would with every transaction aborted."""
        image = _bytes(image)
        if len(image) != IMAGE_BYTES:
            raise Refused(-Refusal.BUFFER_LENGTH)
        s = cls()
        s._look("load", image)
        return s

    def block(self) -> bytes:
        """All of the store, with what is open: the saved block that `replay` starts from. It fits one layout only."""
        with self._lock:
            return ctypes.string_at(self._block, BLOCK_BYTES)

    @classmethod
    def from_block(cls, block: Bytes) -> Store:
        """A store from what block() gave. Nothing is checked but its length; every call checks the ranges."""
        block = _bytes(block)
        if len(block) != BLOCK_BYTES:
            raise Refused(-Refusal.BUFFER_LENGTH)
        s = cls()
        ctypes.memmove(s._block, block, BLOCK_BYTES)
        return s

    def replay_line(self, line: Bytes) -> int:
        """Makes the call of a line of a log, given without its end. Recording ends: the line is in a log already."""
        line = _bytes(line)
        with self._lock:
            self._recorder = None
            return self._look("replay_line", line, len(line))


def _flat(scripts: Sequence[Sequence[ScriptCall]]) -> ScriptsStruct:
    """Scripts as C holds them."""
    flat = ScriptsStruct()
    flat.count = len(scripts)
    for k, script in enumerate(scripts[:8]):
        flat.counts[k] = len(script)
        for i, call in enumerate(script[:16]):
            c = flat.calls[k][i]
            c.descriptor = _number(call.descriptor)
            if isinstance(call, Seek):
                c.kind, c.at = 0, _number(call.offset)
            elif isinstance(call, Write):
                c.kind, c.at, c.count = 1, _number(call.start), _number(call.count)
            elif isinstance(call, GetFilePointer):
                c.kind = 2
            else:
                c.kind, c.count = 3, _number(call.count)
    return flat
