"""A transactional file store for a playout server: 8 files of up to 4,096 bytes, 16 shared descriptors, 8 transactions.

    from luzhanem import Refusal, Refused, Store

    s = Store()                              # descriptor d belongs to file d mod 8
    s.begin(0)
    s.write(0, 3, b"14:02 jingle\\n")         # an append through descriptor 3
    try:
        s.commit(0, minute=14 * 60 + 2)      # frozenset(): nobody became stale
    except Refused as e:
        if e.refusal is Refusal.STALE:       # it has ended: begin it again
            ...
    s.file(3)                                # b"14:02 jingle\\n"

A refused call raises Refused and has changed nothing; Refusal.STALE alone ends its transaction, as abort does. Several
threads may use a Store: each call is made under its lock. luzhanem.h describes each call, and what to do after each
refusal.

    Store(record=open("day.log", "wb"))      # every call and its answer, for the program `replay`; or a callable
"""
from __future__ import annotations

from ._library import BLOCK_BYTES, IMAGE_BYTES, Refusal, Refused, layout, version
from ._store import Dispatched, GetFilePointer, Order, Read, ScriptCall, Seek, Sink, State, Store, Write

__all__ = [
    "BLOCK_BYTES", "IMAGE_BYTES", "Dispatched", "GetFilePointer", "Order", "Read", "Refusal", "Refused", "ScriptCall",
    "Seek", "Sink", "State", "Store", "Write", "layout", "version",
]
