"""The Python package: commit, a crash, reopening, fencing, errors. DURABLE_URL names a database beside SQLite, if any."""
from __future__ import annotations

import os
import signal
import subprocess
import sys
import tempfile
import threading
import unittest
from collections.abc import Callable

from luzhanem import Refusal, Refused, Store
from luzhanem_durable import (
    BadArgument, Channel, Damaged, Durable, DurableError, Fenced, Format, NoChannel, NotSaved, Unreachable, channels, load,
)

CHILD = """
import sys
from luzhanem_durable import Durable
d = Durable(sys.argv[1], "crash", create=True)
for n in range(1000000):
    d.store.begin(0)
    d.store.seek(0, 1, 0)
    d.store.write(0, 1, b"%09d" % n)
    d.commit(0, 0)
    print(n, flush=True)
"""


def put(s: Store, f: int, text: bytes) -> None:
    s.begin(0)
    s.seek(0, f, 0)
    s.write(0, f, text)


class Tests(unittest.TestCase):
    def setUp(self) -> None:
        self._folder = tempfile.TemporaryDirectory(dir=os.environ.get("DURABLE_TMP"))
        self.addCleanup(self._folder.cleanup)
        self.file = os.path.join(self._folder.name, "one.db")
        self.url = "sqlite:" + self.file

    def sql(self, text: str) -> None:
        import sqlite3
        with sqlite3.connect(self.file) as q:
            q.executescript(text)
        q.close()

    def test_a_commit_is_there_after_reopening(self) -> None:
        with Durable(self.url, "one", create=True) as d:
            put(d.store, 3, b"14:02 jingle\n")
            self.assertEqual(d.commit(0, 842), frozenset())
            d.store.begin(1)
            d.store.write(1, 2, b"not yet")
            d.sync()
        with Durable(self.url, "one") as d:
            self.assertEqual(d.store.file(3), b"14:02 jingle\n")
            self.assertEqual(d.store.file(2), b"")
            d.store.undo()
            d.sync()
        self.assertEqual(load(self.url, "one").store.file(3), b"")

    def test_a_commit_is_there_after_a_kill(self) -> None:
        answered = -1
        for _ in range(3):
            child = subprocess.Popen([sys.executable, "-c", CHILD, self.url], stdout=subprocess.PIPE)
            assert child.stdout is not None
            for _ in range(5):
                line = child.stdout.readline()
            child.send_signal(signal.SIGKILL)
            rest = child.stdout.read().split(b"\n")[:-1]
            child.stdout.close()
            self.assertEqual(child.wait(), -signal.SIGKILL)
            answered = int(rest[-1] if rest else line)
            self.assertGreaterEqual(int(load(self.url, "crash").store.file(1)), answered)
            with Durable(self.url, "crash") as d:
                self.assertIn(int(d.store.file(1)), (answered, answered + 1))

    def test_fenced(self) -> None:
        first = Durable(self.url, "one", create=True)
        put(first.store, 1, b"a")
        first.commit(0, 0)
        second = Durable(self.url, "one")
        put(first.store, 1, b"b")
        with self.assertRaises(Fenced) as raised:
            first.commit(0, 0)
        self.assertIn("taken the channel over", str(raised.exception))
        self.assertEqual(first.store.file(1), b"b")
        with self.assertRaises(Fenced):
            first.sync()
        self.assertEqual(load(self.url, "one").store.file(1), b"a")
        put(second.store, 1, b"c")
        second.commit(0, 0)
        self.assertEqual(load(self.url, "one").store.file(1), b"c")
        first.close()
        second.close()

    def test_a_refused_commit_is_refused(self) -> None:
        with Durable(self.url, "one", create=True) as d:
            with self.assertRaises(Refused) as raised:
                d.commit(0, 0)
            self.assertIs(raised.exception.refusal, Refusal.NOT_OPEN)

    def test_threads_share_saves(self) -> None:
        with Durable(self.url, "one", create=True) as d:
            before = load(self.url, "one").generation

            def work(t: int) -> None:
                for n in range(20):
                    d.store.begin(t)
                    d.store.seek(t, t, 0)
                    d.store.write(t, t, b"%03d" % n)
                    d.commit(t, 0)

            threads = [threading.Thread(target=work, args=(t,)) for t in range(8)]
            for thread in threads:
                thread.start()
            for thread in threads:
                thread.join()
        loaded = load(self.url, "one")
        self.assertEqual([loaded.store.file(f) for f in range(8)], [b"019"] * 8)
        self.assertLessEqual(loaded.generation - before, 160)

    def test_a_new_channel_is_made_from_the_store(self) -> None:
        store = Store([7] * 16)
        put(store, 0, b"given")
        store.commit(0, 0)
        with Durable(self.url, "one", create=True, store=store) as d:
            self.assertIs(d.store, store)
        other = Store()
        with Durable(self.url, "one", create=True, store=other):
            self.assertEqual((other.file(7), other.file_of(3)), (b"given", 7))

    def test_channels(self) -> None:
        for name in ("south", "north", "Zürich"):
            Durable(self.url, name, create=True).close()
        self.assertEqual([c.name for c in channels(self.url)], ["Zürich", "north", "south"])
        self.assertEqual(channels(self.url)[1], Channel("north", load(self.url, "north").generation))

    def test_not_saved_and_then_saved(self) -> None:
        with Durable(self.url, "one", create=True) as d:
            self.sql("ALTER TABLE luzhanem_part RENAME TO away")
            put(d.store, 1, b"a")
            with self.assertRaises(NotSaved):
                d.commit(0, 0)
            self.assertEqual(d.store.file(1), b"a")
            self.sql("ALTER TABLE away RENAME TO luzhanem_part")
            d.sync()
        self.assertEqual(load(self.url, "one").store.file(1), b"a")

    def test_errors(self) -> None:
        calls: list[Callable[[str, str], object]] = [Durable, load]
        for kind, url, channel in (
            (Unreachable, self.url, "one"), (BadArgument, "mysql://x", "one"), (BadArgument, self.url, ""),
            (BadArgument, self.url, "a" * 201), (BadArgument, self.url, "a\0b"), (BadArgument, "", "one"),
        ):
            for call in calls:
                with self.assertRaises(kind) as raised:
                    call(url, channel)
                self.assertTrue(str(raised.exception))
        self.assertFalse(os.path.exists(self.file))
        Durable(self.url, "one", create=True).close()
        for call in calls:
            with self.assertRaises(NoChannel):
                call(self.url, "two")
        with self.assertRaises(Unreachable):
            channels(self.url + ".none")
        for kind, text in (
            (Damaged, "UPDATE luzhanem_part SET checksum = checksum + 1 WHERE part = 9"),
            (Damaged, "DELETE FROM luzhanem_part WHERE part = 3"),
            (Format, "UPDATE luzhanem_channel SET format = 7"),
        ):
            self.sql(text)
            store = Store()
            put(store, 0, b"mine")
            with self.assertRaises(kind):
                Durable(self.url, "one", store=store)
            self.assertEqual(store.state(0), 1)

    def test_after_close(self) -> None:
        d = Durable(self.url, "one", create=True)
        d.close()
        d.close()
        put(d.store, 0, b"a")
        calls: list[Callable[[], object]] = [d.sync, lambda: d.commit(0, 0)]
        for call in calls:
            with self.assertRaises(ValueError):
                call()
        self.assertEqual(d.store.state(0), 1)

    def test_every_answer_has_its_class(self) -> None:
        self.assertEqual(sorted(kind.answer for kind in DurableError.__subclasses__()), list(range(-108, -100)))


if __name__ == "__main__":
    unittest.main()
