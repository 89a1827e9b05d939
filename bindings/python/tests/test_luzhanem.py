"""python3 -m unittest discover -s bindings/python/tests"""
import ctypes
import io
import sys
import threading
import unittest

import luzhanem
from luzhanem import GetFilePointer, Read, Refusal, Refused, Seek, State, Store, Write, _library


class Case(unittest.TestCase):
    def refused(self, refusal, f, *args):
        with self.assertRaises(Refused) as e:
            f(*args)
        self.assertIs(e.exception.refusal, refusal)


class Calls(Case):
    def test_two_tasks(self):
        s = Store()
        s.begin(0), s.begin(1)
        s.write(0, 0, b"hello")
        self.assertEqual(s.read(1, 0, 9), b"")
        self.assertEqual(s.commit(0, 0), {1})
        self.assertEqual((s.file(0), s.offset(0), s.length(0), s.state(1)), (b"hello", 5, 5, State.STALE))
        self.refused(Refusal.STALE_READER, s.read, 1, 0, 1)
        self.refused(Refusal.STALE, s.commit, 1, 0)
        self.assertEqual(s.state(1), State.CLOSED)

    def test_data(self):
        s = Store([7] * 16)
        self.assertEqual(s.file_of(3), 7)
        s.begin(0)
        for data in (b"ab", bytearray(b"cd"), memoryview(b"ef"), b"", b"g\0h"):
            s.write(0, 3, data)
        self.assertEqual(s.get_file_pointer(0, 3), 9)
        self.assertEqual(s.places(0, 7), [(0, 9)])
        s.set_window(7, 480, 1320)
        self.refused(Refusal.FILE_CLOSED, s.commit, 0, 100)
        self.assertEqual(s.commit(0, 500), frozenset())
        self.assertEqual(s.file(7), b"abcdefg\0h")

    def test_scripts(self):
        s = Store()
        text = b"14:04 promo\n14:05 weather\n14:06 film\n"
        d = s.dispatch([[Write(0, 0, 12)], [Write(0, 12, 14)], [GetFilePointer(0), Write(0, 26, 11)]], text, 0)
        self.assertEqual((d.commits, d.ended), (4, (None, None, None)))
        self.assertEqual(s.file(0), text)
        d = s.dispatch([[Seek(0, 3), Read(0, 2)]], b"", 0, b"....")
        self.assertEqual((d.ended, d.reader), ((None,), b"04.."))
        s.begin(3), s.get_file_pointer(3, 0)
        self.assertEqual(s.best_order([3], 0), ((3,), 1, 0, 1))

    def test_threads(self):
        s = Store()

        def task(t):
            for _ in range(50):
                s.begin(t), s.write(t, 0, b"0123456789"), s.commit(t, 0)

        interval = sys.getswitchinterval()
        sys.setswitchinterval(1e-5)
        tasks = [threading.Thread(target=task, args=(t,)) for t in range(8)]
        for t in tasks:
            t.start()
        for t in tasks:
            t.join()
        sys.setswitchinterval(interval)
        self.assertEqual(len(s.file(0)), 4000)


class BadInput(Case):
    def test_numbers(self):
        s = Store()
        for n in (8, -1, 2**64 - 1, 2**64, 10**30, -(10**30)):
            self.refused(Refusal.NO_SUCH_TRANSACTION, s.begin, n)
            self.refused(Refusal.NO_SUCH_TRANSACTION, s.state, n)
            self.refused(Refusal.NO_SUCH_TARGET, s.file, n)
            self.refused(Refusal.NO_SUCH_TARGET, s.set_window, n, 0, 0)
        s.begin(0)
        self.refused(Refusal.ALREADY_OPEN, s.begin, 0)
        self.refused(Refusal.NO_SUCH_TARGET, s.write, 0, -1, b"x")
        self.refused(Refusal.SEEK_PAST_END, s.seek, 0, 0, -1)
        self.refused(Refusal.WRITE_PAST_END, s.write, 0, 0, bytes(4097))
        self.refused(Refusal.NO_SUCH_MINUTE, s.commit, 0, -1)
        self.refused(Refusal.BAD_LIST, s.best_order, [], 0)
        self.refused(Refusal.BAD_LIST, s.best_order, [0, 0], 0)
        self.refused(Refusal.NO_SUCH_TRANSACTION, s.best_order, [-1], 0)
        self.refused(Refusal.BAD_BUDGET, s.best_order, [0], 0, 0)
        self.refused(Refusal.NOT_AT_REST, s.dispatch, [], b"", 0)
        self.refused(Refusal.STILL_OPEN, s.undo)
        self.assertEqual(s.read(0, 0, 10**12), b"")
        s.commit(0, 0)
        self.refused(Refusal.NOT_OPEN, s.commit, 0, 0)
        self.refused(Refusal.SCRIPT_RANGE, s.dispatch, [[]] * 9, b"", 0)
        self.refused(Refusal.SCRIPT_RANGE, s.dispatch, [[GetFilePointer(0)] * 17], b"", 0)
        self.refused(Refusal.SCRIPT_RANGE, s.dispatch, [[Write(0, 3, 3)]], b"abcde", 0)
        self.refused(Refusal.SCRIPT_RANGE, s.dispatch, [[Write(0, -1, 1)]], b"abcde", 0)
        self.assertEqual(s.dispatch([[Read(16, 1)]], b"", 0).ended, (Refusal.NO_SUCH_TARGET,))
        self.assertEqual(s.dispatch([[Read(0, 9)]], b"", 0, b"..").ended, (Refusal.READER_TOO_SHORT,))

    def test_types(self):
        s = Store()
        self.refused(Refusal.NO_SUCH_FILE, Store, [9] * 16)
        self.refused(Refusal.NO_SUCH_FILE, Store, [-1] * 16)
        self.assertRaises(ValueError, Store, [0])
        self.assertRaises(ValueError, Store, [0] * 15)
        self.assertRaises(TypeError, s.begin, "0")
        self.assertRaises(TypeError, s.begin, 0.0)
        s.begin(0)
        self.assertRaises(TypeError, s.write, 0, 0, "text")
        self.assertRaises(TypeError, s.write, 0, 0, 5)
        self.assertRaises(TypeError, s.write, 0, 0, None)
        self.assertEqual(s.get_file_pointer(0, 0), 0)

    def test_blocks(self):
        s = Store()
        s.begin(2)
        again = Store.from_block(s.block())
        self.refused(Refusal.ALREADY_OPEN, again.begin, 2)
        self.refused(Refusal.BUFFER_LENGTH, Store.from_block, b"short")
        damaged = Store.from_block(b"\xff" * luzhanem.BLOCK_BYTES)
        for f, *args in (damaged.begin, 0), (damaged.check,), (damaged.save,), (damaged.undo,):
            self.refused(Refusal.RECORD_RANGE, f, *args)
        self.assertEqual(len(damaged.file(0)), 4096)

    def test_images(self):
        s = Store()
        s.begin(0), s.write(0, 0, b"hello"), s.commit(0, 0), s.begin(1)
        image = s.save()
        again = Store.load(image)
        self.assertEqual((again.file(0), again.state(1), again.save()), (b"hello", State.CLOSED, image))
        again.undo()
        self.assertEqual((again.file(0), s.file(0), s.state(1)), (b"", b"hello", State.OPEN))
        self.refused(Refusal.BUFFER_LENGTH, Store.load, image[1:])
        self.refused(Refusal.BUFFER_LENGTH, Store.load, b"\x02" + image[1:])
        self.refused(Refusal.RECORD_RANGE, Store.load, image[:2] + b"\x08" + image[3:])


class Library(Case):
    def test_sizes(self):
        self.assertEqual(ctypes.sizeof(_library.BlockStruct), _library.SIZE)
        self.assertEqual((luzhanem.BLOCK_BYTES, luzhanem.IMAGE_BYTES), (106630, 37416))
        self.assertEqual(ctypes.sizeof(_library.ScriptsStruct), 521 * 8)
        self.assertEqual((ctypes.sizeof(_library.OrderStruct), ctypes.sizeof(_library.PlaceStruct)), (12, 4))
        self.assertEqual((luzhanem.version(), luzhanem.layout()), ("0.1.0", 2))

    def test_refusals(self):
        self.assertEqual([r.value for r in Refusal], list(range(1, 28)))
        for r in Refusal:
            self.assertEqual(_library.errname(-r), r.name)
            self.assertEqual(str(Refused(-r)), f"{r.name}: {_library.strerror(-r)}")
        self.assertEqual(_library.errname(-28), "UNKNOWN")


def make_calls(s):
    """Every call."""
    s.begin(0), s.write(0, 0, b"hello"), s.write(0, 0, b"\n")
    try:
        s.begin(0)
    except Refused:
        pass
    s.get_file_pointer(0, 0), s.seek(0, 0, 2), s.read(0, 0, 8), s.places(0, 0), s.best_order([0], 0, 1)
    s.commit(0, 842), s.set_window(2, 480, 1320), s.undo(), s.begin(1), s.abort(1)
    return s.dispatch([[Write(0, 0, 3)], [GetFilePointer(0)]], b"abc", 842, bytes(8))


EXPECTED = (
    b"V1\nF0 1 2 3 4 5 6 7 0 1 2 3 4 5 6 7\n= ok\nB0\n= ok\nW0 0 hello\n= ok\nX0 0 0a\n= ok\nB0\n= 5\nP0 0\n= ok 6\n"
    b"S0 0 2\n= ok\nR0 0 8 8\n= ok 6c6c6f0a\nL0 0 256\n= ok 0 6\nO0 1 0\n= ok 1 0 1 0\nC0 842\n= ok 0\n"
    b"H2 480 1320\n= ok\nU\n= ok\nB1\n= ok\nA1\n= ok\nB0\n= ok\nB1\n= ok\nW0 0 abc\n= ok\nP1 0\n= ok 0\nC0 842\n= ok 2\n"
    b"C1 842\n= 13\nB1\n= ok\nP1 0\n= ok 3\nC1 842\n= ok 0\n"
)


class Recording(Case):
    def test_every_call_has_its_lines(self):
        log = bytearray()
        s, plain, standby = Store(record=log.extend), Store(), Store()
        self.assertTrue(s.recording)
        self.assertEqual(make_calls(s), make_calls(plain))
        self.assertEqual(bytes(log), EXPECTED)
        for line in bytes(log).split(b"\n"):
            try:
                standby.replay_line(line)
            except Refused as e:
                self.assertIn(e.refusal, (Refusal.ALREADY_OPEN, Refusal.STALE))
        self.assertTrue(s.block() == plain.block() == standby.block())
        self.refused(Refusal.BAD_LINE, standby.replay_line, b"b0")

    def test_a_file(self):
        file = io.BytesIO()
        make_calls(Store(record=file))
        self.assertEqual(file.getvalue(), EXPECTED)

    def test_from_now_on(self):
        s, log = Store(), bytearray()
        s.begin(5)
        s.record(log.extend)
        s.write(5, 1, b"x")
        s.record(None)
        s.commit(5, 0)
        self.assertEqual(log, b"V1\nW5 1 x\n= ok\n")

    def test_a_sink_that_raises(self):
        def sink(line):
            if line == b"C0 842\n":
                raise OSError("full")

        s = Store(record=sink)
        make_calls(s)
        self.assertFalse(s.recording)
        self.assertEqual((str(s.record_error), s.file(0)), ("full", b"abc"))


if __name__ == "__main__":
    unittest.main()
