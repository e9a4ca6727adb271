"""Columns that are handed out and taken in by Arrow's C data interface, to a consumer that is here.

Debian 12 has no package that reads Arrow, so the consumer and a producer of other forms are written
from the interface's page, by ctypes.
"""
import array
import ctypes
import doctest
import gc
import os
import random
import struct
import subprocess
import sys
import threading
import time
import unittest

from kohiblad import Document, InvalidDocumentError, _capsules, arrow
from kohiblad.arrow import Column

SCHEMA = struct.Struct("=QQQqqQQQQ")
ARRAY = struct.Struct("=qqqqqQQQQQ")
# Where an array and a schema have the addresses of their releases.
RELEASE_AT, SCHEMA_RELEASE_AT = 64, 56
RELEASE = ctypes.CFUNCTYPE(None, ctypes.c_void_p)
pointer_of = ctypes.PYFUNCTYPE(ctypes.c_void_p, ctypes.py_object, ctypes.c_char_p)(
    ("PyCapsule_GetPointer", ctypes.pythonapi))
new_capsule = ctypes.PYFUNCTYPE(ctypes.py_object, ctypes.c_void_p, ctypes.c_char_p,
                                ctypes.c_void_p)(("PyCapsule_New", ctypes.pythonapi))
ROWS = [Document.of(it) for it in ({"id": 2}, 5, "a", [1, None], {"id": 1}, None)]


def words(address, layout):
    return layout.unpack(ctypes.string_at(address, layout.size))


def children_of(given):
    """The addresses of so many structs, which are there."""
    count, address = given
    return struct.unpack(f"={count}Q", ctypes.string_at(address, 8 * count))


class Consumer:
    """Takes the struct of an array, as a library does, and reads it."""

    def __init__(self, source):
        schema, given = source.__arrow_c_array__()
        form, _, metadata, self.flags, *_ = words(pointer_of(schema, b"arrow_schema"), SCHEMA)
        self.format = ctypes.string_at(form)
        self.pairs = self.texts(metadata) if metadata else {}
        self.take(pointer_of(given, b"arrow_array"))

    def take(self, address):
        """Moves the struct of an array from there."""
        self.taken = ctypes.create_string_buffer(ctypes.string_at(address, ARRAY.size))
        # What is moved is marked as released where it was.
        ctypes.memset(address + RELEASE_AT, 0, 8)
        (self.length, self.null_count, self.offset, count, below, buffers, children, _,
         self.release_address, _) = words(ctypes.addressof(self.taken), ARRAY)
        self.buffers = struct.unpack(f"={count}Q", ctypes.string_at(buffers, 8 * count))
        self.children = children_of((below, children))

    @staticmethod
    def texts(metadata):
        count, at, found = ctypes.c_int32.from_address(metadata).value, metadata + 4, []
        for _ in range(2 * count):
            size = ctypes.c_int32.from_address(at).value
            found.append(ctypes.string_at(at + 4, size))
            at += 4 + size
        return dict(zip(found[::2], found[1::2]))

    def rows(self):
        validity, offsets, data = self.buffers
        ends = struct.unpack(f"={self.length + 1}q",
                             ctypes.string_at(offsets + 8 * self.offset, 8 * self.length + 8))
        for row in range(self.length):
            at = self.offset + row
            is_there = not validity or \
                ctypes.c_uint8.from_address(validity + at // 8).value >> at % 8 & 1
            size = ends[row + 1] - ends[row]
            yield ctypes.string_at(data + ends[row], size) if is_there else None

    def release(self):
        RELEASE(self.release_address)(ctypes.addressof(self.taken))


class Given:
    """What has capsules that were made before."""

    def __init__(self, capsules):
        self.capsules = capsules

    def __arrow_c_array__(self, requested_schema=None):
        return self.capsules


class Producer:
    """An array of another library: of either kind, a slice, or empty without memory."""

    def __init__(self, rows, form=b"z", first=0, length=None, is_empty=False):
        data, offsets = b"".join(rows), [0]
        for row in rows:
            offsets.append(offsets[-1] + len(row))
        self.format = ctypes.create_string_buffer(form)
        self.data = ctypes.create_string_buffer(data)
        self.offsets = array.array("i" if form == b"z" else "q", offsets)
        length = len(rows) - first if length is None else length
        addresses = (0, 0, 0) if is_empty else (0, self.offsets.buffer_info()[0],
                                                ctypes.addressof(self.data))
        self.buffers = ctypes.create_string_buffer(struct.pack("=3Q", *addresses))
        self.released = []
        self.release = RELEASE(self.released.append)
        release = ctypes.cast(self.release, ctypes.c_void_p).value
        self.schema = ctypes.create_string_buffer(SCHEMA.pack(
            ctypes.addressof(self.format), 0, 0, 0, 0, 0, 0, release, 0))
        self.array = ctypes.create_string_buffer(ARRAY.pack(
            length, 0, first, 3, 0, ctypes.addressof(self.buffers), 0, 0, release, 0))

    def __arrow_c_array__(self, requested_schema=None):
        return (new_capsule(ctypes.addressof(self.schema), b"arrow_schema", None),
                new_capsule(ctypes.addressof(self.array), b"arrow_array", None))


class ArrowTest(unittest.TestCase):
    def test_the_examples(self):
        result = doctest.testmod(arrow)
        self.assertEqual((result.failed, result.attempted > 4), (0, True))

    def test_a_consumer_reads_the_column_where_it_is(self):
        column = Column.of(ROWS)
        read = Consumer(column)
        self.assertEqual((read.format, read.flags, read.length, read.null_count, read.offset),
                         (b"Z", 2, len(ROWS), 0, 0))
        self.assertEqual(read.pairs[b"ARROW:extension:name"], b"kohiblad")
        self.assertEqual(list(read.rows()), [bytes(it) for it in ROWS])
        again = Consumer(column)
        self.assertEqual(again.buffers, read.buffers)
        for it in (read, again):
            it.release()
        _capsules.release_unused()
        self.assertEqual(_capsules._exported, {})

    def test_memory_is_kept_as_long_as_a_consumer_uses_it(self):
        column = Column.of(ROWS * 1000)
        read = Consumer(column)
        del column
        _capsules.release_unused()
        self.assertEqual(sum(map(len, read.rows())), 1000 * sum(len(bytes(it)) for it in ROWS))
        self.assertEqual(len(_capsules._exported), 1)
        read.release()
        _capsules.release_unused()
        self.assertEqual((_capsules._exported, _capsules._handed_out), ({}, {}))

    def test_capsules_that_nobody_takes_are_released(self):
        column = Column.of(ROWS)
        for _ in range(100):
            column.__arrow_c_array__()
            column.__arrow_c_schema__()
        _capsules.release_unused()
        self.assertEqual((_capsules._exported, _capsules._handed_out), ({}, {}))

    def test_rows_that_are_missing(self):
        rng = random.Random(1)
        rows = [rng.choice([*ROWS, None]) for _ in range(100)]
        column = Column.of(rows)
        read = Consumer(column[3:90])
        self.assertEqual(read.null_count, rows[3:90].count(None))
        self.assertEqual(list(read.rows()), [it and bytes(it) for it in rows[3:90]])
        read.release()
        self.assertEqual(list(Column.from_arrow(column[3:90])), rows[3:90])
        there = [row for row, it in enumerate(rows) if it is not None]
        self.assertEqual(column.sorted_order()[:len(there)],
                         sorted(there, key=lambda row: rows[row].key()))
        self.assertEqual(column.sorted_order()[len(there):],
                         [row for row, it in enumerate(rows) if it is None])

    def test_arrays_of_others(self):
        data = [bytes(it) for it in ROWS]
        for form in (b"z", b"Z"):
            for first, length in ((0, 6), (2, 3), (6, 0), (1, 1)):
                source = Producer(data, form, first, length)
                column = Column.from_arrow(source)
                self.assertEqual(list(column), ROWS[first:first + length])
                self.assertEqual(column.sorted_order(), sorted(
                    range(length), key=lambda row: ROWS[first + row].key()))
                self.assertEqual(source.released, [])
                part = column[1:]
                del column
                gc.collect()
                self.assertEqual(list(part), ROWS[first + 1:first + length])
                self.assertEqual(source.released, [])
                del part
                gc.collect()
                self.assertEqual(len(source.released), 1)
        source = Producer([], is_empty=True)
        self.assertEqual(list(Column.from_arrow(source)), [])

    def test_what_is_no_column_of_documents(self):
        source = Producer([b"text"], b"u")
        with self.assertRaises(TypeError):
            Column.from_arrow(source)
        self.assertEqual(source.released, [])
        source = Producer([b"no", bytes(ROWS[0])], b"Z")
        column = Column.from_arrow(source)
        with self.assertRaises(InvalidDocumentError):
            column[0]
        self.assertEqual((column[1], column.sorted_order()), (ROWS[0], [1, 0]))
        with self.assertRaises(IndexError):
            column[2]
        with self.assertRaises(TypeError):
            Column()

    def assert_refused(self, change, form=b"Z", error=ValueError):
        """An array that was changed is refused, and left to its source."""
        source = Producer([bytes(it) for it in ROWS], form, first=1)
        change(source)
        before = source.array.raw, source.schema.raw
        with self.assertRaises(error) as refused:
            Column.from_arrow(source)
        gc.collect()
        self.assertEqual((source.released, source.array.raw, source.schema.raw), ([], *before))
        return str(refused.exception)

    def test_what_was_released(self):
        def released(name, at):
            def change(source):
                ctypes.memset(ctypes.addressof(getattr(source, name)) + at, 0, 8)
            return change

        for name, at in (("array", RELEASE_AT), ("schema", SCHEMA_RELEASE_AT)):
            self.assertIn("released", self.assert_refused(released(name, at)))
        # A capsule that another took first, and what it had was freed.
        column = Column.of(ROWS)
        capsules = column.__arrow_c_array__()

        self.assertEqual(list(Column.from_arrow(Given(capsules))), ROWS)
        del column
        gc.collect()
        for _ in range(2):
            with self.assertRaisesRegex(ValueError, "released"):
                Column.from_arrow(Given(capsules))

    def test_what_is_no_capsule(self):
        capsules = Column.of(ROWS).__arrow_c_array__()
        for returned in (capsules[::-1], (None, None), (capsules[0], 7), (), capsules * 2):
            with self.assertRaises(ValueError):
                Column.from_arrow(Given(returned))

    def test_arrays_that_cannot_be(self):
        def field(name, layout, **fields):
            names = {"array": ("length", "null_count", "offset", "n_buffers", "n_children",
                               "buffers", "children", "dictionary"),
                     "schema": ("format", "name", "metadata", "flags", "n_children", "children",
                                "dictionary")}[name]

            def change(source):
                buffer = getattr(source, name)
                given = list(layout.unpack(buffer.raw[:layout.size]))
                for key, value in fields.items():
                    given[names.index(key)] = value
                ctypes.memmove(buffer, layout.pack(*given), layout.size)
            return change

        for form in (b"z", b"Z"):
            for fields in ({"length": -1}, {"length": 1 << 62}, {"length": (1 << 63) - 1},
                           {"offset": -1}, {"offset": 1 << 62}, {"null_count": -2},
                           {"null_count": 6}, {"null_count": 1}, {"n_buffers": 2},
                           {"n_buffers": 0}, {"n_buffers": -1}, {"n_children": 1},
                           {"buffers": 0}, {"dictionary": 8}):
                with self.subTest(form=form, fields=fields):
                    self.assert_refused(field("array", ARRAY, **fields), form)
            for fields in ({"n_children": 1}, {"dictionary": 8}):
                self.assert_refused(field("schema", SCHEMA, **fields), form)
            self.assert_refused(field("schema", SCHEMA, format=0), form, TypeError)

    def test_buffers_that_are_missing(self):
        def without(number):
            return lambda source: ctypes.memset(
                ctypes.addressof(source.buffers) + 8 * number, 0, 8)

        for form in (b"z", b"Z"):
            self.assertIn("offsets", self.assert_refused(without(1), form))
            self.assertIn("data", self.assert_refused(without(2), form))
        # Rows without bytes need no data, and an array without rows nothing at all.
        for form in (b"z", b"Z"):
            source = Producer([b"", b"", b""], form)
            without(2)(source)
            column = Column.from_arrow(source)
            self.assertEqual((len(column), column.sorted_order()), (3, [0, 1, 2]))
            with self.assertRaises(InvalidDocumentError):
                column[1]
            source = Producer([b"a"], form, first=1 << 40, length=0, is_empty=True)
            column = Column.from_arrow(source)
            self.assertEqual((list(column), column.sorted_order()), ([], []))
            self.assertEqual(list(Column.from_arrow(column)), [])

    def test_offsets_that_do_not_ascend(self):
        def offsets(*given):
            def change(source):
                for number, offset in enumerate(given):
                    source.offsets[number] = offset
            return change

        for form in (b"z", b"Z"):
            for given in ((0, 8, 4), (0, -8, 4), (0, 1 << 30), (0, 0, -1)):
                with self.subTest(form=form, given=given):
                    self.assertIn("ascend", self.assert_refused(offsets(*given), form))
            # What is before the first row is not read.
            source = Producer([bytes(it) for it in ROWS], form, first=1)
            offsets(-5)(source)
            self.assertEqual(list(Column.from_arrow(source)), ROWS[1:])

    def test_a_column_is_a_sequence(self):
        column = Column.of(iter(ROWS))
        self.assertEqual((len(column), column[-1], column.index(ROWS[2]), ROWS[3] in column),
                         (6, ROWS[-1], 2, True))
        self.assertEqual([list(column[::2]), list(column[4:1:-1])], [ROWS[::2], ROWS[4:1:-1]])
        self.assertEqual((list(Column.of([])), Column.of([]).sorted_order()), ([], []))
        read = Consumer(Column.of([]))
        self.assertEqual(list(read.rows()), [])
        read.release()

    def test_a_capsule_that_is_freed_while_an_exception_is_raised(self):
        class Failing:
            def __add__(self, other):
                raise KeyError("kept")

        for capsule in (lambda: Column.of(ROWS).__arrow_c_schema__(),
                        lambda: Column.of(ROWS).__arrow_c_array__()[1]):
            with self.assertRaisesRegex(KeyError, "kept"):
                # The capsule is on the stack of the frame, which is cleared by the exception.
                [capsule(), Failing() + 1]
        _capsules.release_unused()
        self.assertEqual((_capsules._exported, _capsules._handed_out), ({}, {}))

    def test_another_thread_releases(self):
        read = [Consumer(Column.of(ROWS)) for _ in range(8)]
        threads = [threading.Thread(target=it.release) for it in read]
        for it in threads:
            it.start()
        for it in threads:
            it.join()
        _capsules.release_unused()
        self.assertEqual(_capsules._exported, {})
        self.assertEqual([it.taken.raw[RELEASE_AT:RELEASE_AT + 8] for it in read], [bytes(8)] * 8)

    def test_few_capsules_that_nobody_has_are_kept(self):
        kept = []
        for number in range(1000):
            capsules = Column.of(ROWS).__arrow_c_array__()
            if number < 100:
                kept.append(capsules)
        self.assertLess(len(_capsules._handed_out), 1000)
        self.assertEqual([list(Column.from_arrow(Given(it))) for it in kept], [ROWS] * 100)

    def test_a_part_keeps_the_memory_of_an_array(self):
        data = [bytes(Document.of({"a": it})) for it in ("x", 5)]
        source = Producer(data, b"Z")
        numbers, = Column.from_arrow(source).extract(["a"], ["int64"])
        gc.collect()
        self.assertEqual(source.released, [])
        self.assertEqual([(row, str(it)) for row, it in numbers.rest], [(0, '"x"')])
        other = Producer(data, b"Z")
        read = Consumer(Column.from_arrow(other))
        gc.collect()
        self.assertEqual(other.released, [])
        self.assertEqual(list(read.rows()), data)
        read.release()
        del numbers
        _capsules.release_unused()
        gc.collect()
        self.assertEqual((len(source.released), len(other.released)), (1, 1))

    def test_a_column_is_read_at_the_end_of_a_program(self):
        """A handler that was registered before the column is called after those of the package."""
        program = ("import atexit, sys\n"
                   "sys.path.insert(0, sys.argv[1])\n"
                   "atexit.register(lambda: print(column[0], sources[0].released))\n"
                   "from kohiblad import Document\nfrom kohiblad.arrow import Column\n"
                   "from test_arrow import Producer\n"
                   "sources = [Producer([bytes(Document.of(7))], b'Z')]\n"
                   "column = Column.from_arrow(sources[0])\n")
        done = subprocess.run([sys.executable, "-c", program, os.path.dirname(__file__)],
                              stdout=subprocess.PIPE, stderr=subprocess.PIPE)
        self.assertEqual((done.returncode, done.stdout, done.stderr), (0, b"7 []\n", b""))

    def test_capsules_that_are_held_are_looked_at_a_few_times(self):
        """Four times as many take about four times as long, where each past all takes sixteen."""
        column = Column.of(ROWS)

        def seconds(count):
            began, held = time.process_time(), []
            for _ in range(count):
                held.append(column.__arrow_c_array__()[1])
                column.__arrow_c_schema__()
            taken = time.process_time() - began
            del held
            _capsules.release_unused()
            return taken

        few, many = (min(seconds(count) for _ in range(3)) for count in (2000, 8000))
        self.assertLess(many / few, 9)
        self.assertEqual((_capsules._exported, _capsules._handed_out), ({}, {}))

    def test_a_program_that_ends_with_capsules(self):
        program = ("from kohiblad import Document\nfrom kohiblad.arrow import Column\n"
                   "kept = [Column.of([Document.of(it)]).__arrow_c_array__() for it in range(9)]\n"
                   "import builtins; builtins.kept = kept\n"
                   "print(Column.from_arrow(Column.of([Document.of(7)]))[0])")
        done = subprocess.run([sys.executable, "-c", program], stdout=subprocess.PIPE,
                              stderr=subprocess.PIPE)
        self.assertEqual((done.returncode, done.stdout, done.stderr), (0, b"7\n", b""))


if __name__ == "__main__":
    unittest.main()
