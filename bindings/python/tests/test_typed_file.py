"""Files of typed columns: `TypedFile`, beside what the rows have."""
import doctest
import io
import mmap
import os
import random
import tempfile
import unittest
from datetime import date, datetime, timedelta, timezone
from decimal import Decimal

from kohiblad import (Date, Document, Interval, InvalidDocumentError, OutOfMemoryError, Timestamp,
                      TimestampTz, TooDeepError, typed_file)
from kohiblad.arrow import Column
from kohiblad.typed_file import StoredColumn, TypedFile

TYPES = {"at": "int64", "city": "text", "on": "boolean", "price": "decimal 2", "seen": "uint64"}
ROWS = ['{"at":5,"city":"Oslo","on":true,"price":1.50,"seen":18446744073709551615}',
        '{"at":-1,"city":"","on":false,"price":-2.00,"seen":7,"x":[1]}',
        '{"at":null,"city":1,"on":"no","price":1.5,"seen":-1}', "{}", "[5]", '"Oslo"',
        '{"at":5.0,"city":"\u00e9"}', '{"price":2}', '{"at":9223372036854775807,"on":true}']
VALUES = {"at": [5, -1, None, None, None, None, None, None, 9223372036854775807],
          "city": ["Oslo", "", None, None, None, None, "\u00e9", None, None],
          "on": [True, False, None, None, None, None, None, None, True],
          "price": [Decimal("1.50"), Decimal("-2.00"), *7 * [None]],
          "seen": [18446744073709551615, 7, *7 * [None]]}


def documents():
    return [Document.parse(it) for it in ROWS]


def built():
    return TypedFile.build(documents(), TYPES)


class TypedFileTest(unittest.TestCase):
    def test_examples(self):
        result = doctest.testmod(typed_file)
        self.assertEqual((result.failed, result.attempted > 0), (0, True))

    def test_rows_come_back(self):
        file = TypedFile(built())
        self.assertEqual(len(file), len(ROWS))
        self.assertEqual(list(map(bytes, file)), list(map(bytes, documents())))
        self.assertEqual(file[-1], documents()[-1])
        self.assertEqual(file[1:3], documents()[1:3])
        for index in (-10, 9, 2**70):
            with self.assertRaises(IndexError):
                file[index]
        with self.assertRaises(IndexError):
            file.row(-1)
        self.assertEqual(repr(file), "<TypedFile of 9 rows and 5 columns>")

    def test_columns_have_their_values(self):
        file = TypedFile(built())
        self.assertEqual([it.name for it in file.columns], list(TYPES))
        for name, kind in TYPES.items():
            column = file.column(name)
            self.assertEqual(column.type, kind)
            self.assertEqual(list(column), VALUES[name])
            self.assertEqual(column[1:], VALUES[name][1:])
            self.assertEqual([column[row - 9] for row in range(9)], VALUES[name])
            with self.assertRaises(IndexError):
                column[9]
        self.assertIs(type(file.column("on")[0]), bool)
        self.assertEqual(repr(file.column("at")), "<StoredColumn 'at' of 9 rows, int64>")
        with self.assertRaises(KeyError):
            file.column("none")

    def test_python_values_are_rows(self):
        file = TypedFile(TypedFile.build([{"a": 1}, {"a": "x"}], {"a": "int64"}))
        self.assertEqual(list(file.column("a")), [1, None])
        self.assertEqual(file[1], Document.of({"a": "x"}))

    def test_a_column_has_rows(self):
        column = Column.of(documents())
        for it in (column, column[:], Column.from_arrow(column)):
            self.assertEqual(TypedFile.build(it, TYPES), built())
        self.assertEqual(TypedFile.build(column[1:4], TYPES),
                         TypedFile.build(documents()[1:4], TYPES))
        self.assertEqual(list(TypedFile(TypedFile.build(Column.of([None, Document.of(5)]), {}))),
                         [Document.of(None), Document.of(5)])
        self.assertEqual(len(TypedFile(TypedFile.build(column[:0], {}))), 0)

    def test_extension_values_are_columns(self):
        noon = datetime(2026, 11, 29, 12, 0, 0, 5, timezone(timedelta(seconds=-19800)))
        values = {"date": [date(2026, 11, 29), Date(-2**31), None],
                  "timestamp": [datetime(1969, 12, 31, 23, 59, 59), Timestamp(2**63 - 1), None],
                  "timestamp_tz": [noon, TimestampTz(-2**63, 2**31 - 1), None],
                  "interval": [Interval(-1, 2, -3), Interval(-2**31, 2**31 - 1, 2**63 - 1), None],
                  "binary": [b"", b"\0\xff", None]}
        rows = [{name: those[row] for name, those in values.items()} for row in range(3)]
        file = TypedFile(TypedFile.build(rows, {name: name for name in values}))
        for name, those in values.items():
            self.assertEqual((file.column(name).type, list(file.column(name))), (name, those))
        self.assertEqual(list(file), list(map(Document.of, rows)))
        try:
            import numpy
        except ImportError:
            self.skipTest("needs numpy")
        dates, times = file.column("date").numpy, file.column("timestamp").numpy
        self.assertEqual((dates[0], dates.dtype), (date(2026, 11, 29), numpy.dtype("M8[D]")))
        self.assertEqual(times[0], numpy.datetime64("1969-12-31T23:59:59"))
        zoned = file.column("timestamp_tz").numpy
        self.assertEqual(zoned["offset_seconds"].tolist(), [-19800, 2**31 - 1, 0])
        self.assertEqual(zoned["timestamp"][0], numpy.datetime64("2026-11-29T17:30:00.000005"))
        self.assertEqual(file.column("interval").numpy[0].tolist(), (-1, 2, -3))
        self.assertEqual(file.column("binary").numpy.tolist(), [b"", b"\0\xff", None])

    def test_rests_that_nest_too_deep(self):
        deep = b"\x80\0\0\0"
        for _ in range(1000):
            deep = b"\x80\0\0\1" + (0x50000000 | len(deep)).to_bytes(4, "big") + deep
        offsets = bytes(8) + len(deep).to_bytes(8, "big")
        data = b"KOHITYPE" + bytes([0, 0, 0, 1, 0, 0, 0, 0])
        for section in (offsets, deep):
            data += len(section).to_bytes(8, "big") + section
        with self.assertRaises(TooDeepError):
            TypedFile(data)

    def test_a_file_is_read_where_it_lies(self):
        with tempfile.TemporaryDirectory() as folder:
            path = os.path.join(folder, "rows.typed")
            self.assertEqual(TypedFile.write(path, documents(), TYPES), os.path.getsize(path))
            for access in (mmap.ACCESS_READ, mmap.ACCESS_COPY):
                with open(path, "rb") as source, \
                        mmap.mmap(source.fileno(), 0, access=access) as mapped:
                    for check in (True, False):
                        file = TypedFile(mapped, check=check)
                        self.assertEqual(list(file.column("city")), VALUES["city"])
                        self.assertEqual(list(file), documents())
                    del file
        target = io.BytesIO()
        TypedFile.write(target, documents(), TYPES)
        self.assertEqual(target.getvalue(), built())
        self.assertEqual(list(TypedFile(bytearray(built()))), documents())
        self.assertEqual(list(TypedFile(memoryview(b"x" + built())[1:])), documents())

    def test_the_fields_by_which_c_is_called_stay(self):
        file = TypedFile(built())
        for it, names in ((file, ("_at", "_size", "_view", "_length")),
                          (file.column("at"), ("numbers", "flags", "_length"))):
            for name in names:
                with self.assertRaisesRegex(AttributeError, f"^{name} of a .* cannot be assigned"):
                    setattr(it, name, 0)
        self.assertEqual(list(file), documents())

    def test_no_rows_and_no_columns(self):
        for check in (True, False):
            file = TypedFile(TypedFile.build([], {}), check=check)
            self.assertEqual((len(file), file.columns, list(file)), (0, [], []))
            file = TypedFile(TypedFile.build([5, None], {}), check=check)
            self.assertEqual([it.value() for it in file], [5, None])
            file = TypedFile(TypedFile.build([], {"a": "text", "": "boolean"}), check=check)
            self.assertEqual([(it.name, len(it)) for it in file.columns], [("", 0), ("a", 0)])

    def test_numpy_has_the_numbers(self):
        try:
            import numpy
        except ImportError:
            self.skipTest("needs numpy")
        file = TypedFile(built())
        for name in ("at", "on", "seen"):
            column = file.column(name)
            self.assertEqual(column.is_set.tolist(), [it is not None for it in VALUES[name]])
            self.assertEqual(column.numpy[column.is_set].tolist(),
                             [it for it in VALUES[name] if it is not None])
        self.assertFalse(file.column("at").numpy.flags.writeable)
        self.assertEqual(file.column("at").numpy.dtype, numpy.dtype(">i8"))
        self.assertEqual(file.column("city").numpy.tolist(), VALUES["city"])
        self.assertEqual(file.column("price").masked.tolist(), [150, -200, *7 * [None]])

    def test_each_refusal_has_its_name(self):
        data = built()
        turned = data[:11] + b"\2" + data[12:]
        other_type = data.replace(b"\x04\0city", b"\x0a\0city")
        for name, other in (("BadMagic", b"x" + data), ("BadMagic", b""), ("InvalidEOF", data[:-1]),
                            ("UnknownVersion", turned), ("TrailingData", data + b"\0"),
                            ("OutOfForm", other_type), ("WrongLength", data.replace(b"\x01\0at",
                                                                              b"\x03\0at"))):
            with self.assertRaises(InvalidDocumentError) as refused:
                TypedFile(other)
            self.assertEqual(refused.exception.name, name)
        for other in (5, "KOHITYPE", None):
            with self.assertRaises(TypeError):
                TypedFile(other)

    def test_a_row_is_checked_when_it_is_read(self):
        data = built()
        broken = data.replace(b"Oslo\xc3\xa9", b"Oslo\xc3x")
        with self.assertRaises(InvalidDocumentError):
            TypedFile(broken)
        file = TypedFile(broken, check=False)
        self.assertEqual(file[0], documents()[0])
        with self.assertRaises(InvalidDocumentError) as refused:
            file[6]
        self.assertEqual(refused.exception.name, "OutOfForm")

    def test_types_that_are_none(self):
        for kind in ("", "int", "decimal", "decimal x", "decimal 256", "decimal -1", "int64 2",
                     "dates", "decimal \u0661"):
            with self.assertRaises(ValueError):
                TypedFile.build([], {"a": kind})
        with self.assertRaises(TypeError):
            TypedFile.build([1.5], {})

    def test_random_bytes_do_no_harm(self):
        data = built()
        for _ in range(2000):
            other = bytearray(data)
            for _ in range(random.randrange(1, 4)):
                other[random.randrange(len(other))] = random.randrange(256)
            for check in (True, False):
                try:
                    file = TypedFile(bytes(other), check=check)
                except (InvalidDocumentError, OutOfMemoryError):
                    continue
                except UnicodeDecodeError:
                    self.fail("a name is not UTF-8")
                self.assertTrue(all(isinstance(it, StoredColumn) for it in file.columns))
                for index in range(len(file)):
                    try:
                        self.assertIsInstance(file.row(index), Document)
                    except InvalidDocumentError:
                        self.assertFalse(check)


if __name__ == "__main__":
    unittest.main()
