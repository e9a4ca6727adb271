"""Columns beside other packages: pandas, pickle, sqlite3; and how they show themselves."""
import copy
import pickle
import sqlite3
import sys
import unittest
import warnings
from datetime import date, datetime, timedelta, timezone
from decimal import Decimal
from importlib.util import find_spec
from unittest import mock

import kohiblad
from kohiblad import Date, Document, Interval, KohibladWarning, Timestamp, UnfitError
from kohiblad.arrow import Column, frame
from kohiblad.typed_file import TypedFile

HAS_PANDAS = find_spec("pandas") is not None
ZONE = timezone(timedelta(hours=2))
# Of each type two values.
VALUES = {"int64": [5, -2**63], "uint64": [0, 2**64 - 1], "boolean": [True, False],
          "text": ["a", "é"], "decimal 2": [Decimal("1.50"), Decimal("-0.25")],
          "date": [date(2026, 11, 29), date(1970, 1, 1)],
          "timestamp": [datetime(2026, 11, 29, 12, 30, 0, 5), datetime(1969, 12, 31)],
          "timestamp_tz": [datetime(2026, 11, 29, 12, 30, tzinfo=ZONE),
                           datetime(1970, 1, 1, tzinfo=timezone.utc)],
          "interval": [Interval(1, -2, 3), Interval(0, 0, 0)], "binary": [b"\0x", b""]}
ROWS = [{name: those[0] for name, those in VALUES.items()}, {"other": 5},
        {name: those[1] for name, those in VALUES.items()},
        {name: None for name in VALUES}, {name: [1] for name in VALUES}]


def rows():
    return list(map(Document.of, ROWS))


def expected(name):
    first, second = VALUES[name]
    return [first, None, second, None, None]


class PickleTest(unittest.TestCase):
    def copies(self, it):
        for protocol in range(pickle.HIGHEST_PROTOCOL + 1):
            yield pickle.loads(pickle.dumps(it, protocol))
        yield copy.copy(it)
        yield copy.deepcopy(it)

    def test_columns(self):
        documents = [*rows(), None, Document.of(5), *rows() * 3, None]
        whole = Column.of(documents)
        for column, those in ((whole, documents), (whole[3:12], documents[3:12]),
                              (Column.from_arrow(whole[5:]), documents[5:]), (whole[4:4], []),
                              (Column.of([]), []), (Column.of([None]), [None]),
                              (Column.from_arrow(whole)[1:][2:9], documents[3:10])):
            for other in self.copies(column):
                self.assertIs(type(other), Column)
                self.assertEqual(list(other), those)
                self.assertEqual(other.sorted_order(), column.sorted_order())
                self.assertEqual(other.extract(["int64"], ["int64"])[0].to_list() if those else [],
                                 column.extract(["int64"], ["int64"])[0].to_list() if those else [])

    def test_bytes_that_are_no_documents_stay_such(self):
        column = Column.of(rows())
        data = pickle.dumps(column, 4)
        broken = pickle.loads(data.replace("é".encode(), b"\xff\xff"))
        with self.assertRaises(kohiblad.InvalidDocumentError):
            broken[2]
        with self.assertRaises(kohiblad.InvalidDocumentError):
            broken.extract(["text"], ["text"], unfit="error")

    def test_typed_columns(self):
        for name in VALUES:
            for unfit in ("rest", "null"):
                typed, = Column.of(rows()).extract([name], [name], unfit=unfit)
                for it in self.copies(typed):
                    self.assertEqual(it.to_list(), expected(name))
                    self.assertEqual((it.type, it.scale, it.path, it.unfit, it.rest),
                                     (typed.type, typed.scale, typed.path, typed.unfit, typed.rest))
                    self.assertEqual(bytes(it.states), bytes(typed.states))
                    it.__arrow_c_array__()
                    if name in ("int64", "decimal 2", "date", "timestamp"):
                        self.assertEqual(it.zones(2).least, typed.zones(2).least)

    def test_a_mixed_column_keeps_its_words(self):
        typed, = Column.of(Document.of({"a": it}) for it in (5, "x", 6)).extract(["a"])
        for it in self.copies(typed):
            with self.assertWarnsRegex(KohibladWarning, "row 1: text"):
                it.to_list()
            self.assertEqual(len(it.rest), 3)

    def test_files(self):
        data = TypedFile.build(rows(), {name: name for name in VALUES})
        for check in (True, False):
            file = TypedFile(memoryview(b"x" + data)[1:], check=check)
            for it in self.copies(file):
                self.assertEqual(list(it), rows())
                self.assertEqual(list(it.column("text")), expected("text"))
        for name in VALUES:
            column = TypedFile(data).column(name)
            for it in self.copies(column):
                self.assertEqual((it.name, it.type, list(it)), (name, name, expected(name)))

    def test_what_others_hold_stays(self):
        copies = pickle.loads(pickle.dumps([Column.of(rows()), Document.of({"a": 5})]))
        self.assertEqual(copies[1], Document.of({"a": 5}))


class ShownTest(unittest.TestCase):
    def test_columns(self):
        self.assertEqual(repr(Column.of(rows())), "<Column of 5 documents>")
        self.assertEqual(repr(Column.of([None] * 500_000)), "<Column of 500,000 documents>")

    def test_members(self):
        row = Document.of({"id": 7, "tags": ["a"]})
        self.assertEqual(repr(row.items()), "items([('id', 7), ('tags', <ArrayDocument [\"a\"]>)])")
        self.assertEqual((repr(row.keys()), repr(row.values())),
                         ("keys(['id', 'tags'])", "values([7, <ArrayDocument [\"a\"]>])"))
        self.assertEqual((list(row.keys()), len(row.keys()), "id" in row.keys()),
                         (["id", "tags"], 2, True))
        self.assertEqual(row.keys() | {"x"}, {"id", "tags", "x"})
        many = Document.of({str(number): number for number in range(1000)})
        self.assertLess(len(repr(many.items())), 90)


class EqualTest(unittest.TestCase):
    def test_what_is_never_equal_is_said(self):
        row = Document.of({"tags": ["a"], "id": 7})
        for compare, name in ((lambda: row == {"id": 7}, "dict"),
                              (lambda: row["tags"] == ["a"], "list"),
                              (lambda: {"id": 7} == row, "dict"), (lambda: row != (1,), "tuple"),
                              (lambda: dict(row) == {"tags": ["a"], "id": 7}, "list")):
            words = f"a document never equals a {name}: compare its value"
            with self.assertWarnsRegex(KohibladWarning, words) as said:
                compare()
            self.assertEqual(said.filename, __file__)
        with warnings.catch_warnings():
            warnings.simplefilter("error")
            self.assertFalse(row == 5 or row == "a" or row is None or row == Document.of(5))
            self.assertTrue(row.value() == {"tags": ["a"], "id": 7})


class SqliteTest(unittest.TestCase):
    def test_a_document_is_bound_as_its_bytes(self):
        with sqlite3.connect(":memory:") as connection:
            for document in (*rows(), Document.of([1, [2]]), Document.of(None), Document.of("a")):
                stored, kind = connection.execute("SELECT ?1, typeof(?1)", (document,)).fetchone()
                self.assertEqual((stored, kind), (bytes(document), "blob"))
        self.assertIsNone(Document.of(5).__conform__(object))


class WithoutPandasTest(unittest.TestCase):
    def test_the_error_says_what_is_missing(self):
        column = Column.of(rows())
        file = TypedFile(TypedFile.build(rows(), {"text": "text"}))
        calls = (column.to_pandas, column.extract(["text"])[0].to_pandas, file.to_pandas,
                 file.column("text").to_pandas, lambda: frame(column, {"a": "text"}))
        with mock.patch.dict(sys.modules, pandas=None):
            for call in calls:
                with self.assertRaisesRegex(ImportError, "this needs pandas: install it"):
                    call()
        with mock.patch.dict(sys.modules, numpy=None):
            with self.assertRaisesRegex(ImportError, "this needs numpy: install it"):
                column.extract(["text"])[0].numpy


@unittest.skipUnless(HAS_PANDAS, "frames: needs the Debian package python3-pandas")
class PandasTest(unittest.TestCase):
    def setUp(self):
        import pandas
        self.pandas = pandas

    def values_of(self, series):
        return [None if self.pandas.isna(it) else it for it in series]

    def test_series_of_each_type(self):
        types = {"int64": "Int64", "uint64": "UInt64", "boolean": "boolean", "text": "string",
                 "decimal 2": "object", "interval": "object", "binary": "object"}
        stored = TypedFile(TypedFile.build(rows(), {name: name for name in VALUES}))
        for name in VALUES:
            typed, = Column.of(rows()).extract([name], [name])
            for series in (typed.to_pandas(), stored.column(name).to_pandas(),
                           stored.to_pandas()[name]):
                self.assertEqual((series.name, len(series)), (name, 5))
                if name in types:
                    self.assertEqual(str(series.dtype), types[name])
                else:
                    self.assertRegex(str(series.dtype), r"^datetime64\[(ns|us|s)(, UTC)?\]$")
                found = self.values_of(series)
                if name == "date":
                    found = [it and it.date() for it in found]
                self.assertEqual(found, expected(name))

    def test_times_that_pandas_has_not(self):
        for values in ([Date(2**31 - 1), date(2026, 1, 1)],
                       [Timestamp(-2**63), datetime(2026, 1, 1)],
                       [Timestamp(2**63 - 1), datetime(2026, 1, 1)]):
            typed, = Column.of(Document.of({"a": it}) for it in [*values, None]).extract(["a"])
            series = typed.to_pandas()
            if str(series.dtype) == "object":
                self.assertEqual(list(series), [*values, None])

    def test_decimals_as_doubles(self):
        for values in (["0.10", "1234.56", "-0.01"], ["90071992547409.93", "0.07"],
                       [str(2**100), "0.29"]):
            numbers = list(map(Decimal, values))
            scale = max(-it.as_tuple().exponent for it in numbers)
            typed, = Column.of([*(Document.of({"a": it}) for it in numbers), None]).extract(["a"])
            self.assertEqual(typed.type, f"decimal {scale}" if scale else "uint64")
            found = typed.to_pandas(floats=True)
            self.assertEqual(str(found.dtype), "float64")
            self.assertEqual(self.values_of(found), [*map(float, numbers), None])

    def test_documents(self):
        documents = [*rows(), None, Document.of([1, 2]), Document.of([3, 4])]
        series = Column.of(documents).to_pandas()
        self.assertEqual(str(series.dtype), "object")
        self.assertEqual(list(series), documents)

    def test_a_frame_in_one_call(self):
        orders = [{"id": 1, "at": {"town": "Oslo"}, "total": Decimal("9.50")},
                  {"id": 2, "at": {"town": "Bergen"}, "total": Decimal("0.50")},
                  {"id": 3, "at": {"town": "Oslo"}, "total": 3}]
        made = frame(map(Document.of, orders), {"town": "$.at.town", "sum": "total", "id": "id"},
                     floats=True)
        self.assertEqual(list(made.columns), ["town", "sum", "id"])
        self.assertEqual(made.groupby("town")["sum"].sum().to_dict(), {"Oslo": 12.5, "Bergen": 0.5})
        self.assertEqual(made["id"].sum(), 6)
        exact = frame(Column.of(map(Document.of, orders)), {"sum": "total"}, {"sum": "decimal 2"})
        self.assertEqual(exact["sum"].sum(), Decimal("13.00"))
        self.assertEqual(frame([], {"a": "a"}).shape, (0, 1))

    def test_a_frame_says_what_is_missing(self):
        column = Column.of(Document.of({"a": it}) for it in (5, None, "n/a", 6, "x"))
        with self.assertWarnsRegex(KohibladWarning,
                                   "n: no int64 in 2 of 5 rows, first in row 2"):
            frame(column, {"n": "a"}, {"n": "int64"})
        with self.assertWarnsRegex(KohibladWarning, r"row 2: text"):
            frame(column, {"n": "a"})
        with self.assertWarnsRegex(KohibladWarning, r"no row has a value at \$\.b"):
            frame(column, {"n": "b"})
        with self.assertRaises(UnfitError):
            frame(column, {"n": "a"}, {"n": "int64"}, unfit="error")
        with self.assertRaises(KeyError):
            frame(column, {"n": "a"}, {"m": "int64"})


if __name__ == "__main__":
    unittest.main()
