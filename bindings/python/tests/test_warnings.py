"""What would be None without a word: texts of paths for names, members of no row, mixed columns."""
import contextlib
import io
import os
import subprocess
import sys
import unittest
import warnings
from datetime import date
from decimal import Decimal
from importlib.util import find_spec

import kohiblad
from kohiblad import Document, Interval, KohibladWarning, PathError
from kohiblad._changes import path_text
from kohiblad.arrow import Column
from kohiblad.typed_file import TypedFile

HAS_NUMPY = find_spec("numpy") is not None
ROWS = [{"customer": {"town": "Oslo"}, "lines": [{"price": 5}], "http.status": 200, "$.key": "k"},
        {"customer": {"town": "Bergen"}, "lines": []}]


def column():
    return Column.of(map(Document.of, ROWS))


@contextlib.contextmanager
def warned():
    """The words of what the package warns of, each with the line that is blamed."""
    found = []
    with warnings.catch_warnings(record=True) as caught:
        warnings.simplefilter("always")
        yield found
        found += [(str(it.message), it.filename) for it in caught
                  if issubclass(it.category, KohibladWarning)]


class WarningsTest(unittest.TestCase):
    @contextlib.contextmanager
    def assert_warns(self, *words):
        """Asserts that there is one warning with these words, of this file, or none without."""
        with warned() as found:
            yield
        self.assertEqual(len(found), bool(words), found)
        for message, name in found:
            self.assertEqual(os.path.basename(name), os.path.basename(__file__))
            for it in words:
                self.assertIn(it, message)


class PathTextTest(WarningsTest):
    def test_a_path_as_a_text(self):
        for path, text in (((), "$"), (("a", 0, -1), "$.a[0][#-1]"),
                           (("any name", "_b1"), '$."any name"._b1'),
                           (("1", "é", "", "$.c"), '$."1"."é".""."$.c"')):
            self.assertEqual(path_text(path), text)
            self.assertEqual(tuple(Document.of({"a": 5}).path_of(text)), path)
        self.assertEqual(path_text(['q"', 0]), '["q\\"",0]')
        self.assertEqual(path_text(["a\\b", 0]), '["a\\\\b",0]')

    def test_get_path(self):
        row = Document.of(ROWS[0])
        for text, steps in (("$.customer.town", "'customer', 'town'"),
                            ("customer.town", "'customer', 'town'"),
                            ("$.lines[0]", "'lines', 0"), ("$.lines[#-1]", "'lines', -1"),
                            ("$.customer", "'customer'"),
                            ("lines[0].price", "'lines', 0, 'price'")):
            with self.assertRaises(PathError) as refused:
                row.get_path(text)
            self.assertIn(f"write get_path({steps})", str(refused.exception))
        # A key stays one, and what leads nowhere as either has the default.
        self.assertEqual((row.get_path("http.status"), row.get_path("$.key")), (200, "k"))
        for name in ("$.nope", "nope.a", "customer.zip", "$", "a.", "[", "$.lines[5]",
                     "$.lines[*]"):
            self.assertEqual(row.get_path(name, default=7), 7)
        self.assertIsNone(row.get_path("customer", "$.town"))

    def test_columns_take_texts(self):
        with self.assert_warns():
            towns, prices, lines = column().extract(["$.customer.town", "$.lines[0].price",
                                                     ["lines", 0, "price"]])
        self.assertEqual(towns.to_list(), ["Oslo", "Bergen"])
        self.assertEqual((prices.to_list(), prices.path), ([5, None], ("lines", 0, "price")))
        self.assertEqual(lines.to_list(), prices.to_list())
        self.assertEqual(column().survey("$.customer.town").texts, 2)
        self.assertEqual(column().least_type("$.customer.town"), "text")
        for text in ("$.lines[*].price", "$.a b c(", "$.."):
            with self.assertRaisesRegex(PathError, "the text is not a path"):
                column().extract([text])

    def test_keys_that_look_like_texts(self):
        with self.assert_warns():
            statuses, keys = column().extract(["http.status", ["$.key"]], ["int64", "text"])
        self.assertEqual((statuses.to_list(), keys.to_list()), ([200, None], ["k", None]))
        with self.assertRaises(PathError) as refused:
            column().extract(["customer.town"], ["text"])
        self.assertIn("give ['customer', 'town'], or '$.customer.town'", str(refused.exception))
        with self.assert_warns('no row has a value at $."customer.town"'):
            column().extract([["customer.town"]], ["text"])

    def test_files(self):
        for name in ("customer.town", "$.customer.town", "lines[0]"):
            with self.assertRaises(PathError) as refused:
                TypedFile.build(ROWS, {name: "text"})
            self.assertIn(repr(name), str(refused.exception))
        with self.assert_warns():
            file = TypedFile(TypedFile.build(ROWS, {"http.status": "uint64"}))
        self.assertEqual(list(file.column("http.status")), [200, None])


class MissingTest(WarningsTest):
    def test_members_that_no_row_has(self):
        with self.assert_warns("no row has a value at $.nope, $.customer.zip"):
            found = column().extract(["nope", "lines", ["customer", "zip"]],
                                     ["int64", "mixed", None])
        self.assertEqual([it.to_list() for it in found[::2]], [[None] * 2] * 2)
        with self.assert_warns("no row has a value at $.a, $.b"):
            TypedFile.build(ROWS, {"b": "text", "a": "int64"})
        with self.assert_warns("no row has a value at $.a"):
            TypedFile.write(io.BytesIO(), ROWS, {"a": "text"})

    def test_no_warning(self):
        empty, nulls = Column.of([]), Column.of([Document.of({"a": None})])
        with self.assert_warns():
            empty.extract(["a", "b"], ["int64", None])
            nulls.extract(["a"], ["int64"])
            column().extract(["customer"], ["text"], unfit="null")
            Column.from_arrow(Column.of([Document.of({"a": 5}), None])).extract(["a"])
            TypedFile.build([], {"a": "text"})
            TypedFile.build([{}, {"a": 5}], {"a": "text"})

    def test_it_can_be_an_error(self):
        with warnings.catch_warnings():
            warnings.simplefilter("error", KohibladWarning)
            with self.assertRaisesRegex(KohibladWarning, r"\$.nope"):
                column().extract(["nope"])


class MixedTest(WarningsTest):
    def mixed(self, members, name=None, unfit="rest"):
        rows = (Document.of({} if it is None else {"a": it[0]}) for it in members)
        with self.assert_warns():
            it, = Column.of(rows).extract(["a"], [name], unfit=unfit)
        self.assertEqual(it.type, "mixed")
        return it

    def test_the_first_odd_rows_are_named(self):
        members = [[5], None, [None], [Decimal("1.5")], ["n/a"], [7], [True], [[5]], [{}], ["b"]]
        for unfit in ("rest", "null"):
            it = self.mixed(members, unfit=unfit)
            words = ("the column of $.a is mixed", "most rows have a number there",
                     "row 4: text, row 6: boolean, row 7: array;")
            for read in (it.to_list, lambda: list(it), lambda: it[4], lambda: it[:2],
                         it.__arrow_c_array__):
                with self.assert_warns(*words):
                    read()
            if HAS_NUMPY:
                with self.assert_warns(*words):
                    it.masked

    def test_each_kind_may_be_the_usual_one(self):
        values = {"number": 5, "text": "a", "boolean": True, "array": [1], "object": {"b": 1},
                  "interval": Interval(1, 2, 3), "binary": b"x"}
        for usual, value in values.items():
            for odd, other in values.items():
                if odd != usual:
                    it = self.mixed([[value], [value], [other], [value]])
                    with self.assert_warns(f"most rows have a {usual} there, but row 2: {odd};"):
                        it.to_list()

    def test_what_is_not_read_is_not_warned_of(self):
        it = self.mixed([[5], ["a"]])
        with self.assert_warns():
            self.assertEqual((len(it), it.unfit, len(it.rest)), (2, 2, 2))
            repr(it), it.states, it.type

    def test_texts_of_dates_that_are_not_asked_for(self):
        days = Column.of(Document.of({"a": it}) for it in (None, "2026-11-29", 5))
        words = "no row has a date at $.a, but texts as 2026-11-29: iso_dates reads them"
        for unfit in ("rest", "null"):
            with self.assert_warns(words):
                days.extract(["a"], ["date"], unfit=unfit)
        with self.assert_warns():
            days.extract(["a"], ["timestamp"])
            days.extract(["a"], ["date"], iso_dates=True)
            days.extract(["a"], ["text"])
        some = Column.of(Document.of({"a": it}) for it in (date(2026, 11, 29), "2026-11-29"))
        with self.assert_warns():
            some.extract(["a"], ["date"])

    def test_numbers_that_no_type_holds(self):
        it = self.mixed([[2**127 - 1], [Decimal("0.1")]])
        with self.assert_warns("the column of $.a is mixed, a type without values; name a type"):
            it.to_list()

    def test_a_typed_column_reads_without_a_word(self):
        column = Column.of(Document.of({"a": it}) for it in (5, "x", None))
        typed, = column.extract(["a"], ["int64"])
        with self.assert_warns():
            self.assertEqual(typed.to_list(), [5, None, None])


class ProgramTest(unittest.TestCase):
    def run_program(self, *words, rows=ROWS):
        data = io.BytesIO()
        kohiblad.write(data, rows)
        done = subprocess.run([sys.executable, "-m", "kohiblad", *words], input=data.getvalue(),
                              stdout=subprocess.PIPE, stderr=subprocess.PIPE)
        return done.returncode, done.stdout.decode(), done.stderr.decode()

    def test_get(self):
        self.assertEqual(self.run_program("get", "nope"),
                         (0, "\n\n", "kohiblad: no row has a value at $.nope\n"))
        for name in ("customer.town", "$.customer.town"):
            self.assertEqual(self.run_program("get", name)[2],
                             f'kohiblad: no row has a value at $."{name}": a key is expected, and '
                             "`extract` takes paths\n")
        self.assertEqual(self.run_program("get", "$.key"), (0, '"k"\n\n', ""))
        self.assertEqual(self.run_program("get", "nope", rows=[]), (0, "", ""))
        self.assertEqual(self.run_program("get", "a", rows=[{"a": None}]), (0, "null\n", ""))

    def test_survey_and_extract(self):
        words = "kohiblad: no row has a value at $.nope\n"
        self.assertEqual(self.run_program("survey", "$.nope")[2], words)
        self.assertEqual(self.run_program("extract", "$.nope", "text"),
                         (0, 'row,"$.nope"\n0,\n1,\n', words))
        told = self.run_program("extract", "$.a", "least", rows=[{"a": 5}, {"a": 6}, {"a": "b"}])[2]
        self.assertIn("kohiblad: the column of $.a is mixed", told)
        self.assertIn("row 2: text", told)
        self.assertEqual(told.count("is mixed"), 1)


@unittest.skipUnless(HAS_NUMPY, "columns as arrays: needs the Debian package python3-numpy")
class ArraysTest(unittest.TestCase):
    def test_a_file_has_the_arrays_of_a_column(self):
        import numpy
        rows = [{"n": 5, "u": 2**64 - 1, "p": Decimal("1.50"), "w": Decimal(2**100) / 4, "t": "a",
                 "b": b"\0x", "o": True}, {}, {"n": -5, "u": 0, "p": Decimal("-0.25"),
                 "w": Decimal("0.25"), "t": "", "b": b"", "o": False}, {"p": 7, "t": 7}]
        types = {"n": "int64", "u": "uint64", "p": "decimal 2", "w": "decimal 2", "t": "text",
                 "b": "binary", "o": "boolean"}
        file = TypedFile(TypedFile.build(rows, types))
        taken = Column.of(map(Document.of, rows)).extract(list(types), types.values(), exact=True)
        for name, typed in zip(types, taken):
            stored = file.column(name)
            self.assertEqual(stored.numpy.tolist(), typed.numpy.tolist(), name)
            self.assertEqual(stored.is_set.tolist(), typed.is_set.tolist())
            self.assertEqual(stored.masked.tolist(), typed.masked.tolist())
            self.assertEqual(stored.numpy.dtype.kind, typed.numpy.dtype.kind)
        self.assertEqual(file.column("p").numpy.tolist(), [150, 0, -25, 0])
        self.assertTrue(numpy.shares_memory(file.column("p").numpy,
                                            numpy.frombuffer(file.column("p").numbers, "u1")))


if __name__ == "__main__":
    unittest.main()
