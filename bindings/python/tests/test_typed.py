"""Members of all rows as columns of one type: `Column.survey`, `least_type` and `extract`.

What is expected is said by the rules of docs/TYPED.md, with Python's decimals.
"""
import array
import ctypes
import errno
import gc
import itertools
import random
import re
import signal
import struct
import sys
import threading
import unittest
import weakref
from datetime import date, datetime, timedelta, timezone
from decimal import Decimal
from importlib.util import find_spec
from unittest import mock

from kohiblad import (Date, Document, Interval, InvalidDocumentError, InvalidTextError, Timestamp,
                      TimestampTz, UnfitError, _capsules, _typed)
from kohiblad import _library as library
from kohiblad.arrow import Column, Survey, Typed
from test_arrow import (ARRAY, RELEASE, RELEASE_AT, SCHEMA, SCHEMA_RELEASE_AT, Consumer, Given,
                        Producer, children_of, new_capsule, pointer_of, words)

HAS_NUMPY = find_spec("numpy") is not None
ABSENT, VALUE, NULL, UNFIT, NO_DOCUMENT = range(5)
# The members, each as a JSON text; None: the row has no such member.
NUMBERS = ["0", "5", "-5", "2.0", "1.5", "1.50", "-0.25", "9223372036854775807",
           "9223372036854775808", "-9223372036854775808", "-9223372036854775809",
           "18446744073709551615", "18446744073709551616", str(2**127 - 1), str(-2**127),
           "0." + 37 * "0" + "1", "100.00"]
OTHERS = ["null", "true", "false", '"a"', '""', '"\u00e9\u20ac"', "[5]", '{"a":5}', "[]", None]
TYPES = ["int64", "uint64", "decimal 0", "decimal 1", "decimal 2", "decimal 38", "decimal 255",
         "boolean", "text", "date", "timestamp", "timestamp_tz", "interval", "nothing", "mixed"]
EPOCH = datetime(1970, 1, 1)
# By the type that they fit.
MOMENTS = {
    "date": [date(1970, 1, 1), date(2026, 11, 28), date.min, date.max, Date(2**31 - 1),
             Date(-2**31)],
    "timestamp": [EPOCH, datetime(2026, 11, 28, 12, 30, 15, 123456), datetime.min, datetime.max,
                  Timestamp(2**63 - 1), Timestamp(-2**63)],
    "timestamp_tz": [EPOCH.replace(tzinfo=timezone.utc),
                     datetime(2026, 11, 28, 12, 30, 15, 123456, timezone(timedelta(hours=5.75))),
                     datetime(1, 1, 1, tzinfo=timezone(timedelta(hours=-3))),
                     datetime(9999, 12, 31, 23, 59, 59, 999999, timezone(timedelta(seconds=-1))),
                     TimestampTz(2**63 - 1, 2**31 - 1), TimestampTz(-2**63, -2**31)],
    "interval": [Interval(0, 0, 0), Interval(14, -31, 10**6), Interval(-1, 2, -3),
                 Interval(1, 0, 0), Interval(2**31 - 1, 2**31 - 1, 2**63 // 1000),
                 Interval(-2**31, -2**31, -2**63 // 1000 + 1)],
}


def row_of(member):
    return Document.parse('{"b":0}' if member is None else f'{{"a":{member},"b":0}}')


def is_number(member):
    return member[0] in "-0123456789"


def fits(number, name, exact):
    """The value of a type that a number has, or None."""
    name, _, digits = name.partition(" ")
    if name not in ("int64", "uint64", "decimal"):
        return None
    least, most = {"int64": (-2**63, 2**63 - 1), "uint64": (0, 2**64 - 1),
                   "decimal": (-2**127, 2**127 - 1)}[name]
    scale = int(digits or 0)
    _, point, after = number.partition(".")
    if exact and len(after) != scale:
        return None
    whole = int(number.replace(".", "")) * 10**max(scale - len(after), 0)
    if len(after) > scale:
        whole, left = divmod(whole, 10**(len(after) - scale))
        if left:
            return None
    if not least <= whole <= most:
        return None
    return Decimal(f"{whole}e-{scale}") if scale else whole


def expected(member, name, exact):
    """The state and the value of a row."""
    if member is None:
        return ABSENT, None
    if member == "null":
        return NULL, None
    value = None
    if name == "boolean" and member in ("true", "false"):
        value = member == "true"
    if name == "text" and member[0] == '"':
        value = member[1:-1]
    if is_number(member):
        value = fits(member, name, exact)
    return (UNFIT if value is None else VALUE), value


def numbers_of(moment):
    """The numbers that a moment is stored as."""
    if isinstance(moment, (Date, Timestamp, TimestampTz, Interval)):
        return tuple(moment)
    if not isinstance(moment, datetime):
        return ((moment - EPOCH.date()).days,)
    micros = (moment.replace(tzinfo=None) - EPOCH) // timedelta(microseconds=1)
    if not moment.tzinfo:
        return (micros,)
    seconds = moment.utcoffset() // timedelta(seconds=1)
    return micros - seconds * 10**6, seconds


def column_of_moments(name):
    """Moments that fit a type and others, with their states and the values of the type."""
    fitting = MOMENTS[name]
    others = [it for other, moments in MOMENTS.items() if other != name for it in moments]
    others += [7, "2026-11-28"]
    rows = [{"a": it} for it in (*fitting, *others, None)] + [{}]
    states = [VALUE] * len(fitting) + [UNFIT] * len(others) + [NULL, ABSENT]
    return (Column.of(map(Document.of, rows)), states,
            fitting + [None] * (len(rows) - len(fitting)), others)


def is_held(member, name, exact):
    return expected(member, name, exact)[0] != UNFIT


class TypedTest(unittest.TestCase):
    def assert_extracted(self, members, name, exact):
        column = Column.of(map(row_of, members))
        typed, = column.extract(["a"], [name], exact=exact)
        pairs = [expected(it, name, exact) for it in members]
        states = [state for state, _ in pairs]
        self.assertEqual((typed.type, typed.path, len(typed)), (name, ("a",), len(members)))
        self.assertEqual(typed.states.tolist(), states)
        # That 1 is not True, and 1.50 has its digits.
        self.assertEqual(list(map(repr, typed.to_list())), [repr(it) for _, it in pairs])
        self.assertEqual(typed.unfit, states.count(UNFIT))
        self.assertEqual([(row, str(it)) for row, it in typed.rest],
                         [(row, str(Document.parse(members[row])))
                          for row, state in enumerate(states) if state == UNFIT])
        return typed

    def test_each_member_in_each_type(self):
        for name in TYPES:
            for exact in (False, True):
                with self.subTest(name=name, exact=exact):
                    self.assert_extracted(NUMBERS + OTHERS, name, exact)

    def test_more_rows_than_a_batch(self):
        rng = random.Random(1)
        for length in (2047, 2048, 2049, 5000):
            members = [rng.choice(NUMBERS + OTHERS) for _ in range(length)]
            for name in ("int64", "decimal 2", "boolean", "text", "mixed"):
                self.assert_extracted(members, name, rng.random() < .5)

    def test_the_buffers(self):
        column = Column.of(map(row_of, ["5", "-1", "null", None, '"a"']))
        for name, form, values in (
                ("int64", "q", [5, -1, 0, 0, 0]), ("uint64", "Q", [5, 0, 0, 0, 0]),
                ("decimal 1", "Q", [50, 0, 2**64 - 10, 2**64 - 1, 0, 0, 0, 0, 0, 0]),
                ("boolean", "B", [0] * 5), ("text", "Q", []), ("mixed", "B", [])):
            typed, = column.extract(["a"], [name])
            self.assertEqual((typed.values.format, typed.values.tolist(), typed.values.readonly),
                             (form, values, True), name)
        typed, = column.extract(["a"], ["text"])
        self.assertEqual((typed.offsets.format, typed.offsets.tolist(), bytes(typed.texts)),
                         ("q", [0, 0, 0, 0, 0, 1], b"a"))

    def test_a_sequence(self):
        typed, = Column.of(map(row_of, ["1.5", None, "2"])).extract(["a"], ["decimal 1"])
        values = [Decimal("1.5"), None, Decimal("2.0")]
        self.assertEqual((list(typed), typed[0], typed[-1], typed[:2], typed[::-1]),
                         (values, values[0], values[2], values[:2], values[::-1]))
        self.assertEqual((typed.index(None), Decimal(2) in typed, repr(typed)),
                         (1, True, "<Typed decimal 1, 3 rows>"))
        with self.assertRaises(IndexError):
            typed[3]
        with self.assertRaises(TypeError):
            Typed()

    def test_no_rows(self):
        for column in (Column.of([]), Column.of(map(row_of, ["5"]))[1:]):
            for name in (*TYPES, None):
                typed, = column.extract(["a"], [name])
                self.assertEqual((len(typed), typed.to_list(), typed.rest, typed.unfit),
                                 (0, [], [], 0))
            self.assertEqual((column.survey("a").rows, column.least_type("a")), (0, "nothing"))

    def test_paths(self):
        column = Column.of(map(Document.parse, (
            '{"a":{"b":[1,2]},"":7}', '{"a":{"b":[]}}', '[3,4]', "5", '{"a":[6]}')))
        for path, values in (
                (["a", "b", 0], [1, None, None, None, None]),
                (["a", "b", -1], [2, None, None, None, None]), (["a", -1], [None] * 4 + [6]),
                (1, [None, None, 4, None, None]), (-2, [None, None, 3, None, None]),
                ([], [None, None, None, 5, None]), ("", [7, None, None, None, None]),
                (2**70, [None] * 5), (["a", "c"], [None] * 5)):
            typed, = column.extract([path], ["int64"])
            self.assertEqual(typed.to_list(), values, path)
        first, second = column.extract([["a", "b", 0], 1])
        self.assertEqual((first.to_list(), second.to_list()),
                         ([1, None, None, None, None], [None, None, 4, None, None]))
        self.assertEqual(column.extract([]), [])
        whole, = column.extract([[]], ["text"])
        self.assertEqual([str(it) for _, it in whole.rest], [str(it) for it in column])

    def test_what_is_refused(self):
        column = Column.of(map(row_of, ["5"]))
        for error, paths, types, unfit in (
                (TypeError, "a", None, "rest"), (TypeError, ["a"], "int64", "rest"),
                (TypeError, ["a"], [5], "rest"), (TypeError, [True], None, "rest"),
                (TypeError, [1.5], None, "rest"), (ValueError, ["a"], ["int64"] * 2, "rest"),
                (ValueError, ["a"], [], "rest"), (ValueError, ["a"], None, "keep"),
                (InvalidTextError, ["\ud800"], None, "rest"),
                *((ValueError, ["a"], [name], "rest") for name in (
                    "", "int", "INT64", "decimal", "decimal ", "decimal 256", "decimal -1",
                    "decimal 1 ", "decimal \u0661", "decimal 1.5", "intervals", "text 1"))):
            with self.subTest(paths=paths, types=types), self.assertRaises(error):
                column.extract(paths, types, unfit=unfit)
        self.assertEqual(column.extract(["a"], ["decimal 02"])[0].type, "decimal 2")

    def test_least_types(self):
        for members, by_value, exact in (
                (["null", None], "nothing", "nothing"), (["true", "null"], "boolean", "boolean"),
                (["5", "-5"], "int64", "int64"), (["2.0", "1"], "int64", "mixed"),
                (["2.0"], "int64", "decimal 1"), (["9223372036854775808", "0"], "uint64", "uint64"),
                (["9223372036854775808", "-1"], "decimal 0", "decimal 0"),
                (["1.5", "1.50"], "decimal 2", "mixed"), (["1.50", "2.25"], "decimal 2",
                                                          "decimal 2"),
                ([str(2**127 - 1), "0.1"], "mixed", "mixed"), (['"a"', '""'], "text", "text"),
                (['"a"', "1"], "mixed", "mixed"), (["true", "0"], "mixed", "mixed"),
                (["[1]"], "mixed", "mixed"), (["{}", None], "mixed", "mixed")):
            # The rows that decide come after the first batch.
            for rows in (members, [None] * 3000 + members, members[:1] * 3000 + members):
                column = Column.of(map(row_of, rows))
                for is_exact, name in ((False, by_value), (True, exact)):
                    with self.subTest(members=members, exact=is_exact):
                        self.assertEqual(column.least_type("a", exact=is_exact), name)
                        typed, = column.extract(["a"], exact=is_exact)
                        self.assertEqual(typed.type, name)
                        self.assertTrue(name == "mixed" or not typed.unfit)
                        # It is the first of those that hold all members.
                        numbers = [it for it in members if it and is_number(it)]
                        scale = max([len(it.partition(".")[2]) for it in numbers], default=0)
                        names = ["nothing", "boolean", "int64", "uint64", f"decimal {scale}",
                                 "text", "mixed"]
                        held = [it for it in names if it == "mixed" or all(
                            is_held(member, it, is_exact) for member in members)]
                        self.assertEqual(name, held[0])

    def test_binary_values(self):
        values = [b"", b"\0\xff\n", "\u00e9".encode(), bytes(range(256)) * 20] * 700
        others = ["a", 5, date(2026, 11, 28), [b"x"]]
        rows = [{"a": it} for it in (*values, *others, None)] + [{}]
        column = Column.of(map(Document.of, rows))
        typed, = column.extract(["a"], ["binary"])
        self.assertEqual((typed.type, typed.to_list()), ("binary", values + 6 * [None]))
        self.assertEqual(typed.states.tolist(),
                         [VALUE] * len(values) + [UNFIT] * 4 + [NULL, ABSENT])
        self.assertEqual((typed[1], typed[2:4], typed[-1]), (values[1], values[2:4], None))
        self.assertEqual([it for _, it in typed.rest], list(map(Document.of, others)))
        self.assertEqual((typed.values.format, bytes(typed.values), bytes(typed.texts)),
                         ("B", b"".join(values), b""))
        self.assertEqual(typed.offsets.tolist()[:5], [0, 0, 3, 5, 5125])
        self.assertEqual((column.least_type("a"), column[:2800].least_type("a")),
                         ("mixed", "binary"))
        least, = column[1:2800].extract(["a"])
        self.assertEqual((least.type, least.to_list()), ("binary", values[1:]))
        self.assertEqual(column.extract(["a"], ["text"])[0].to_list(),
                         len(values) * [None] + ["a"] + 5 * [None])

    def test_dates_and_timestamps(self):
        for name, layout in (("date", "i"), ("timestamp", "q"), ("timestamp_tz", "qi4x"),
                             ("interval", "iiq")):
            column, states, values, others = column_of_moments(name)
            typed, = column.extract(["a"], [name])
            self.assertEqual((typed.type, typed.states.tolist()), (name, states))
            self.assertEqual(list(map(repr, typed.to_list())), list(map(repr, values)))
            self.assertEqual(typed[:], typed.to_list())
            blank = struct.pack(f"={layout}", *[0] * len(numbers_of(values[0])))
            self.assertEqual(typed.values.format, "i" if name == "date" else "q")
            self.assertEqual(bytes(typed.values), b"".join(
                blank if it is None else struct.pack(f"={layout}", *numbers_of(it))
                for it in values))
            self.assertEqual([it for _, it in typed.rest], list(map(Document.of, others)))
            for rows in (column[:6], column[:3], column[-2:]):
                least = name if len(rows) > 2 else "nothing"
                self.assertEqual(rows.least_type("a"), least)
                self.assertEqual(rows.extract(["a"])[0].type, least)
            mixed = column.extract(["a"])[0]
            self.assertEqual((mixed.type, mixed.unfit), ("mixed", len(states) - 2))
            # More rows than a batch, where one decides that comes late.
            many = Column.of([Document.of({"a": MOMENTS[name][1]})] * 3000 + [Document.of({"a": 5})])
            self.assertEqual((many[:3000].extract(["a"])[0][2999], many.least_type("a")),
                             (MOMENTS[name][1], "mixed"))

    def test_rows_that_are_documents_are_checked_once(self):
        class Foreign:
            def __bytes__(self):
                return b"no"

        good = Document.of({"a": 5, "b": 6})
        rows = Producer([bytes(good)] * 3, b"Z")
        others = Producer([bytes(good)] * 3, b"Z")
        bad, worse = (Producer([bytes(good), b"no"], b"Z") for _ in range(2))
        for column, paths, types, wanted, states in (
                (Column.of([good, None, good]), ["a", "b"], ["int64"] * 2, [1], [1, 0, 1]),
                (Column.of([good, None])[:1], ["a"], ["int64"], [1], [1]),
                (Column.of([good, Foreign()]), ["a", "b"], ["int64"] * 2, [0], [1, 4]),
                (Column.from_arrow(rows), ["a", "b", "a"], ["int64"] * 3, [0], [1, 1, 1]),
                (Column.from_arrow(others), ["a", "b"], None, [0, 1], [1, 1, 1]),
                (Column.from_arrow(bad), ["a", "b"], ["int64"] * 2, [0], [1, 4]),
                (Column.from_arrow(worse), ["a", "a"], ["int64"] * 2, [0, 0], [1, 4])):
            calls = []

            def counted(is_known, call):
                return lambda *arguments: calls.append(is_known) or call(*arguments)

            *taking, at = _typed.library.take_int64
            taking = (*map(counted, (0, 1), taking), at)
            locating = tuple(map(counted, (0, 1), _typed.library.locate))
            with mock.patch.object(_typed.library, "take_int64", taking), \
                    mock.patch.object(_typed.library, "locate", locating):
                columns = column.extract(paths, types)
            self.assertEqual(calls, wanted)
            self.assertEqual([it.states.tolist() for it in columns], [states] * len(paths))
        # For the least type all rows are checked by a survey first.
        source = Producer([bytes(row_of("1.5")), bytes(row_of("2"))], b"Z")
        prices = Column.from_arrow(source)
        unchecked = mock.Mock(side_effect=_typed.library.take_decimal[1])
        with mock.patch.object(_typed.library, "take_decimal", (None, unchecked)):
            self.assertEqual(prices.extract(["a"])[0].to_list(), [Decimal("1.5"), Decimal("2.0")])
        self.assertEqual(unchecked.call_count, 1)

    def test_several_members_are_those_of_single_paths(self):
        texts = ['{"a":5,"b":"x","c":1.5,"é":true}', '{"b":"yé","c":2,"é":null}', "{}", "[1]",
                 '{"a":-7,"b":9,"c":"z","d":[1],"é":false}', '{"a":6,"b":"","c":0.25,"é":true}']
        rows = [Document.parse(text) for text in texts * 700]
        pairs = [("é", "boolean"), ("b", "text"), ("a", "int64"), ("c", "decimal 2"),
                 ("a", "uint64"), ("b", "binary"), ("none", "interval"), ("d", "mixed"),
                 (["c"], "timestamp_tz"), ("c", None), (0, "int64"), ("c", "date")]
        paths, types = zip(*pairs)
        source = Producer([bytes(row) for row in rows[:9]] + [b"no", b""], b"Z")
        for column in (Column.of(rows), Column.from_arrow(source)):
            for exact in (False, True):
                for path, name, found in zip(paths, types,
                                             column.extract(paths, types, exact=exact)):
                    alone, = column.extract([path], [name], exact=exact)
                    self.assertEqual((found.type, found.states, found.values, found.offsets,
                                      found.texts, found.unfit, found.rest, found.to_list()),
                                     (alone.type, alone.states, alone.values, alone.offsets,
                                      alone.texts, alone.unfit, alone.rest, alone.to_list()), path)
        # The first path with a member that does not fit is refused, not the first row.
        with self.assertRaises(UnfitError) as refused:
            Column.of(rows).extract(["b", "c"], ["text", "decimal 2"], unfit="error")
        self.assertEqual(refused.exception.row, 4)
        with self.assertRaises(UnfitError) as refused:
            Column.of([*rows[:3], *rows[4:5]]).extract(["a", "b"], ["uint64", "text"],
                                                       unfit="error")
        self.assertEqual(refused.exception.row, 3)

    def test_each_type_without_a_check(self):
        """What documents have is the same by the calls that check rows, which Arrow's need."""
        members = NUMBERS + OTHERS
        known, moments = Column.of(map(row_of, members)), column_of_moments("date")[0]
        sources = [Producer(list(map(bytes, it)), b"Z") for it in (known, moments)]
        given, given_moments = map(Column.from_arrow, sources)
        for name in TYPES:
            for one, other in ((known, given), (moments, given_moments)):
                for exact in (False, True):
                    found, = one.extract(["a"], [name], exact=exact)
                    checked, = other.extract(["a"], [name], exact=exact)
                    self.assertEqual((found.states, found.values, found.to_list(), found.unfit),
                                     (checked.states, checked.values, checked.to_list(),
                                      checked.unfit), name)

    def test_what_does_not_fit(self):
        column = Column.of(map(row_of, ["5", '"a"', None, "null", "1.5"]))
        rest, = column.extract(["a"], ["int64"])
        self.assertEqual((rest.unfit, rest.states.tolist()), (2, [1, 3, 0, 2, 3]))
        self.assertEqual(rest.rest, [(1, Document.of("a")), (4, Document.of(Decimal("1.5")))])
        null, = column.extract(["a"], ["int64"], unfit="null")
        self.assertEqual((null.unfit, null.states.tolist(), null.rest, null.to_list()),
                         (2, [1, 2, 0, 2, 2], [], [5, None, None, None, None]))
        for name, row, reason in (
                ("int64", 1, 'no int64 at ["a"]: "a"'), ("text", 0, 'no text at ["a"]: 5'),
                ("mixed", 0, 'no one type at ["a"]: 5'),
                ("nothing", 0, 'not nothing at ["a"]: 5'),
                ("decimal 1", 1, 'no decimal 1 at ["a"]: "a"')):
            with self.assertRaises(UnfitError) as refused:
                column.extract(["b", "a"], ["int64", name], unfit="error")
            error = refused.exception
            self.assertEqual((error.row, error.place, error.name), (row, f"row {row}", "OtherKind"))
            self.assertEqual(str(error), f"row {row}: OtherKind: {reason}")
        with self.assertRaisesRegex(UnfitError, r'^row 0: OtherKind: no int64 at \["a"\]: "b{66}'
                                                r'\.\.\.$'):
            Column.of([row_of(f'"{"b" * 1000}"')]).extract(["a"], ["int64"], unfit="error")
        fine, = column.extract([["b"]], ["int64"], unfit="error")
        self.assertEqual(fine.to_list(), [0] * 5)
        late = Column.of(map(row_of, ["5"] * 3000 + ["1.5"] + ["5"] * 3000))
        with self.assertRaises(UnfitError) as refused:
            late.extract(["a"], ["int64"], unfit="error")
        self.assertEqual(refused.exception.row, 3000)
        self.assertEqual(late.extract(["a"], unfit="error")[0].type, "decimal 1")

    def test_rows_that_are_no_documents(self):
        data = [bytes(row_of("5")), b"no", b"", bytes(row_of("null"))]
        source = Producer(data, b"Z")
        column = Column.from_arrow(source)
        for name, states in (("int64", [1, 4, 0, 2]), ("text", [3, 4, 0, 2]),
                             ("mixed", [3, 4, 0, 2])):
            typed, = column.extract(["a"], [name])
            self.assertEqual((typed.states.tolist(), dict(typed.rest)[1]), (states, b"no"))
        counts = column.survey("a")
        self.assertEqual((counts.rows, counts.not_documents, counts.absent, counts.nulls,
                          counts.uint64s), (4, 1, 1, 1, 1))
        self.assertEqual((column.least_type("a"), column.extract(["a"])[0].type),
                         ("int64", "int64"))
        with self.assertRaises(InvalidDocumentError) as refused:
            column.extract(["a"], ["int64"], unfit="error")
        self.assertEqual((refused.exception.row, refused.exception.place), (1, "row 1"))
        null, = column.extract(["a"], ["int64"], unfit="null")
        self.assertEqual((null.states.tolist(), null.unfit), ([1, 2, 0, 2], 1))
        # As deep as documents may be, and one deeper.
        nested = bytes(Document.parse("[" * 1000 + "]" * 1000))
        front = 0x80000001 << 32 | 0x50000000 | len(nested)
        source = Producer([nested, front.to_bytes(8, "big") + nested], b"Z")
        deep = Column.from_arrow(source)
        self.assertEqual(deep.extract([0], ["mixed"])[0].states.tolist(), [UNFIT, NO_DOCUMENT])

    def test_rows_that_are_missing(self):
        rng = random.Random(2)
        members = [rng.choice(["5", "null", None, '"a"', "gone"]) for _ in range(5000)]
        column = Column.of(None if it == "gone" else row_of(it) for it in members)
        there = [None if it == "gone" else it for it in members]
        for first, last in ((0, 5000), (3, 2100), (2047, 2049), (4999, 5000)):
            part = column[first:last]
            typed, = part.extract(["a"], ["int64"])
            self.assertEqual(typed.states.tolist(),
                             [expected(it, "int64", False)[0] for it in there[first:last]])
            counts = part.survey("a")
            self.assertEqual((counts.rows, counts.absent, counts.texts),
                             (last - first, there[first:last].count(None),
                              there[first:last].count('"a"')))

    def test_a_missing_row_that_has_bytes(self):
        data = [bytes(row_of(it)) for it in ("5", "6", '"a"', "7")]
        source = Producer(data, b"Z")
        whole = Column.from_arrow(source)._rows
        validity = array.array("B", [0b1001])
        column = library.with_fields(Column, _rows=whole._replace(
            validity=validity.buffer_info()[0], kept=(*whole.kept, validity)))
        self.assertEqual([it is None for it in column], [False, True, True, False])
        typed, = column.extract(["a"])
        self.assertEqual((typed.type, typed.to_list()), ("int64", [5, None, None, 7]))
        texts, = column[1:].extract(["a"], ["text"])
        self.assertEqual((texts.states.tolist(), [(row, str(it)) for row, it in texts.rest]),
                         ([0, 0, 3], [(2, "7")]))
        self.assertEqual(column.survey("a").absent, 2)

    def test_surveys(self):
        members = ["null", "true", "1", "-1", "1.5", "-0.25", str(2**70), '"a"', '"\u20ac"', "[]",
                   "{}", None]
        for rows in (members, members * 500):
            times = len(rows) // len(members)
            self.assertEqual(Column.of(map(row_of, rows)).survey("a"), Survey(
                rows=len(rows), not_documents=0, absent=times, nulls=times, booleans=times,
                int64s=times, uint64s=times, decimal64s=2 * times, decimal128s=times,
                texts=2 * times, binaries=0, dates=0, timestamps=0, zoned_timestamps=0,
                intervals=0, opaques=0, arrays=times, objects=times, least_scale=0,
                greatest_scale=2, most_digits=22, longest_text=3))
        # The least scale is that of numbers, also where some batches have none.
        column = Column.of(map(row_of, [None] * 3000 + ["1.50", "1.250"] + [None] * 3000))
        counts = column.survey("a")
        self.assertEqual((counts.least_scale, counts.greatest_scale, counts.numbers), (2, 3, 2))

    def test_texts_of_many_lengths(self):
        rng = random.Random(3)
        texts = ["".join(rng.choices("ab\u00e9\u20ac\U0001f600", k=rng.choice([0, 1, 5, 300])))
                 for _ in range(5000)]
        column = Column.of(Document.of({"a": it}) for it in texts)
        typed, = column.extract(["a"])
        self.assertEqual((typed.type, typed.to_list()), ("text", texts))
        self.assertEqual((typed[4999], typed[10:20]), (texts[4999], texts[10:20]))

    def test_buffers_are_freed_without_the_collector(self):
        column = Column.of(map(row_of, ["5", '"a"', "true", "1.5"] * 600))
        gc.disable()
        self.addCleanup(gc.enable)
        for name in (*TYPES, None):
            typed, = column.extract(["a"], [name])
            buffers = [weakref.ref(it.obj) for it in (typed.states, typed.values, typed.offsets)]
            self.assertEqual([it() is None for it in buffers], [False] * 3)
            del typed
            self.assertEqual([it() is None for it in buffers], [True] * 3, name)

    def test_an_interrupt_ends_a_long_call(self):
        # A test that runs in the background of a shell has SIGINT ignored.
        before = signal.signal(signal.SIGINT, signal.default_int_handler)
        self.addCleanup(signal.signal, signal.SIGINT, before)
        rows = Column.of([row_of("5")] * 100)._rows
        batch = next(rows.batches())
        # The same rows, without an end.
        endless = type("Endless", (), {"length": 100, "batches": lambda self:
                                       itertools.repeat(batch), "bytes_at": rows.bytes_at,
                                       "are_documents": False})()
        for call in (lambda: _typed.survey_of(endless.batches(), ("a",)),
                     lambda: _typed.extract(endless, [(("a",), "int64")], "rest", False)):
            timer = threading.Timer(.1, signal.raise_signal, [signal.SIGINT])
            timer.start()
            with self.assertRaises(KeyboardInterrupt):
                call()
            timer.join()

    def test_a_subclass_does_not_say_how_much_is_written(self):
        """The length that a subclass tells is no size of memory: all rows are taken."""
        for told in (0, 1, 2**40):
            members = type("Members", (Column,), {
                "__len__": lambda self: told, "_row": None, "_batches": None, "_bytes_at": None})
            column = members.of(map(row_of, ["5", '"a"', "null", "7"] * 3000))
            numbers, texts = column.extract(["a", "b"], ["int64", None], unfit="null")
            self.assertEqual(numbers.to_list(), [5, None, None, 7] * 3000)
            self.assertEqual(texts.to_list(), [0] * 12000)
            self.assertEqual(column.extract(["a"], ["int64"])[0].unfit, 3000)
            self.assertEqual(column.least_type("b"), "int64")
            self.assertEqual(len(column.sorted_order()), 12000)

    def test_the_fields_by_which_c_is_called_stay(self):
        column = Column.of(map(row_of, ["5", "7"]))
        typed, = column.extract(["a"])
        for it, names in ((column, ("_rows",)),
                          (typed, ("states", "values", "offsets", "texts", "type", "_rows"))):
            for name in names:
                with self.assertRaisesRegex(AttributeError, f"^{name} of a .* cannot be assigned"):
                    setattr(it, name, memoryview(b""))
                with self.assertRaises(AttributeError):
                    delattr(it, name)
        with self.assertRaises(AttributeError):
            column._rows.length = 2**40
        self.assertEqual((typed.to_list(), typed.zones().greatest, list(column)),
                         ([5, 7], [7], [row_of("5"), row_of("7")]))
        # A subclass may have fields of its own.
        named = type("Named", (Column,), {}).of([])
        named.title = "rows"
        self.assertEqual(named.title, "rows")
        del named.title

    def test_several_threads(self):
        members = ["5", None, "7"] * 3000
        column, found = Column.of(map(row_of, members)), []

        def extract():
            found.append(column.extract(["a"])[0].to_list())

        threads = [threading.Thread(target=extract) for _ in range(4)]
        for it in threads:
            it.start()
        for it in threads:
            it.join()
        self.assertEqual(found, [[5, None, 7] * 3000] * 4)


class TypedConsumer(Consumer):
    """Reads an array of values by its format alone, as the interface has it."""

    def values(self):
        if self.format == b"n":
            return [None] * self.length
        validity, *buffers = self.buffers
        flags = self.bits(validity) if validity else [True] * self.length
        return [it if flag else None for it, flag in zip(self.all_values(*buffers), flags)]

    def bits(self, address):
        data = ctypes.string_at(address, (self.length + 7) // 8)
        return [bool(data[row // 8] >> row % 8 & 1) for row in range(self.length)]

    def all_values(self, first, data=None):
        if self.format == b"b":
            return self.bits(first)
        if self.format in (b"U", b"Z"):
            ends = struct.unpack(f"={self.length + 1}q",
                                 ctypes.string_at(first, 8 * self.length + 8))
            found = [ctypes.string_at(data + start, end - start)
                     for start, end in zip(ends, ends[1:])]
            return found if self.format == b"Z" else list(map(bytes.decode, found))
        if self.format == b"tin":
            return list(struct.iter_unpack("=iiq", ctypes.string_at(first, 16 * self.length)))
        if self.format in (b"l", b"L", b"i", b"tdD", b"tsu:", b"tsu:UTC"):
            form = {b"L": "Q", b"i": "i", b"tdD": "i"}.get(self.format, "q")
            layout = struct.Struct(f"={self.length}{form}")
            return list(layout.unpack(ctypes.string_at(first, layout.size)))
        kind, digits, scale = re.fullmatch(b"(d):([0-9]+),([0-9]+)", self.format).groups()
        assert (kind, digits) == (b"d", b"38")
        data = ctypes.string_at(first, 16 * self.length)
        numbers = [int.from_bytes(data[at:at + 16], "little", signed=True)
                   for at in range(0, len(data), 16)]
        return [Decimal(f"{it}e-{int(scale)}") for it in numbers]


class ChildConsumer(TypedConsumer):
    """Takes the struct of a child, which it moves out of its parent."""

    def __init__(self, form, address):
        self.format = form
        self.take(address)


def schemas_at(addresses):
    """The formats, names and flags of the children of a schema."""
    found = [words(it, SCHEMA) for it in addresses]
    return [(ctypes.string_at(it[0]), ctypes.string_at(it[1]), it[3]) for it in found]


class Streamed:
    """Takes the struct of a stream, and asks it for structs as a library does in C."""
    LAYOUT = struct.Struct("=QQQQQ")
    GET = ctypes.CFUNCTYPE(ctypes.c_int, ctypes.c_void_p, ctypes.c_void_p)

    def __init__(self, source):
        address = pointer_of(source.__arrow_c_stream__(), b"arrow_array_stream")
        self.taken = ctypes.create_string_buffer(ctypes.string_at(address, self.LAYOUT.size))
        self.kept = []
        # What is moved is marked as released where it was.
        ctypes.memset(address + 24, 0, 8)
        self.get_schema, self.get_next, self.get_last_error, self.end, _ = words(
            ctypes.addressof(self.taken), self.LAYOUT)

    def ask(self, call, layout):
        out = ctypes.create_string_buffer(b"\xff" * layout.size, layout.size)
        status = self.GET(call)(ctypes.addressof(self.taken), ctypes.addressof(out))
        assert status == 0, status
        return out

    def next(self):
        """The next array, as what hands out capsules; None at the end."""
        schema, given = self.ask(self.get_schema, SCHEMA), self.ask(self.get_next, ARRAY)
        self.kept.append((schema, given))
        if not words(ctypes.addressof(given), ARRAY)[-2]:
            RELEASE(words(ctypes.addressof(schema), SCHEMA)[-2])(ctypes.addressof(schema))
            return None
        return Given((new_capsule(ctypes.addressof(schema), b"arrow_schema", None),
                      new_capsule(ctypes.addressof(given), b"arrow_array", None)))

    def release(self):
        RELEASE(self.end)(ctypes.addressof(self.taken))


class InterfaceTest(unittest.TestCase):
    """Typed members by Arrow's C data interface."""

    def setUp(self):
        gc.collect()
        _capsules.release_unused()
        self.before = dict(_capsules._exported)

    def assert_all_released(self):
        _capsules.release_unused()
        self.assertEqual((_capsules._exported, _capsules._handed_out), (self.before, {}))

    def test_each_type(self):
        rng = random.Random(5)
        few = [it for it in NUMBERS if abs(Decimal(it)) < 10**36]
        for length in (0, 1, 7, 8, 9, 2049):
            members = [rng.choice(few + OTHERS) for _ in range(length)]
            for name, form in (("int64", b"l"), ("uint64", b"L"), ("decimal 2", b"d:38,2"),
                               ("decimal 0", b"d:38,0"), ("boolean", b"b"), ("text", b"U"),
                               ("nothing", b"n"), ("mixed", b"n")):
                with self.subTest(name=name, length=length):
                    typed, = Column.of(map(row_of, members)).extract(["a"], [name])
                    values = [expected(it, name, False)[1] for it in members]
                    read = TypedConsumer(typed)
                    self.assertEqual((read.format, read.flags, read.length, read.offset),
                                     (form, 2, length, 0))
                    self.assertEqual((read.null_count, read.values()),
                                     (values.count(None), values))
                    self.assertEqual(len(read.buffers), {"text": 3, "nothing": 0, "mixed": 0}.get(
                        name, 2))
                    read.release()
        self.assert_all_released()

    def test_dates_and_timestamps(self):
        for name, form in (("date", b"tdD"), ("timestamp", b"tsu:")):
            column, _, values, _ = column_of_moments(name)
            typed, = column.extract(["a"], [name])
            read = TypedConsumer(typed)
            self.assertEqual((read.format, read.null_count), (form, values.count(None)))
            self.assertEqual(read.values(), [None if it is None else numbers_of(it)[0]
                                             for it in values])
            self.assertEqual(read.buffers[1], typed.values.obj.buffer_info()[0])
            read.release()
        self.assert_all_released()

    def test_binary_values(self):
        for values in ([], [None], [b""], [b"\0\xff", None, b"", "\u00e9".encode()] * 600):
            column = Column.of(Document.of({"a": it}) for it in values)
            typed, = column.extract(["a"], ["binary"])
            read = TypedConsumer(typed)
            self.assertEqual((read.format, read.length, read.null_count, len(read.buffers)),
                             (b"Z", len(values), values.count(None), 3))
            self.assertEqual(read.values(), values)
            read.release()
        self.assert_all_released()

    def test_intervals(self):
        column, _, values, _ = column_of_moments("interval")
        read = TypedConsumer(column.extract(["a"], ["interval"])[0])
        self.assertEqual((read.format, read.null_count), (b"tin", values.count(None)))
        self.assertEqual(read.values(), [None if it is None else (it.months, it.days,
                                                                  1000 * it.micros)
                                         for it in values])
        read.release()
        for micros in (2**63 // 1000 + 1, 2**63 - 1, -2**63 // 1000, -2**63):
            rows = [{"a": Interval(0, 0, 1)}, {}, {"a": Interval(5, 6, micros)}]
            typed, = Column.of(map(Document.of, rows)).extract(["a"])
            self.assertEqual(typed.to_list(), [it.get("a") for it in rows])
            for call in (typed.__arrow_c_array__, typed.__arrow_c_stream__):
                with self.assertRaisesRegex(ValueError, f"^row 2: .* {micros} microseconds$"):
                    call()
        read = TypedConsumer(Column.of([]).extract(["a"], ["interval"])[0])
        self.assertEqual((read.values(), len(read.buffers)), ([], 2))
        read.release()
        self.assert_all_released()

    def test_timestamps_with_a_zone(self):
        column, states, values, _ = column_of_moments("timestamp_tz")
        numbers = [(0, 0) if it is None else numbers_of(it) for it in values]
        for moved in ((), (0,), (0, 1)):
            freed = []
            typed, = column.extract(["a"], ["timestamp_tz"])
            weakref.finalize(typed, freed.append, moved)
            schema, read = typed.__arrow_c_schema__(), TypedConsumer(typed)
            flags = [it == VALUE for it in states]
            self.assertEqual((read.format, read.null_count, len(read.buffers)),
                             (b"+s", values.count(None), 1))
            self.assertEqual(read.bits(read.buffers[0]), flags)
            self.assertEqual(schemas_at(children_of(words(pointer_of(schema, b"arrow_schema"),
                                                          SCHEMA)[4:6])),
                             [(b"tsu:UTC", b"timestamp", 2), (b"i", b"offset_seconds", 2)])
            taken = []
            for row, form in enumerate((b"tsu:UTC", b"i")):
                it = words(read.children[row], ARRAY)
                self.assertEqual((it[:5], bool(it[-2])), ((len(values), 0, 0, 2, 0), True))
                if row in moved:
                    taken.append(ChildConsumer(form, read.children[row]))
                    self.assertEqual(taken[-1].values(), [it[row] for it in numbers])
            del typed, schema
            read.release()
            _capsules.release_unused()
            gc.collect()
            # A child that was moved outlives its parent.
            self.assertEqual(freed, [] if moved else [()])
            for row, it in zip(moved, taken):
                self.assertEqual(it.values(), [it[row] for it in numbers])
                it.release()
            gc.collect()
            self.assertEqual(freed, [moved])
            self.assert_all_released()
        read = TypedConsumer(Column.of([]).extract(["a"], ["timestamp_tz"])[0])
        self.assertEqual((read.length, len(read.children)), (0, 2))
        read.release()
        self.assert_all_released()

    def test_the_parts_of_a_schema_that_are_moved(self):
        typed, = Column.of([]).extract(["a"], ["timestamp_tz"])
        schema = typed.__arrow_c_schema__()
        address = children_of(words(pointer_of(schema, b"arrow_schema"), SCHEMA)[4:6])[1]
        taken = ctypes.create_string_buffer(ctypes.string_at(address, SCHEMA.size))
        ctypes.memset(address + SCHEMA_RELEASE_AT, 0, 8)
        del schema
        _capsules.release_unused()
        self.assertEqual(len(_capsules._exported), len(self.before) + 1)
        at = ctypes.addressof(taken)
        self.assertEqual(schemas_at([at]), [(b"i", b"offset_seconds", 2)])
        RELEASE(words(at, SCHEMA)[-2])(at)
        self.assert_all_released()

    def test_columns_without_nulls_need_no_bits(self):
        for member, name in (("5", "int64"), ("true", "boolean"), ('"a"', "text")):
            read = TypedConsumer(Column.of([row_of(member)] * 9).extract(["a"], [name])[0])
            self.assertEqual((read.null_count, read.buffers[0]), (0, 0))
            read.release()

    def test_the_values_are_not_copied(self):
        column = Column.of(map(row_of, ["5", "7", '"a"']))
        for name in ("int64", "uint64", "decimal 3"):
            typed, = column.extract(["a"], [name])
            one, other = TypedConsumer(typed), TypedConsumer(typed)
            self.assertEqual(one.buffers[1], other.buffers[1])
            self.assertEqual(one.buffers[1], typed.values.obj.buffer_info()[0])
            one.release()
            self.assertEqual(len(other.values()), 3)
            other.release()
        self.assert_all_released()

    def test_memory_is_freed_once_when_it_is_released(self):
        for name in ("int64", "decimal 1", "boolean", "text", "mixed"):
            freed = []
            typed, = Column.of(map(row_of, ["5", None, '"a"', "true"] * 3000)).extract(
                ["a"], [name])
            weakref.finalize(typed, freed.append, name)
            values, read = typed.to_list(), TypedConsumer(typed)
            del typed
            gc.collect()
            _capsules.release_unused()
            self.assertEqual((freed, list(map(str, read.values()))), ([], list(map(str, values))))
            exported = len(_capsules._exported)
            read.release()
            gc.collect()
            # The struct is marked, so that no consumer releases it again.
            self.assertEqual(read.taken.raw[RELEASE_AT:RELEASE_AT + 8], bytes(8))
            self.assertEqual((freed, len(_capsules._exported)), ([name], exported - 1))
        self.assert_all_released()

    def test_capsules_that_nobody_takes(self):
        freed = []
        typed, = Column.of(map(row_of, ["5"] * 10)).extract(["a"], ["int64"])
        weakref.finalize(typed, freed.append, "freed")
        kept = [typed.__arrow_c_array__() for _ in range(3)] + [(typed.__arrow_c_schema__(),)]
        del typed
        _capsules.release_unused()
        self.assertEqual(freed, [])
        kept.clear()
        _capsules.release_unused()
        gc.collect()
        self.assertEqual(freed, ["freed"])
        self.assert_all_released()

    def test_streams(self):
        members = ["5", None, "true", '"a"', "1.5"] * 1000
        for name in ("int64", "decimal 1", "boolean", "text", "mixed"):
            freed = []
            typed, = Column.of(map(row_of, members)).extract(["a"], [name])
            weakref.finalize(typed, freed.append, name)
            values, stream = typed.to_list(), Streamed(typed)
            del typed
            source = stream.next()
            read = TypedConsumer(source)
            schema = source.capsules[0]
            self.assertEqual((read.values(), stream.next(), stream.next()), (values, None, None))
            stream.release()
            self.assertEqual(stream.taken.raw[24:32], bytes(8))
            # The array outlives the stream.
            gc.collect()
            _capsules.release_unused()
            self.assertEqual((freed, read.values()), ([], values))
            read.release()
            address = pointer_of(schema, b"arrow_schema")
            RELEASE(words(address, SCHEMA)[-2])(address)
            gc.collect()
            self.assertEqual(freed, [name])
        self.assert_all_released()

    def test_streams_that_nobody_reads(self):
        freed = []
        typed, = Column.of(map(row_of, ["5"])).extract(["a"], ["int64"])
        weakref.finalize(typed, freed.append, "freed")
        Streamed(typed).release()
        typed.__arrow_c_stream__()
        del typed
        for _ in range(2):
            # The array of a stream is released after the stream.
            _capsules.release_unused()
        gc.collect()
        self.assertEqual(freed, ["freed"])
        self.assert_all_released()

    def test_a_stream_that_fails_says_so(self):
        typed, = Column.of(map(row_of, ["5"])).extract(["a"], ["int64"])

        class Failing:
            __arrow_c_array__ = typed.__arrow_c_array__

            def __arrow_c_stream__(self):
                return _capsules.stream_capsule(self)

            def __arrow_c_schema__(self):
                raise MemoryError

        stream = Streamed(Failing())
        with self.assertRaisesRegex(AssertionError, f"^{errno.ENOMEM}$"):
            stream.ask(stream.get_schema, SCHEMA)
        no_words = ctypes.CFUNCTYPE(ctypes.c_void_p, ctypes.c_void_p)(stream.get_last_error)
        self.assertIsNone(no_words(ctypes.addressof(stream.taken)))
        stream.release()
        self.assert_all_released()

    def test_decimals_past_the_digits_of_arrow(self):
        for number, fits_arrow in ((10**38 - 1, True), (10**38, False), (1 - 10**38, True),
                                   (-10**38, False), (2**127 - 1, False), (-2**127, False)):
            typed, = Column.of(map(row_of, ["1", str(number)])).extract(["a"], ["decimal 0"])
            if fits_arrow:
                read = TypedConsumer(typed)
                self.assertEqual(read.values(), [1, number])
                read.release()
            else:
                for call in (typed.__arrow_c_array__, typed.__arrow_c_stream__):
                    with self.assertRaisesRegex(ValueError, f"^row 1: .* {number}$"):
                        call()
        self.assert_all_released()


class Arrays:
    """What a column without values takes of numpy, as lists."""
    @staticmethod
    def zeros(length, dtype):
        return [0] * length

    @staticmethod
    def asarray(given):
        return Flags(given)

    class ma:
        @staticmethod
        def MaskedArray(values, mask):
            assert len(values) == len(mask)
            return [None if is_masked else value for value, is_masked in zip(values, mask)]


class Flags(list):
    def __ne__(self, other):
        return [it != other for it in self]


class WithoutValuesTest(unittest.TestCase):
    def test_arrays_are_as_long_as_the_column(self):
        for module in ([sys.modules["numpy"]] if "numpy" in sys.modules else []) + [Arrays]:
            with mock.patch.dict(sys.modules, numpy=module):
                for members, name in ((["5", '"a"', "null", None], "mixed"),
                                      (["null", None, "null"], "nothing"), ([], "nothing")):
                    typed, = Column.of(map(row_of, members)).extract(["a"])
                    self.assertEqual(typed.type, name)
                    self.assertEqual(list(typed.numpy), [0] * len(members))
                    masked = typed.masked
                    self.assertEqual(masked if module is Arrays else masked.tolist(),
                                     [None] * len(members))


@unittest.skipUnless(HAS_NUMPY, "typed members as arrays: needs the Debian package python3-numpy")
class NumpyTest(unittest.TestCase):
    def setUp(self):
        import numpy
        self.numpy = numpy

    def test_columns_without_values(self):
        for members in (["5", '"a"', None], ["null", None]):
            typed, = Column.of(map(row_of, members)).extract(["a"])
            self.assertEqual(typed.numpy.tolist(), [0] * len(members))
            self.assertEqual(typed.masked.tolist(), [None] * len(members))

    def test_the_values_are_not_copied(self):
        column = Column.of(map(row_of, ["5", "-1", "null", None, "true", "1.5"]))
        for name, form, values in (
                ("int64", "int64", [5, -1, 0, 0, 0, 0]), ("uint64", "uint64", [5, 0, 0, 0, 0, 0]),
                ("boolean", "bool", [False] * 4 + [True, False]),
                ("decimal 1", "int64", [50, -10, 0, 0, 0, 15])):
            typed, = column.extract(["a"], [name])
            found = typed.numpy
            self.assertEqual((found.dtype.name, found.tolist()), (form, values))
            self.assertEqual((found.flags.writeable, found.flags.owndata), (False, False))
            at = self.numpy.asarray(typed.values).__array_interface__["data"][0]
            self.assertEqual(found.__array_interface__["data"][0], at)
            self.assertEqual(typed.masked.tolist(), [
                None if it is None else value for it, value in zip(typed.to_list(), values)])
            self.assertEqual(self.numpy.asarray(typed.states).tolist(), list(typed.states))

    def test_dates_and_timestamps(self):
        days = [date(1, 1, 1), date(2026, 11, 28), date(9999, 12, 31)]
        moments = [datetime(1, 1, 1), datetime(2026, 11, 28, 12, 30, 15, 123456), datetime.max]
        for name, form, values in (("date", "datetime64[D]", days),
                                   ("timestamp", "datetime64[us]", moments)):
            column = Column.of(Document.of({"a": it}) for it in (*values, None, 5))
            typed, = column.extract(["a"], [name])
            found = typed.numpy
            first = type(values[0])(1970, 1, 1)
            self.assertEqual((found.dtype.name, found.tolist()), (form, values + [first] * 2))
            self.assertEqual(typed.masked.tolist(), values + [None] * 2)
            self.assertEqual(str(found.max()), values[2].isoformat())
            at = self.numpy.asarray(typed.values).__array_interface__["data"][0]
            self.assertEqual(found.__array_interface__["data"][0] == at, name == "timestamp")
        for name in ("date", "timestamp"):
            empty, = Column.of([]).extract(["a"], [name])
            self.assertEqual((empty.numpy.tolist(), empty.masked.tolist()), ([], []))
        least, = Column.of([Document.of({"a": Timestamp(-2**63)})]).extract(["a"])
        self.assertTrue(self.numpy.isnat(least.numpy[0]))

    def test_structs(self):
        moments = MOMENTS["timestamp_tz"]
        utc = [(it.astimezone(timezone.utc).replace(tzinfo=None), it.utcoffset().total_seconds())
               for it in moments[:2]]
        spans = list(map(tuple, MOMENTS["interval"]))
        for name, some, values, dtype in (
                ("timestamp_tz", moments[:2], utc, [("timestamp", "<M8[us]", 0),
                                                    ("offset_seconds", "<i4", 8)]),
                ("interval", MOMENTS["interval"], spans, [
                    ("months", "<i4", 0), ("days", "<i4", 4), ("micros", "<i8", 8)])):
            column = Column.of(Document.of({"a": it}) for it in (*some, None, 5))
            typed, = column.extract(["a"], [name])
            found = typed.numpy
            self.assertEqual((found.dtype.itemsize, [
                (field, found.dtype[field].str, found.dtype.fields[field][1])
                for field in found.dtype.names]), (16, dtype))
            self.assertEqual(found[:-2].tolist(), values)
            at = self.numpy.asarray(typed.values).__array_interface__["data"][0]
            self.assertEqual(found.__array_interface__["data"][0], at)
            self.assertFalse(found.flags.writeable)
            first = dtype[0][0]
            self.assertEqual(typed.masked[first].tolist(), [it[0] for it in values] + [None] * 2)
            empty, = Column.of([]).extract(["a"], [name])
            self.assertEqual((empty.numpy.tolist(), empty.masked.tolist()), ([], []))

    def test_what_is_copied(self):
        column = Column.of(map(row_of, [str(2**64), "-1", "null", '"a"', str(-2**127)]))
        decimals, texts = column.extract(["a", "a"], ["decimal 0", "text"])
        self.assertEqual((decimals.numpy.dtype.name, decimals.numpy.tolist()),
                         ("object", [2**64, -1, 0, 0, -2**127]))
        self.assertEqual(decimals.masked.tolist(), [2**64, -1, None, None, -2**127])
        self.assertEqual(texts.numpy.tolist(), [None, None, None, "a", None])
        column = Column.of(Document.of({"a": it}) for it in (b"\0", b"", 5))
        self.assertEqual(column.extract(["a"], ["binary"])[0].numpy.tolist(), [b"\0", b"", None])

    def test_sums(self):
        rng = random.Random(4)
        prices = [rng.randrange(10**6) for _ in range(5000)]
        column = Column.of(row_of(f"{it // 100}.{it % 100:02}") for it in prices)
        typed, = column.extract(["a"], ["decimal 2"])
        self.assertEqual(int(typed.numpy.sum()), sum(prices))
        for empty in (Column.of([]).extract(["a"] * 4, ["int64", "decimal 1", "boolean", "text"])):
            self.assertEqual((empty.numpy.tolist(), empty.masked.tolist()), ([], []))

    @unittest.skipUnless(find_spec("pandas"), "needs the Debian package python3-pandas")
    def test_pandas(self):
        import pandas
        column = Column.of(map(row_of, ["5", None, "7", "null", '"a"']))
        typed, = column.extract(["a"], ["int64"])
        series = pandas.Series(pandas.arrays.IntegerArray(typed.numpy, typed.masked.mask))
        self.assertEqual((int(series.sum()), series.isna().tolist(), str(series.dtype)),
                         (12, [False, True, False, True, True], "Int64"))


if __name__ == "__main__":
    unittest.main()
