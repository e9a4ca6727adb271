"""Values of subclasses, which answer each call otherwise: the base type says what a value is."""
import unittest
from datetime import date, datetime, timedelta, timezone
from decimal import Decimal
from enum import Enum, IntEnum

import kohiblad
from kohiblad import (Document, ExtensionError, Interval, InvalidDocumentError, InvalidTextError,
                      NumberError, Opaque, TooDeepError, TooManyStepsError)
from kohiblad import _library as library

# What would be JSON of another value.
OTHER_TEXT = '}],{"admin":1'
_ANSWERS = {"__hash__": 7, "__eq__": True, "__ne__": False, "__lt__": True, "__le__": True,
            "__gt__": True, "__ge__": True, "__len__": 3, "__bool__": False, "__index__": 5,
            "__int__": 5, "encode": b'"x', "is_finite": True, "toordinal": 9, "utcoffset": None,
            "bit_length": 1, "__iter__": iter(()), "as_tuple": Decimal("9").as_tuple()}
_KEPT = {"__new__", "__init__", "__class__", "__init_subclass__", "__subclasshook__", "__doc__",
         "__dict__", "__weakref__", "__module__", "__buffer__", "__release_buffer__"}


def hostile(base):
    """A subclass whose methods and attributes all answer for another value."""
    def answering(name):
        answer = _ANSWERS.get(name, OTHER_TEXT)
        return lambda *arguments, **named: answer

    members = {it: answering(it) for it in dir(base) if it not in _KEPT}
    members.update({it: property(answering(it)) for it in dir(base)
                    if it not in _KEPT and not callable(getattr(base, it))})
    return type("Hostile" + base.__name__, (base,), members)


HostileInt, HostileStr, HostileDecimal, HostileBytes, HostileDate = map(
    hostile, (int, str, Decimal, bytes, date))
HostileDatetime = hostile(datetime)
ZONE = timezone(timedelta(hours=-3, minutes=-30))


def hostile_moment(*fields, **named):
    return datetime.__new__(HostileDatetime, *fields, **named)


PAIRS = [(HostileInt(it), it) for it in (0, -5, 25, 2**63, -2**127, 2**127 - 1)]
PAIRS += [(HostileDecimal(it), Decimal(it)) for it in (
    "1.50", "2", "-0.001", "0.00", "1E+3", "1E-7", "-0", "1E-255", "0E+999999", "123456789" * 4)]
PAIRS += [(HostileStr(it), it) for it in ("", "a", 'a"b\\\n', "é", "\U0001f600", "x" * 3000)]
PAIRS += [(HostileBytes(it), it) for it in (b"", b"\0\xff")]
PAIRS += [(HostileDate(*it), date(*it)) for it in ((1970, 1, 1), (1, 1, 1), (2026, 11, 25))]
PAIRS += [(hostile_moment(*it), datetime(*it)) for it in (
    (1970, 1, 1), (1, 1, 1), (2026, 11, 25, 14, 30, 15, 123456))]
PAIRS += [(hostile_moment(2026, 11, 25, 14, 30, tzinfo=it), datetime(2026, 11, 25, 14, 30,
                                                                     tzinfo=it))
          for it in (timezone.utc, ZONE)]


class SubclassTest(unittest.TestCase):
    def test_a_value_is_that_of_its_base(self):
        for number, (value, plain) in enumerate(PAIRS):
            with self.subTest(number=number):
                self.assertIsNot(type(value), type(plain))
                for wrap in (lambda it: it, lambda it: [1, it, 2], lambda it: {"a": it},
                             lambda it: [[it], b"bytes"], lambda it: {"a": [it, b"bytes"]}):
                    expected = Document.of(wrap(plain))
                    self.assertEqual(bytes(Document.of(wrap(value))), bytes(expected))
                    self.assertEqual(kohiblad.dumps(wrap(value)), str(expected))
                row = Document.of({"a": 0})
                self.assertEqual(bytes(row.set("a", value)), bytes(row.set("a", plain)))
                self.assertTrue(Document.of({"b": plain}).contains({"b": value}))

    def test_names_texts_and_paths(self):
        for beside in (1, b"bytes"):
            document = Document.of({HostileStr("name"): beside, "other": 2})
            self.assertEqual(bytes(document), bytes(Document.of({"name": beside, "other": 2})))
        row = Document.of({"name": [1, 2], "x": 3})
        name, first = HostileStr("name"), HostileInt(0)
        self.assertEqual(row.has_key(name), True)
        self.assertEqual(list(row[name]), [1, 2])
        self.assertIn(name, row)
        self.assertEqual((row.get_path(name, first), row[name][first]), (1, 1))
        self.assertEqual(str(row.set([name, first], 7)), '{"name":[7,2],"x":3}')
        self.assertEqual(str(row.without(name, HostileStr("none"))), '{"x":3}')
        self.assertEqual(str(row.pick(HostileStr("x"))), '{"x":3}')
        self.assertEqual(kohiblad.loads(HostileStr("[1.50]")), [Decimal("1.50")])
        self.assertEqual(kohiblad.loads(HostileBytes(b"[1]")), [1])
        self.assertEqual(row.select(HostileStr("$.name[1]")), [2])
        self.assertEqual(Document(HostileBytes(bytes(row))), row)

    def test_what_is_refused(self):
        for value in (HostileDecimal("NaN"), HostileDecimal("Infinity"), HostileDecimal("1E-256"),
                      HostileDecimal("1E+99"), HostileInt(2**127), HostileInt(-2**127 - 1),
                      HostileDecimal("1E+999999999")):
            for whole in (value, [value], {"a": value}):
                with self.assertRaises(NumberError):
                    Document.of(whole)
        with self.assertRaises(InvalidTextError):
            Document.of(HostileStr("\ud800"))
        for value in (Interval(HostileInt(2**40), 0, 0), Opaque(HostileInt(2**40), b"")):
            with self.assertRaises(ExtensionError):
                Document.of(value)
        strange = hostile_moment(2026, 1, 1, tzinfo=timezone(timedelta(microseconds=1)))
        with self.assertRaises(ValueError):
            Document.of(strange)

    def test_limits(self):
        with self.assertRaises(TooDeepError):
            Document.parse("[[1]]", HostileInt(1))
        for depth in (HostileInt(1001), HostileInt(-1)):
            with self.assertRaises(ValueError):
                Document.parse("1", depth)
        for depth in (HostileInt(1), True):
            with self.assertRaisesRegex(InvalidDocumentError, "no document of depth 1 or less$"):
                Document(b"", depth)
        with self.assertRaises(TooManyStepsError):
            Document.of([[1], [2]]).contains([[2]], steps=HostileInt(0))

    def test_lengths_are_those_of_the_base(self):
        class Text(str):
            def __len__(self):
                raise KeyError("length")

        class Data(bytes):
            def __len__(self):
                return -1

        long = '"' + "x" * library._LONG_BYTES + '"'
        for text in ("[1]", long):
            document = Document.parse(text)
            for read in (Document.parse, kohiblad.loads):
                self.assertEqual(read(Text(text)), read(text))
                self.assertEqual(read(Data(text.encode())), read(text))
            self.assertEqual(Document(Data(bytes(document))), document)
        for given in (Text(long), HostileStr(long), Data(long.encode())):
            self.assertTrue(library.is_long(given))

    def test_subclasses_that_mean_well(self):
        class Money(Decimal):
            def __str__(self):
                return f"${Decimal.__str__(self)}"

        class Color(IntEnum):
            RED = 3

        class Word(str, Enum):
            YES = "yes"

            def __str__(self):
                return "Word.YES"

        self.assertEqual(kohiblad.dumps([Money("1.50"), Color.RED, {Word.YES: Word.YES}]),
                         '[1.50,3,{"yes":"yes"}]')


if __name__ == "__main__":
    unittest.main()
