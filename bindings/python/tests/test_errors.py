"""Input that is refused, by name and with nothing lost."""
import pickle
import random
import subprocess
import sys
import unittest
from datetime import datetime, timedelta, timezone
from decimal import Decimal

import kohiblad
from kohiblad import (DEPTH, Date, Document, ExtensionError, FloatError, Interval,
                      InvalidDocumentError, InvalidTextError, KohibladError, NumberError, Opaque,
                      Timestamp, TooDeepError)
from models import Values


class ErrorTest(unittest.TestCase):
    def assert_refused(self, error, status, name, call, *arguments):
        with self.assertRaises(error) as refused:
            call(*arguments)
        self.assertIsInstance(refused.exception, ValueError)
        self.assertIsInstance(refused.exception, KohibladError)
        self.assertEqual((refused.exception.status, refused.exception.name), (status, name))
        self.assertTrue(str(refused.exception).startswith(name))

    def assert_fault(self, status, name, offset, text):
        with self.subTest(text=text):
            self.assert_refused(InvalidTextError, status, name, kohiblad.loads, text)
            with self.assertRaises(InvalidTextError) as refused:
                Document.parse(text)
            self.assertEqual(refused.exception.offset, offset)
            self.assertRegex(str(refused.exception), f"^{name}: .*at byte {offset}\\b")

    def test_texts(self):
        for text, offset in (("", 0), (" ", 1), ("[1,", 3), ("[1]]", 3), ("nul", 3), ("01", 1),
                             ("NaN", 0), ("Infinity", 0), ('"\\ud800"', 7),
                             ("\ufeff1", 0), ("'a'", 0), ('{"a":1,}', 7), ('{1:2}', 1), ("\0", 0),
                             ('["\u00e9" 1]', 6), ("[1e5,]", 5)):
            self.assert_fault(9, "InvalidJson", offset, text)
        for text, offset in (("1e99", 3), ("1E-999", 5), (str(2**127), 38), (str(-2**127 - 1), 39),
                             ("0." + "0" * 256, 258), ('{"a": [1, 2.5e-999]}', 17),
                             ("[1.]", 3), ("1e", 2), ("-", 1), ("[1e99,]", 4)):
            self.assert_fault(17, "BadNumber", offset, text)
        for text, offset in ((b'"\xff"', 1), (b"\xc3", 0), ('"\u00e9\udc00"', 3)):
            self.assert_refused(InvalidTextError, 7, "InvalidUtf8", kohiblad.loads, text)
            with self.assertRaises(InvalidTextError) as refused:
                Document.parse(text)
            self.assertEqual(refused.exception.offset, offset)

    def test_texts_that_nest_too_deep(self):
        for text in ("[" * 100_000, "[" * 100_000 + "]" * 100_000, '{"a":' * 100_000,
                     "[" * (DEPTH + 1) + "]" * (DEPTH + 1)):
            self.assert_refused(TooDeepError, 13, "TooDeep", Document.parse, text)
        self.assert_refused(TooDeepError, 13, "TooDeep", Document.parse, "[[]]", 1)
        self.assertEqual(str(Document.parse("[[]]", 2)), "[[]]")

    def test_values_that_nest_too_deep(self):
        nested, around_bytes, endless = [], b"", {}
        for _ in range(100_000):
            nested, around_bytes = [nested], [around_bytes]
        endless["a"] = endless
        for value in (nested, around_bytes, endless):
            self.assert_refused(TooDeepError, 13, "TooDeep", Document.of, value)
        inner = Document.parse("[" * DEPTH + "]" * DEPTH)
        self.assertEqual(Document.of(inner), inner)
        self.assert_refused(TooDeepError, 13, "TooDeep", Document.of, [inner])

    def test_floats(self):
        for value in (1.5, 0.0, float("nan"), float("inf"), 1e300):
            for whole in (value, [value], {"a": [value]}):
                with self.assertRaisesRegex(FloatError, "Decimal") as refused:
                    kohiblad.dumps(whole)
                self.assertIsInstance(refused.exception, TypeError)

    def test_numbers(self):
        for value in (2**127, -2**127 - 1, 10**5000, Decimal("NaN"), Decimal("sNaN"),
                      Decimal("-Infinity"), Decimal("1E-256"), Decimal("0E-256"), Decimal("1E+39"),
                      Decimal("1E+999999"), Decimal(f"{2**127}E-3"), Decimal("2E+38"),
                      Decimal(f"{-2**127 - 1}E-255")):
            with self.subTest(value=str(value)[:50] if isinstance(value, Decimal) else "int"):
                self.assert_refused(NumberError, 5, "InvalidJsonbNumber", kohiblad.dumps, [value])

    def test_bytes(self):
        for data in (b"", b"\0", b"\x20\0\0\0", bytes.fromhex("2000000020000001ff"),
                     bytes.fromhex("2000000000000000ff"), bytes.fromhex("9fffffff")):
            self.assert_refused(InvalidDocumentError, 2, "InvalidJsonb", Document, data)

    def test_what_is_neither_text_nor_bytes(self):
        for read in (Document.parse, kohiblad.loads):
            for value in (None, 5, ["[]"]):
                with self.assertRaisesRegex(TypeError, "JSON text is a str or bytes, not "
                                                       + type(value).__name__):
                    read(value)
        for value in (None, 5, "[]"):
            with self.assertRaisesRegex(TypeError, "stored bytes.*, not " + type(value).__name__):
                Document(value)
        with self.assertRaisesRegex(TypeError, "data of an Opaque are bytes, not int"):
            Document.of(Opaque(0x60, 5))

    def test_damaged_bytes_are_refused_or_read(self):
        """A random byte changed, put in or left out: nothing but a named error is raised."""
        chance, values, read = random.Random(10), Values(seed=11), 0
        for _ in range(3000):
            data = bytearray(bytes(Document.of(values.any(depth=3))))
            place = chance.randrange(len(data))
            data[place:place + chance.randrange(2)] = bytes(
                [chance.randrange(256)] * chance.randrange(3))
            try:
                document = Document(data)
            except InvalidDocumentError:
                continue
            read += 1
            document.value(), document.key(), document.pretty(), document.canonical()
        self.assertGreater(read, 100)

    def test_types(self):
        for value in (object(), {1, 2}, 1j, [timedelta(1)], {"a": range(3)}):
            with self.assertRaises(TypeError):
                Document.of(value)
        for value in ({1: 2}, {None: 1}, {("a",): b""}):
            with self.assertRaisesRegex(TypeError, "is no str"):
                Document.of(value)

    def test_halves_of_surrogate_pairs(self):
        for value in ("\ud800", {"\udfff": 1}, {"\udfff": b""}, [b"", "\ud800"]):
            self.assert_refused(InvalidTextError, 7, "InvalidUtf8", Document.of, value)

    def test_extension_values(self):
        for value in (Date(2**31), Date(-2**31 - 1), Timestamp(2**63), Interval(2**31, 0, 0),
                      Interval(0, -2**40, 0), Interval(0, 0, 2**63), Opaque(0, b""),
                      Opaque(0x51, b""), Opaque(0x40, b""), Opaque(0x100, b""), Opaque(-1, b""),
                      Opaque(2**40, b"")):
            with self.subTest(value=value):
                self.assert_refused(ExtensionError, 6, "InvalidJsonbExtension", Document.of, value)
        zone = timezone(timedelta(microseconds=1))
        with self.assertRaisesRegex(ValueError, "whole number of seconds"):
            Document.of(datetime(2020, 1, 1, tzinfo=zone))

    def test_depths(self):
        for depth in (-1, DEPTH + 1, 2**64):
            with self.assertRaises(ValueError):
                Document.parse("[]", depth)
            with self.assertRaises(ValueError):
                Document(b"\x80\0\0\0", depth)

    def test_memory_that_is_refused(self):
        """The program may take as much memory as the room for the result, and not more."""
        program = (
            "import kohiblad, resource\n"
            "text = '[' + ','.join(['1234567'] * 2_000_000) + ']'\n"
            "text = text.encode()\n"
            "used = int(open('/proc/self/statm').read().split()[0]) * resource.getpagesize()\n"
            "most = used + 2 * len(text) + (1 << 20)\n"
            "resource.setrlimit(resource.RLIMIT_AS, (most, most))\n"
            "try:\n"
            "    kohiblad.Document.parse(text)\n"
            "except MemoryError as error:\n"
            "    print(type(error).__name__, error)\n")
        done = subprocess.run([sys.executable, "-c", program], stdout=subprocess.PIPE)
        self.assertEqual(done.stdout.decode(), "OutOfMemoryError OutOfMemory\n")
        self.assertEqual(done.returncode, 0)

    def test_errors_can_be_pickled(self):
        with self.assertRaises(TooDeepError) as refused:
            Document.parse("[[]]", 1)
        copy = pickle.loads(pickle.dumps(refused.exception))
        self.assertEqual((type(copy), copy.status, copy.offset, str(copy)),
                         (TooDeepError, 13, 1, str(refused.exception)))


if __name__ == "__main__":
    unittest.main()
