"""loads, dumps, Document.of and value() beside json, and each Python type that is taken."""
import json
import unittest
from collections import OrderedDict
from datetime import date, datetime, timedelta, timezone
from decimal import Decimal
from enum import IntEnum
from types import MappingProxyType

import kohiblad
from kohiblad import Date, Document, Interval, Opaque, Timestamp, TimestampTz
from models import Values


def typed(value):
    """A value with its types and digits: 5 and Decimal("5.0") are equal, these are not."""
    if isinstance(value, list):
        return [typed(it) for it in value]
    if isinstance(value, dict):
        return {name: typed(it) for name, it in value.items()}
    return type(value), str(value)


def by_json(text):
    return json.loads(text, parse_float=Decimal)


def json_text(value):
    """The JSON text of a value, with its keys sorted: json writes no Decimal."""
    if isinstance(value, Decimal):
        return format(value, "f")
    if isinstance(value, list):
        return "[" + ",".join(map(json_text, value)) + "]"
    if isinstance(value, dict):
        names = sorted(value, key=str.encode)
        return "{" + ",".join(f"{json_text(it)}:{json_text(value[it])}" for it in names) + "}"
    return json.dumps(value, ensure_ascii=False)


class TextTest(unittest.TestCase):
    def test_random_texts_read_as_json_reads_them(self):
        values = Values(seed=1)
        for _ in range(2000):
            value = values.plain(depth=4)
            text = json_text(value)
            self.assertEqual(typed(kohiblad.loads(text)), typed(by_json(text)))
            self.assertEqual(typed(kohiblad.loads(text)), typed(value))
            spaced = json.dumps(json.loads(text, parse_float=str), indent=1)
            self.assertEqual(kohiblad.loads(spaced), json.loads(spaced))

    def test_random_values_write_as_json_writes_them(self):
        values = Values(seed=2)
        for _ in range(2000):
            value = values.plain(depth=4)
            self.assertEqual(kohiblad.dumps(value), json_text(value))

    def test_members_are_sorted_and_the_last_of_a_key_stays(self):
        value = kohiblad.loads('{"b": 1, "a": 2, "b": 3}')
        self.assertEqual(list(value.items()), [("a", 2), ("b", 3)])

    def test_bytes_are_utf8(self):
        self.assertEqual(kohiblad.loads('"é"'.encode()), "é")

    def test_negative_zero_loses_its_sign(self):
        self.assertEqual(typed(kohiblad.loads("[-0,-0.0]")), typed([0, Decimal("0.0")]))
        self.assertEqual(kohiblad.dumps(Decimal("-0.00")), "0.00")

    def test_large_texts_read_as_json_reads_them(self):
        text = json.dumps([{"n": index, "`": [index] * (index % 7)} for index in range(5000)])
        self.assertEqual(kohiblad.loads(text), json.loads(text))


class TypeTest(unittest.TestCase):
    def assert_kept(self, value):
        for whole in (value, [value, {"a": value}]):
            document = Document.of(whole)
            self.assertEqual(typed(document.value()), typed(whole))
            self.assertEqual(bytes(Document(bytes(document))), bytes(document))

    def test_random_values_are_kept(self):
        values = Values(seed=3)
        for _ in range(2000):
            self.assert_kept(values.any(depth=3))

    def test_each_type_is_kept(self):
        zone = timezone(timedelta(hours=-3, minutes=-30))
        for value in (None, True, False, 0, -1, 2**64 - 1, -2**127, 2**127 - 1, Decimal("1.50"),
                      Decimal("-0.001"), Decimal("1E-255"), "", "\0\"\\é\U0001f600", b"", b"\0\xff",
                      date.min, date.max, date(1969, 12, 31), datetime.min, datetime.max,
                      datetime(2026, 11, 25, 14, 30, 0, 1),
                      datetime(2026, 11, 25, 14, 30, tzinfo=timezone.utc),
                      datetime(2026, 11, 25, 14, 30, tzinfo=zone),
                      datetime.min.replace(tzinfo=zone), datetime.max.replace(tzinfo=zone),
                      Date(-2**31), Date(2**31 - 1), Timestamp(2**63 - 1),
                      TimestampTz(-2**63, 3600), TimestampTz(0, 86400), TimestampTz(0, -2**31),
                      Interval(-2**31, 2**31 - 1, -2**63), Opaque(0x50, b""),
                      Opaque(0xF0, b"\x01`"), [], {}, {"": None}):
            with self.subTest(value=value):
                self.assert_kept(value)

    def test_extension_values_in_large_documents(self):
        for size in (0, 0x60, 1 << 16, 0x60 << 16, 1 << 24):
            self.assert_kept([b"\x01" * size, Interval(1, 2, 3), "a" * size])

    def test_stored_units(self):
        """The bytes that docs/FORMAT.md gives for extension values."""
        one_hour_east = timezone(timedelta(hours=1))
        for value, payload in (
                (b"\x01", "0001"), (date(1970, 1, 2), "1000000001"),
                (datetime(1970, 1, 1, 0, 0, 1), "2000000000000f4240"),
                (datetime(1970, 1, 1, 1, tzinfo=one_hour_east), "30000000000000000000000e10"),
                (Interval(1, -1, 2), "4000000001ffffffff0000000000000002"),
                (Opaque(0x60, b"a"), "6061")):
            data = bytes.fromhex(payload)
            entry = (0x60000000 | len(data)).to_bytes(4, "big")
            self.assertEqual(bytes(Document.of(value)), b"\x20\0\0\0" + entry + data)

    def test_subclasses_and_other_containers(self):
        class Size(IntEnum):
            LARGE = 3

        class Name(str):
            pass

        value = OrderedDict([("b", (Size.LARGE, Name("x"))), (Name("a"), MappingProxyType({}))])
        self.assertEqual(kohiblad.dumps(value), '{"a":{},"b":[3,"x"]}')
        self.assertEqual(kohiblad.dumps([bytearray(b"a"), memoryview(b"b")]), '["61","62"]')

    def test_documents_inside_values(self):
        inner = Document.parse('{"n": 1.50}')
        self.assertEqual(kohiblad.dumps([inner, {"a": inner["n"]}, Document.of(None)]),
                         '[{"n":1.50},{"a":1.50},null]')

    def test_decimals_with_an_exponent_are_written_out(self):
        for text, written in (("1E+3", "1000"), ("1.5E+1", "15"), ("25E-4", "0.0025"),
                              ("0E+9", "0"), ("1E+38", "1" + "0" * 38), ("0E-9", "0.000000000"),
                              ("-1E-255", "-0." + "0" * 254 + "1")):
            self.assertEqual(kohiblad.dumps(Decimal(text)), written)


if __name__ == "__main__":
    unittest.main()
