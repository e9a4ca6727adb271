"""Zone maps of typed columns: `Typed.zones`, beside what Python finds in the values."""
import random
import unittest
from datetime import date, datetime, timedelta, timezone
from decimal import Decimal

from kohiblad import Date, Document, Timestamp
from kohiblad.arrow import Column, Zones
from test_typed import MOMENTS, NUMBERS, OTHERS, numbers_of, row_of

NUMBER_TYPES = ["int64", "uint64", "decimal 0", "decimal 2", "decimal 38"]


def blocks_of(values, block_rows):
    """The values of each block."""
    return [[it for it in values[start:start + block_rows] if it is not None]
            for start in range(0, len(values), block_rows)]


def itself(value):
    return value


class ZonesTest(unittest.TestCase):
    def assert_zones(self, typed, block_rows, number=itself):
        """The zones are those of the values, which are ordered by a number of each."""
        zones = typed.zones(block_rows)
        blocks = blocks_of(typed.to_list(), block_rows)
        self.assertEqual(len(zones), len(blocks))
        self.assertEqual(zones.has_value, list(map(bool, blocks)))
        self.assertEqual(zones.least, [min(it, key=number, default=None) for it in blocks])
        self.assertEqual(zones.greatest, [max(it, key=number, default=None) for it in blocks])
        self.assertEqual([row for block in range(len(zones)) for row in zones.rows(block)],
                         list(range(len(typed))))
        values = [None, *filter(lambda it: it is not None, typed.to_list())]
        for _ in range(9):
            low, high = random.choice(values), random.choice(values)
            self.assert_ranges(zones, blocks, low, high, number)

    def assert_ranges(self, zones, blocks, low, high, number):
        def is_below(value):
            return low is not None and number(value) < number(low)

        def is_above(value):
            return high is not None and number(value) > number(high)

        self.assertEqual(zones.may_hold(low, high),
                         [not all(map(is_below, it)) and not all(map(is_above, it))
                          for it in blocks])
        self.assertEqual(zones.all_within(low, high),
                         [bool(it) and not any(map(is_below, it)) and not any(map(is_above, it))
                          for it in blocks])

    def test_numbers(self):
        for name in NUMBER_TYPES:
            members = (NUMBERS + OTHERS) * 4
            random.shuffle(members)
            typed, = Column.of(map(row_of, members)).extract(["a"], [name])
            for block_rows in (1, 2, 3, 7, len(members) - 1, len(members), 4096, 2**70):
                with self.subTest(type=name, block_rows=block_rows):
                    self.assert_zones(typed, block_rows)

    def test_dates_and_timestamps(self):
        for name in ("date", "timestamp"):
            rows = [{"a": it} for it in MOMENTS[name]] + [{"a": None}, {}, {"a": 1}]
            random.shuffle(rows)
            typed, = Column.of(map(Document.of, rows)).extract(["a"], [name])
            for block_rows in (1, 2, 3, 100):
                with self.subTest(type=name, block_rows=block_rows):
                    self.assert_zones(typed, block_rows, numbers_of)

    def test_many_rows(self):
        members = [str(random.randrange(-999, 999)) for _ in range(10_000)]
        typed, = Column.of(map(row_of, members)).extract(["a"], ["int64"])
        zones = typed.zones()
        self.assertEqual(zones.block_rows, 4096)
        self.assertEqual([len(zones.rows(block)) for block in range(3)], [4096, 4096, 1808])
        self.assertEqual(repr(zones), "<Zones, 3 blocks of 4,096 rows>")
        self.assert_zones(typed, 4096)
        self.assert_zones(typed, 100)

    def test_limits_between_values(self):
        members = ["1.50", "2.25"]
        typed, = Column.of(map(row_of, members)).extract(["a"], ["decimal 2"])
        zones = typed.zones(2)
        for low, high, may_hold, all_within in [
                (2, 3, True, False), (Decimal("2.251"), None, False, False),
                (None, Decimal("1.4999"), False, False), (1, Decimal("2.25"), True, True),
                (10**60, None, False, False), (None, None, True, True), (3, 1, False, False)]:
            with self.subTest(low=low, high=high):
                self.assertEqual(zones.may_hold(low, high), [may_hold])
                self.assertEqual(zones.all_within(low, high), [all_within])

    def test_rows_without_values(self):
        typed, = Column.of([]).extract(["a"], ["int64"])
        self.assertEqual((len(typed.zones()), typed.zones().least), (0, []))
        typed, = Column.of(map(row_of, ["null", '"x"', None])).extract(["a"], ["uint64"])
        zones = typed.zones(2)
        self.assertEqual((zones.least, zones.greatest), ([None, None], [None, None]))
        self.assertEqual(zones.may_hold(), [False, False])
        self.assertEqual(zones.all_within(), [False, False])
        self.assertEqual(zones.rows(-1), range(2, 3))
        with self.assertRaises(IndexError):
            zones.rows(2)

    def test_what_has_no_zones(self):
        column = Column.of(map(row_of, ["1"]))
        for name in ("boolean", "text", "timestamp_tz", "interval", "binary", "nothing", "mixed"):
            typed, = column.extract(["a"], [name])
            with self.assertRaisesRegex(TypeError, f"type {name} has no zones"):
                typed.zones()
        typed, = column.extract(["a"], ["int64"])
        for block_rows in (0, -1):
            with self.assertRaises(ValueError):
                typed.zones(block_rows)
        with self.assertRaises(TypeError):
            typed.zones(1.5)
        with self.assertRaises(TypeError):
            Zones()

    def test_limits_of_another_type(self):
        rows = [{"a": date(2026, 1, 2), "b": datetime(2026, 1, 2), "c": 1}]
        dates, moments, numbers = Column.of(map(Document.of, rows)).extract(
            ["a", "b", "c"], ["date", "timestamp", "int64"])
        for typed, limit in [(dates, datetime(2026, 1, 2)), (dates, 3), (moments, date(2026, 1, 2)),
                             (moments, datetime(2026, 1, 2, tzinfo=timezone.utc)), (numbers, "1")]:
            zones = typed.zones()
            with self.subTest(limit=limit):
                with self.assertRaises(TypeError):
                    zones.may_hold(limit)
                with self.assertRaises(TypeError):
                    zones.all_within(None, limit)
        self.assertEqual(dates.zones().may_hold(Date(2**31 - 1)), [False])
        self.assertEqual(moments.zones().may_hold(None, Timestamp(0)), [False])
        micro = timedelta(microseconds=1)
        self.assertEqual(moments.zones().may_hold(datetime(2026, 1, 2) + micro), [False])


if __name__ == "__main__":
    unittest.main()
