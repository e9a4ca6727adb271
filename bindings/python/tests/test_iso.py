"""Dates and timestamps as texts of RFC 3339, and the texts of values for people."""
import csv
import doctest
import io
import os
import random
import subprocess
import sys
import unittest
from datetime import date, datetime, timedelta, timezone

import kohiblad
from kohiblad import Date, Document, Interval, Timestamp, TimestampTz, UnfitError, _scalars
from kohiblad._iso import READERS
from kohiblad.arrow import Column
from kohiblad.typed_file import TypedFile

EPOCH = datetime(1970, 1, 1)
UTC = timezone.utc
EAST, WEST = timezone(timedelta(hours=5, minutes=45)), timezone(-timedelta(hours=3, minutes=30))
# By the type that reads them.
TEXTS = {
    "date": {"2026-11-29": date(2026, 11, 29), "1970-01-01": date(1970, 1, 1),
             "0001-01-01": date.min, "9999-12-31": date.max, "2024-02-29": date(2024, 2, 29),
             "0000-12-31": Date(-719163), "0000-02-29": Date(-719469)},
    "timestamp": {"2026-11-29T12:30:05": datetime(2026, 11, 29, 12, 30, 5),
                  "2026-11-29t12:30:05.5": datetime(2026, 11, 29, 12, 30, 5, 500_000),
                  "2026-11-29 23:59:59.999999": datetime(2026, 11, 29, 23, 59, 59, 999_999),
                  "1969-12-31T23:59:59.000001000": datetime(1969, 12, 31, 23, 59, 59, 1),
                  "0001-01-01T00:00:00": datetime.min, "9999-12-31T23:59:59.999999": datetime.max,
                  "0000-12-31T23:59:59": Timestamp(-62135596801 * 10**6)},
    "timestamp_tz": {
        "2026-11-29T12:30:05Z": datetime(2026, 11, 29, 12, 30, 5, 0, UTC),
        "2026-11-29t12:30:05z": datetime(2026, 11, 29, 12, 30, 5, 0, UTC),
        "2026-11-29T12:30:05.25+05:45": datetime(2026, 11, 29, 12, 30, 5, 250_000, EAST),
        "1985-04-12T23:20:50.52-03:30": datetime(1985, 4, 12, 23, 20, 50, 520_000, WEST),
        "1996-12-19T16:39:57-00:00": datetime(1996, 12, 19, 16, 39, 57, 0, UTC),
        "0001-01-01T00:00:00+05:45": datetime(1, 1, 1, tzinfo=EAST)},
}
# No value is exactly what these say, or they are no such text.
OTHERS = ["", "2026", "2026-11", "2026-11-31", "2025-02-29", "2026-13-01", "2026-00-10", "20261129",
          "2026-1-29", "+2026-11-29", "12026-11-29", " 2026-11-29", "2026-11-29 ", "2026-11-29\n",
          "2026/11/29", "29.11.2026", "2026-W48-7", "2026-333", "2026-11-29T", "2026-11-29T12",
          "2026-11-29T12:30", "2026-11-29T123005", "2026-11-29T24:00:00", "2026-11-29T23:59:60",
          "1990-12-31T23:59:60Z", "2026-11-29T12:60:00", "2026-11-29T12:30:05.",
          "2026-11-29T12:30:05,5", "2026-11-29T12:30:05.0000001", "2026-11-29T12:30:05.1234567Z",
          "2026-11-29T12:30:05+02", "2026-11-29T12:30:05+0200", "2026-11-29T12:30:05+24:00",
          "2026-11-29T12:30:05+02:60", "2026-11-29T12:30:05 Z", "2026-11-29T12:30:05+02:00:00",
          "2026-11-29__12:30:05", "２０２６-11-29", "n/a"]


def column_of(*values):
    return Column.of(Document.of({} if it is ... else {"a": it}) for it in values)


class ReadTest(unittest.TestCase):
    def test_texts_fit_the_type_that_they_are_of(self):
        texts = [text for those in TEXTS.values() for text in those]
        for name, those in TEXTS.items():
            for path in ("a", ["a"]):
                column = column_of(*texts, *OTHERS)
                typed, = column.extract([path], [name], iso_dates=True)
                self.assertEqual(typed.to_list(), [those.get(it) for it in [*texts, *OTHERS]])
                self.assertEqual(typed.unfit, len(texts) + len(OTHERS) - len(those))
                self.assertEqual([row for row, _ in typed.rest],
                                 [row for row, it in enumerate([*texts, *OTHERS])
                                  if it not in those])
                # Offsets are kept.
                for text, value in zip([*texts, *OTHERS], typed):
                    if isinstance(value, datetime):
                        self.assertEqual(value.utcoffset(), those[text].utcoffset())
            plain, = column.extract(["a"], [name])
            self.assertEqual((plain.unfit, set(plain)), (len(texts) + len(OTHERS), {None}))

    def test_random_values_as_python_writes_them(self):
        rng = random.Random(3)
        for _ in range(3000):
            micros = rng.randrange(-62_000_000_000, 253_000_000_000) * 10**6
            micros += rng.choice([0, rng.randrange(10**6), 10**5 * rng.randrange(10)])
            it = EPOCH + timedelta(microseconds=micros)
            minutes = rng.randrange(-1439, 1440)
            zoned = it.replace(tzinfo=timezone(timedelta(minutes=minutes)))
            self.assertEqual(READERS["timestamp"](it.isoformat().encode()), (micros,))
            self.assertEqual(READERS["timestamp_tz"](zoned.isoformat().encode()),
                             (micros - minutes * 60 * 10**6, minutes * 60))
            self.assertEqual(READERS["date"](it.date().isoformat().encode()),
                             (it.toordinal() - EPOCH.toordinal(),))

    def test_values_nulls_and_other_members(self):
        noon = datetime(2026, 11, 29, 12, 0)
        column = column_of(noon, "2026-11-29T12:00:00", None, ..., 5, ["2026-11-29T12:00:00"],
                           noon.replace(tzinfo=UTC), "2026-11-29T12:00:00Z")
        typed, = column.extract(["a"], ["timestamp"], iso_dates=True)
        self.assertEqual(typed.to_list(), [noon, noon, *6 * [None]])
        self.assertEqual((typed.states.tolist(), typed.unfit), ([1, 1, 2, 0, 3, 3, 3, 3], 4))
        nulls, = column.extract(["a"], ["timestamp"], iso_dates=True, unfit="null")
        self.assertEqual((nulls.states.tolist(), nulls.unfit), ([1, 1, 2, 0, 2, 2, 2, 2], 4))
        with self.assertRaisesRegex(UnfitError, 'row 4: .*no timestamp at \\["a"\\]: 5'):
            column.extract(["a"], ["timestamp"], iso_dates=True, unfit="error")
        column_of(noon, "2026-11-29T12:00:00").extract(["a"], ["timestamp"], iso_dates=True,
                                                       unfit="error")

    def test_many_rows_paths_and_types(self):
        count = 5000
        days = [(date(2000, 1, 1) + timedelta(days=it)).isoformat() for it in range(count)]
        rows = [{"day": it, "at": {"time": f"{it}T10:00:00Z"}, "n": number, "note": f"{it} is"}
                for number, it in enumerate(days)]
        column = Column.of(map(Document.of, rows))
        foreign = Column.from_arrow(column)
        for source in (column, foreign, column[7:], foreign[9:]):
            first = count - len(source)
            found = source.extract(["day", "n", "note", ["at", "time"]],
                                   ["date", "int64", "text", "timestamp_tz"], iso_dates=True)
            self.assertEqual(found[0].to_list(), list(map(date.fromisoformat, days))[first:])
            self.assertEqual(found[1].to_list(), list(range(first, count)))
            self.assertEqual(found[2].to_list(), [it["note"] for it in rows][first:])
            self.assertEqual(found[3][0].isoformat(), f"{days[first]}T10:00:00+00:00")
            self.assertEqual(sum(it.unfit for it in found), 0)
            self.assertEqual(found[0].zones(count).greatest[0], date.fromisoformat(days[-1]))

    def test_the_least_type(self):
        for values, name in ((["2026-11-29", None, ...], "date"), (["2026-11-29", "x"], "text"),
                             (["2026-11-29T10:00:00", datetime(2026, 1, 1)], "timestamp"),
                             (["2026-11-29T10:00:00Z", "2026-11-29T10:00:00+01:00"],
                              "timestamp_tz"), (["2026-11-29", "2026-11-29T10:00:00"], "text"),
                             (["x", "2026-11-29"], "text"), ([5, "2026-11-29"], "mixed"),
                             ([5, 6], "int64"), ([None], "nothing"),
                             ([date(2026, 1, 1), "2026-11-29"], "date"), (["", "a"], "text")):
            typed, = column_of(*values).extract(["a"], iso_dates=True)
            self.assertEqual(typed.type, name, values)
            self.assertNotEqual(column_of(*values).extract(["a"])[0].type, name) \
                if name.startswith(("date", "time")) else None

    def test_a_file(self):
        rows = [{"day": "2026-11-29", "at": "2026-11-29T12:00:00.50+02:00", "n": 1},
                {"day": "2026-11-31", "at": None}, {"day": date(2026, 1, 1), "at": "noon"},
                {"n": 2}, {"day": 7}]
        types = {"day": "date", "at": "timestamp_tz", "n": "uint64"}
        file = TypedFile(TypedFile.build(rows, types, iso_dates=True))
        at = datetime(2026, 11, 29, 12, 0, 0, 500_000, timezone(timedelta(hours=2)))
        self.assertEqual(list(file.column("day")), [date(2026, 11, 29), None, date(2026, 1, 1),
                                                    None, None])
        self.assertEqual(list(file.column("at")), [at, None, None, None, None])
        self.assertEqual([it.value() for it in file], [{**rows[0], "day": date(2026, 11, 29),
                                                        "at": at}, *rows[1:]])
        plain = TypedFile(TypedFile.build(rows, types))
        self.assertEqual([it.value() for it in plain], rows)
        target = io.BytesIO()
        TypedFile.write(target, map(Document.of, rows), types, iso_dates=True)
        self.assertEqual(list(TypedFile(target.getvalue())), list(file))

    def test_the_program(self):
        data = io.BytesIO()
        kohiblad.write(data, [{"day": "2026-11-29", "at": "2026-11-29T12:00:00-03:30"},
                              {"day": "soon"}, {"day": "2024-02-29", "at": "2024-02-29T00:00:00Z"}])
        done = subprocess.run(
            [sys.executable, "-m", "kohiblad", "extract", "--iso-dates", "$.day", "date", "--and",
             "$.at", "least"], input=data.getvalue(), stdout=subprocess.PIPE,
            stderr=subprocess.PIPE)
        self.assertEqual(list(csv.reader(done.stdout.decode().splitlines())), [
            ["row", "$.day", "$.at"], ["0", "2026-11-29", "2026-11-29T12:00:00-03:30"],
            ["1", "", ""], ["2", "2024-02-29", "2024-02-29T00:00:00+00:00"]])
        self.assertEqual(done.stderr.decode(),
                         "kohiblad: $.day: no value of the type date in 1 of 3 rows\n")


class TextTest(unittest.TestCase):
    def test_examples(self):
        result = doctest.testmod(_scalars)
        self.assertEqual((result.failed, result.attempted > 3), (0, True))

    def test_as_python_writes_its_own(self):
        rng = random.Random(4)
        for _ in range(2000):
            it = datetime.min + timedelta(seconds=rng.randrange(315_537_897_599),
                                          microseconds=rng.choice([0, rng.randrange(10**6)]))
            micros = (it - EPOCH) // timedelta(microseconds=1)
            offset = rng.randrange(-86_399, 86_400)
            self.assertEqual(str(Timestamp(micros)), it.isoformat())
            self.assertEqual(str(Date(it.toordinal() - EPOCH.toordinal())), it.date().isoformat())
            self.assertEqual(str(TimestampTz(micros - offset * 10**6, offset)),
                             it.replace(tzinfo=timezone(timedelta(seconds=offset))).isoformat())

    def test_texts_that_other_bindings_show(self):
        with open(os.environ["KOHIBLAD_TIMES"], encoding="ascii") as file:
            rows = [line.split() for line in file]
        self.assertGreater(len(rows), 300)
        for document, text in rows:
            value = Document(bytes.fromhex(document)).value()
            self.assertEqual(value.isoformat(), text, document)

    def test_years_of_more_digits(self):
        for it, text in ((Date(2932897), "+10000-01-01"), (Date(-719529), "-0001-12-31"),
                         (Date(-719528), "0000-01-01"), (Date(2**31 - 1), "+5881580-07-11"),
                         (Date(-2**31), "-5877641-06-23"),
                         (Timestamp(2**63 - 1), "+294247-01-10T04:00:54.775807"),
                         (Timestamp(-2**63), "-290308-12-21T19:59:05.224192"),
                         (TimestampTz(2932897 * 86_400 * 10**6, -1800),
                          "9999-12-31T23:30:00-00:30")):
            self.assertEqual((it.isoformat(), str(it)), (text, text))

    def test_intervals(self):
        for fields, text in (((0, 0, 0), "PT0S"), ((14, 0, 0), "P1Y2M"), ((0, -3, 0), "P-3D"),
                             ((12, 1, 3_723_000_000), "P1Y1DT1H2M3S"), ((0, 0, 500_000), "PT0.5S"),
                             ((-13, 0, -61_000_001), "P-1Y-1MT-1M-1.000001S"),
                             ((0, 0, 36_000_000_000), "PT10H"), ((0, 0, -1), "PT-0.000001S"),
                             ((2**31 - 1, -2**31, 2**63 - 1),
                              "P178956970Y7M-2147483648DT2562047788H54.775807S")):
            self.assertEqual((Interval(*fields).isoformat(), str(Interval(*fields))), (text, text))
        self.assertEqual(repr(Interval(1, 2, 3)), "Interval(months=1, days=2, micros=3)")


if __name__ == "__main__":
    unittest.main()
