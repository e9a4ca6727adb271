"""Prints README's table of times: kohiblad, with and without its extension module, and json.

    python3 bench.py [NAME]

Each time is the processor's, the median of 21 rounds in which all rows and columns of the table
take turns. With NAME it measures the rows alone in whose names this is. json reads decimals as
Decimal, and writes them as floats.
"""
import json
import os
import statistics
import subprocess
import sys
import time
from datetime import datetime
from decimal import Decimal

from kohiblad import Document, dumps, loads
from kohiblad.typed_file import TypedFile

ROUNDS = 21
ROW = ('{"id":48213,"name":"Ada Lovelace","price":12.50,"tags":["new","red"],"seen":null,'
       '"town":"Oslo","zip":"0150","count":17,"ok":true,"note":"a note of a few words"}')


def rows_of(count):
    """Rows that differ in their first members, in no order."""
    return [ROW.replace("48213", str(index * 7919 % 10_007)) for index in range(count)]


def exact(text):
    return json.loads(text, parse_float=Decimal)


def as_text(value):
    return json.dumps(value, separators=(",", ":"), ensure_ascii=False, default=float)


def set_in_text(text):
    row = exact(text)
    row["count"] = 18
    return as_text(row)


def merge_in_text(text):
    row = exact(text)
    row.update(count=18, ok=False)
    del row["note"]
    return as_text(row)


def without_nulls_in_text(text):
    return as_text({key: value for key, value in exact(text).items() if value is not None})


def set_in_rows(text):
    rows = exact(text)
    rows[500]["count"] = 18
    return as_text(rows)


def number_of(row):
    return row["id"]


def cases():
    """What is measured: its name, how often a round runs it, and both programs."""
    document, value = Document.parse(ROW), loads(ROW)
    stored = bytes(document)
    texts = rows_of(10_000)
    array = "[" + ",".join(texts[:1_000]) + "]"
    dated = dict(value, at=datetime(2026, 11, 27, 2, 30))
    stored_rows = [bytes(Document.parse(text)) for text in texts]
    stored_array = bytes(Document.parse(array))
    documents = [Document(it) for it in stored_rows]
    types = {"id": "int64", "price": "decimal 2", "town": "text", "count": "int64",
             "ok": "boolean"}
    part, patch = Document.of({"tags": ["red"]}), {"count": 18, "ok": False, "note": None}
    return [
        ("`loads` of a row", 1_000, lambda: loads(ROW), lambda: exact(ROW)),
        ("`loads` of 1,000 rows in an array", 1, lambda: loads(array), lambda: exact(array)),
        ("`dumps` of a row", 1_000, lambda: dumps(value), lambda: as_text(value)),
        ("`Document.parse(text)`", 1_000, lambda: Document.parse(ROW), None),
        ("`Document.of(value)`", 1_000, lambda: Document.of(value), None),
        ("`Document.of(value)` with a `datetime`", 1_000, lambda: Document.of(dated), None),
        ("`Document(stored)`", 1_000, lambda: Document(stored), None),
        ("`Document(stored)[\"price\"]`, `loads(text)[\"price\"]`", 1_000,
         lambda: Document(stored)["price"], lambda: exact(ROW)["price"]),
        ("`document[\"price\"]`", 1_000, lambda: document["price"], None),
        ("`dict(document)`", 1_000, lambda: dict(document), None),
        ("`document.value()`", 1_000, document.value, None),
        ("stored row: `set(\"count\", 18)`", 1_000,
         lambda: bytes(Document(stored).set("count", 18)), lambda: set_in_text(ROW)),
        ("stored row: `merge` of three members, one null", 1_000,
         lambda: bytes(Document(stored).merge(patch)), lambda: merge_in_text(ROW)),
        ("stored row: `without(\"note\")`", 1_000,
         lambda: bytes(Document(stored).without("note")), None),
        ("stored row: `insert([\"tags\", 0], \"x\")`", 1_000,
         lambda: bytes(Document(stored).insert(["tags", 0], "x")), None),
        ("stored row: `\\| {\"count\": 18}`", 1_000,
         lambda: bytes(Document(stored) | {"count": 18}), None),
        ("stored row: `without_nulls()`", 1_000,
         lambda: bytes(Document(stored).without_nulls()), lambda: without_nulls_in_text(ROW)),
        ("stored row: `select(\"$.tags[*]\")`", 1_000, lambda: Document(stored).select("$.tags[*]"),
         lambda: exact(ROW)["tags"][:]),
        ("stored row: `contains` of a document", 1_000, lambda: Document(stored).contains(part),
         lambda: "red" in exact(ROW)["tags"]),
        ("stored row: `get_path(\"tags\", 0)`", 1_000,
         lambda: Document(stored).get_path("tags", 0), lambda: exact(ROW)["tags"][0]),
        ("stored row: `index_keys()`", 1_000, lambda: Document(stored).index_keys(), None),
        ("1,000 stored rows in an array: `set([500, \"count\"], 18)`", 1,
         lambda: bytes(Document(stored_array).set([500, "count"], 18)),
         lambda: set_in_rows(array)),
        ("10,000 stored rows: `sorted(documents)`", 1,
         lambda: sorted(map(Document, stored_rows)), None),
        ("10,000 stored rows: `sorted(documents, key=Document.key)`", 1,
         lambda: sorted(map(Document, stored_rows), key=Document.key), None),
        ("10,000 stored rows sorted by one number", 1,
         lambda: sorted(map(Document, stored_rows), key=number_of),
         lambda: sorted(map(exact, texts), key=number_of)),
        ("10,000 lines: `loads` of each", 1, lambda: [loads(it) for it in texts],
         lambda: [exact(it) for it in texts]),
        ("10,000 documents: `TypedFile.build` with five columns", 1,
         lambda: TypedFile.build(documents, types), None),
        ("10,000 documents: `TypedFile.build` with no column", 1,
         lambda: TypedFile.build(documents, {}), None),
    ]


def seconds(program, times):
    """The time of one run, in seconds."""
    start = time.process_time()
    for _ in range(times):
        program()
    return (time.process_time() - start) / times


def shown(measured):
    if not measured:
        return ""
    micros = statistics.median(measured) * 1e6
    return f"{micros:,.1f} µs" if micros < 1_000 else f"{micros / 1_000:,.1f} ms"


def times_of(measured, which):
    """The times of one round, by names: of the package's programs (0) or of json's (1)."""
    return {name: seconds(programs[which], times)
            for name, times, *programs in measured if programs[which]}


def cases_named(part):
    return [it for it in cases() if part in it[0]]


def answer_rounds(part):
    """Measures the package each time that a line is read."""
    measured = cases_named(part)
    for _ in sys.stdin:
        print(json.dumps(times_of(measured, 0)), flush=True)


class Way:
    """A process that measures the package with the extension module, or without it."""

    def __init__(self, wish, part):
        self._process = subprocess.Popen(
            [sys.executable, __file__, part, "--answer"], stdin=subprocess.PIPE,
            stdout=subprocess.PIPE, env=dict(os.environ, KOHIBLAD_NATIVE=wish), text=True)

    def times(self):
        self._process.stdin.write("\n")
        self._process.stdin.flush()
        return json.loads(self._process.stdout.readline())

    def end(self):
        self._process.stdin.close()
        self._process.wait()


def main(part):
    module, by_ctypes, measured = Way("1", part), Way("0", part), cases_named(part)
    rounds = [(module.times(), by_ctypes.times(), times_of(measured, 1)) for _ in range(ROUNDS)]
    module.end()
    by_ctypes.end()
    print("| | kohiblad | by ctypes | json |\n|---|---|---|---|")
    for name in rounds[0][0]:
        columns = [shown([it[name] for it in column if name in it]) for column in zip(*rounds)]
        print(f"| {name} | {' | '.join(columns)} |")


if __name__ == "__main__":
    name_part = sys.argv[1] if len(sys.argv) > 1 else ""
    answer_rounds(name_part) if "--answer" in sys.argv else main(name_part)
