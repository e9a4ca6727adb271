"""Documents in ClickHouse, sorted by two members: city, then price.

    python3 clickhouse_store.py HOST:PORT load < rows.ndjson
    python3 clickhouse_store.py HOST:PORT find CITY LOW HIGH      the rows with LOW <= price < HIGH
    python3 clickhouse_store.py HOST:PORT all                     all rows, by city and then price

A String holds any bytes, and sorts by them. The index of the table keeps the key of one row in
1,024, so that a range is read without the rows before it and after it. PORT is the HTTP port of
Debian's clickhouse-server.

    key      of city and price
    load     the SHA-256 of a load's lines
    number   of the row in its load, from 0 on
    doc      the document

ClickHouse has no transaction for the inserts of a load. But of rows with equal key, load and number
the engine ReplacingMergeTree keeps one, and FINAL finds one before that is done. So an insert may
be made twice: a load goes on when the server is back, and one that was killed is run again. When
the program has said that the rows are stored, a server that is killed keeps them; a machine that
loses power may lose the last ones, for ClickHouse does not wait for the disk: newer ones have the
setting fsync_after_insert.
"""
import urllib.parse
import urllib.request
from http.client import HTTPException
from urllib.error import HTTPError

from common import Away, StoreError, again, batches, main
from kohiblad import Document

AT_ONCE = 100_000
BYTES_AT_ONCE = 1 << 26
ANSWER_SECONDS = 60
TABLE = ("CREATE TABLE IF NOT EXISTS rows (key String, load FixedString(32), number UInt64, "
         "doc String) ENGINE = ReplacingMergeTree ORDER BY (key, load, number) "
         "SETTINGS index_granularity = 1024")


def ask(address, query, data=b""):
    """The lines of the answer to a query, which may have data. StoreError: it was refused."""
    # With this setting an answer begins when nothing can go wrong with it any more.
    words = urllib.parse.urlencode({"query": query, "wait_end_of_query": 1})

    def once():
        try:
            with urllib.request.urlopen(f"http://{address}/?{words}", data or b"\n",
                                        timeout=ANSWER_SECONDS) as answer:
                return answer.read().split()
        except HTTPError as refusal:
            reason = refusal.read().decode(errors="replace").strip()
            raise StoreError(f"ClickHouse: {reason} (HTTP {refusal.code})") from refusal
        except (OSError, HTTPException) as error:
            raise Away(f"{address}: {error}") from error

    return again(once)


def string(data):
    """A String as RowBinary has it: the length by seven bits a byte, the lowest first."""
    size, front = len(data), bytearray()
    while size > 127:
        front.append(size & 127 | 128)
        size >>= 7
    return bytes(front) + bytes([size]) + data


def load(address, given):
    """Stores the rows, and returns what a user is told."""
    ask(address, TABLE)
    condition = f"load = unhex('{given.name.hex()}')"
    is_new = not ask(address, f"SELECT 1 FROM rows WHERE {condition} LIMIT 1")
    rows = [(string(key), given.name, number.to_bytes(8, "little"), string(data))
            for number, (key, data) in enumerate(given.rows)]
    for some in batches(rows, AT_ONCE, BYTES_AT_ONCE):
        ask(address, "INSERT INTO rows FORMAT RowBinary", b"".join(map(b"".join, some)))
    return given.report(0, is_new)


def find(address, low, high):
    """The documents whose keys are from low on and below high, in their order."""
    query = (f"SELECT hex(doc) FROM rows FINAL WHERE key >= unhex('{low.hex()}') "
             f"AND key < unhex('{high.hex()}') ORDER BY key, load, number")
    return [Document(bytes.fromhex(it.decode())) for it in ask(address, query)]


if __name__ == "__main__":
    main(load, find)
