"""Documents in etcd, for little data that must not be lost, sorted by city and then price.

    python3 etcd_store.py HOST:PORT load < rows.ndjson
    python3 etcd_store.py HOST:PORT find CITY LOW HIGH      the rows with LOW <= price < HIGH
    python3 etcd_store.py HOST:PORT all                     all rows, by city and then price

    rows/, key of city and price, row number   -> the document
    loads/, SHA-256 of a load's lines          -> the number of its first row
    next                                       -> the number of the next row

All keys of etcd are one space, sorted by bytes. A transaction is on the disks of most servers when
it is answered, and each may be made twice. So a load goes on when the server is back, and one that
was killed is run again: then each row is there once. The server is Debian's etcd-server; its
interface over HTTP takes bytes in base 64, and needs no package.
"""
import json
import urllib.request
from base64 import b64decode, b64encode
from http.client import HTTPException
from urllib.error import HTTPError

from common import Away, StoreError, again, batches, main, number_of
from kohiblad import Document
from kohiblad.keys import above

FRONT = b"rows/"
NEXT = b"next"
# A server takes 128 changes and 1.5 MiB at once, if --max-txn-ops and --max-request-bytes do not
# say otherwise.
AT_ONCE = 100
BYTES_AT_ONCE = 1 << 20
MOST_BYTES = 1536 * 1024 - 512
ANSWER_SECONDS = 10
# The numbers of gRPC for a time that is over and for a server that cannot answer now.
AWAY = (4, 14)


def ask(address, call, body):
    """The answer to a call, whose bytes are written in base 64. StoreError: it was refused."""
    data = json.dumps(body, default=lambda it: b64encode(it).decode()).encode()

    def once():
        try:
            with urllib.request.urlopen(f"http://{address}/v3/kv/{call}", data,
                                        timeout=ANSWER_SECONDS) as answer:
                return json.load(answer)
        except HTTPError as refusal:
            raise reason_of(refusal) from refusal
        except (OSError, HTTPException) as error:
            raise Away(f"{address}: {error}") from error

    return again(once)


def reason_of(refusal):
    """The error for an answer that is none: its body has the reason."""
    body = refusal.read()
    try:
        answer = json.loads(body)
        number, reason = answer["code"], answer["error"]
    except (ValueError, LookupError, TypeError):
        number, reason = None, body.decode(errors="replace")
    return (Away if number in AWAY else StoreError)(f"etcd: {reason} (HTTP {refusal.code})")


def value_of(answer):
    """The number that a key has and its revision, of an answer to a range: 0 if it is not there."""
    if "kvs" not in answer:
        return 0, 0
    entry, = answer["kvs"]
    return int.from_bytes(b64decode(entry["value"]), "big"), int(entry["mod_revision"])


def first_number(address, given):
    """The number of a load's first row, and whether it was given now."""
    name = b"loads/" + given.name
    while True:
        first, is_there = value_of(ask(address, "range", {"key": name}))
        if is_there:
            return first, False
        first, revision = value_of(ask(address, "range", {"key": NEXT}))
        if not revision and has_rows(address):
            raise StoreError("there are rows, and no number of the next: they have another layout")
        change = {"compare": [unchanged(name, 0), unchanged(NEXT, revision)],
                  "success": [put(name, number_of(first)),
                              put(NEXT, number_of(first + len(given.rows)))]}
        if ask(address, "txn", change).get("succeeded"):
            return first, True


def has_rows(address):
    rows = {"key": FRONT, "range_end": above(FRONT), "limit": 1}
    return "kvs" in ask(address, "range", rows)


def unchanged(key, revision):
    """The condition that a key has this revision, which is 0 if it is not there."""
    return {"key": key, "target": "MOD", "result": "EQUAL", "mod_revision": revision}


def put(key, value):
    return {"requestPut": {"key": key, "value": value}}


def load(address, given):
    """Stores the rows, and returns what a user is told."""
    for number, row in enumerate(given.rows):
        size = sum(map(len, row))
        if size > MOST_BYTES:
            raise StoreError(f"row {number} has {size} bytes with its key, and {MOST_BYTES} is the "
                             "most: nothing was stored")
    first, is_new = first_number(address, given)
    rows = [(FRONT + key + number_of(number), data)
            for number, (key, data) in enumerate(given.rows, first)]
    for some in batches(rows, AT_ONCE, BYTES_AT_ONCE):
        ask(address, "txn", {"success": [put(*row) for row in some]})
    return given.report(first, is_new)


def find(address, low, high):
    """The documents whose keys are from low on and below high, in their order."""
    low, high = FRONT + low, FRONT + high
    while True:
        found = ask(address, "range", {"key": low, "range_end": high, "limit": AT_ONCE})
        for it in found.get("kvs", []):
            yield Document(b64decode(it["value"]))
        if not found.get("more"):
            return
        # The least key above the last one.
        low = b64decode(found["kvs"][-1]["key"]) + b"\0"


if __name__ == "__main__":
    main(load, find)
