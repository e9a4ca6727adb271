"""What the programs of these stores have in common.

A load is known by the SHA-256 of its lines. Its rows have numbers that follow one another, and a
store keeps the first of them, by that hash, before it writes a row. So a load that was killed can
be run again from its first line: each row is written under the number that it had.
"""
import hashlib
import sys
import time
from decimal import Decimal

from kohiblad import Document, KohibladError
from kohiblad.keys import key_of, key_of_members

MEMBERS = ["city", "price"]
ROW_BYTES = 8
# It is above the key of every value: their first bytes are not so high.
END = b"\xfe"
# How long a server may be away.
SECONDS = 60


class StoreError(Exception):
    """A load or a search cannot be done, for the reason that the words of the error say."""


class Away(StoreError):
    """A server does not answer, or cannot do so now."""


class Load:
    """The rows of JSON lines, all of which are read before one is stored.

    ``name`` is the SHA-256 of the lines, and ``rows`` has the key of MEMBERS, cut to ``cut`` bytes
    if that is given, and the document of each line that is not blank. A line that is not JSON is
    raised as the KohibladError of ``Document.parse``, whose ``place`` and ``line`` say which.
    """

    def __init__(self, lines, cut=None):
        self.rows = []
        digest = hashlib.sha256()
        for number, line in enumerate(lines, 1):
            digest.update(line)
            if line.strip():
                document = document_of(line, number)
                self.rows.append((key_of_members(document, MEMBERS, cut), bytes(document)))
        self.name = digest.digest()

    def report(self, first, is_new):
        """What a user is told when all rows are stored."""
        before = "" if is_new else ", as in an earlier load of these lines"
        return f"{len(self.rows)} rows are stored, with numbers from {first} on{before}"


def document_of(line, number):
    try:
        return Document.parse(line)
    except KohibladError as error:
        error.place, error.line = f"line {number}", number
        raise


def number_of(row):
    """The bytes of a row's number, which sort as the numbers do."""
    return row.to_bytes(ROW_BYTES, "big")


def batches(rows, most, most_bytes):
    """The rows, which are tuples of bytes, in lists of at most so many rows and bytes.

    A row of more bytes is alone in its list.
    """
    batch, size = [], 0
    for row in rows:
        more = sum(map(len, row))
        if batch and (len(batch) == most or size + more > most_bytes):
            yield batch
            batch, size = [], 0
        batch.append(row)
        size += more
    if batch:
        yield batch


def again(call):
    """What a call returns, which is made again for SECONDS while it raises Away.

    So it must be one that may be made twice. After that time its last error is raised.
    """
    end = time.monotonic() + SECONDS
    pause = 0
    while True:
        try:
            return call()
        except Away as error:
            if time.monotonic() > end:
                raise
            if not pause:
                print(f"tries again for {SECONDS} seconds: {error}", file=sys.stderr)
        pause = min(2 * pause + 0.05, 1)
        time.sleep(pause)


def main(load, find, cut=None):
    """Runs the command that the program's arguments name, and ends with 1 and why if it fails."""
    place, command, *rest = sys.argv[1:]
    try:
        if command == "load":
            print(load(place, Load(sys.stdin.buffer, cut)))
            return
        low, high = b"", END
        if command == "find":
            city, least, end = rest
            low, high = key_of(city, Decimal(least)), key_of(city, Decimal(end))
        elif command != "all":
            raise StoreError(f"there is no command {command}: load, find and all are those")
        for document in find(place, low, high):
            print(document)
    except (StoreError, KohibladError) as error:
        sys.exit(str(error))
