"""Documents in LMDB, one file on one machine, with an index of two members: city, then price.

    python3 lmdb_store.py FOLDER load < rows.ndjson
    python3 lmdb_store.py FOLDER find CITY LOW HIGH      the rows with LOW <= price < HIGH, by price
    python3 lmdb_store.py FOLDER all                     all rows, by city and then price

    rows     row number                          -> the document
    index    key of city and price, row number   -> nothing
    loads    SHA-256 of a load's lines           -> the number of its first row

A load is one transaction. It is on the disk when the program has said so, and of one that is killed
before that there is either all or nothing. Run it again: lines that were loaded before change
nothing. The package is Debian's python3-lmdb.
"""
import lmdb
from common import MEMBERS, ROW_BYTES, StoreError, main, number_of
from kohiblad import Document
from kohiblad.keys import above, key_of_members

# LMDB has room for 511 bytes in a key, so a long one is cut, which makes it a lower bound.
CUT = 511 - ROW_BYTES


def open_store(folder, create, *tables):
    """The store and these tables. StoreError: one is not there, and is not to be created."""
    try:
        store = lmdb.open(folder, max_dbs=len(tables), map_size=1 << 36, create=create)
        # What readers that were killed have left.
        store.reader_check()
        return store, *(store.open_db(it, create=create) for it in tables)
    except (lmdb.NotFoundError, FileNotFoundError) as error:
        raise StoreError(f"{folder} has no rows: {error}") from error
    except lmdb.Error as error:
        raise StoreError(f"no store can be opened: {error}") from error


def load(folder, given):
    """Stores the rows, if they are not there, and returns what a user is told."""
    store, rows, index, loads = open_store(folder, True, b"rows", b"index", b"loads")
    with store, store.begin(write=True) as change:
        first = change.get(given.name, db=loads)
        if first is not None:
            return given.report(int.from_bytes(first, "big"), is_new=False)
        first = change.stat(rows)["entries"]
        change.put(given.name, number_of(first), db=loads)
        for number, (key, data) in enumerate(given.rows, first):
            change.put(number_of(number), data, db=rows)
            change.put(key + number_of(number), b"", db=index)
    return given.report(first, is_new=True)


def find(folder, low, high):
    """The documents whose keys are from low on and below high, in their order."""
    store, rows, index = open_store(folder, False, b"rows", b"index")
    found = []
    with store, store.begin() as look, look.cursor(index) as cursor:
        is_there = cursor.set_range(low[:CUT])
        while is_there and cursor.key() < above(high[:CUT]):
            document = Document(look.get(cursor.key()[-ROW_BYTES:], db=rows))
            # What a cut key leaves open is decided by the whole one.
            if low <= key_of_members(document, MEMBERS) < high:
                found.append(document)
            is_there = cursor.next()
    return sorted(found, key=lambda it: key_of_members(it, MEMBERS))


if __name__ == "__main__":
    main(load, find, CUT)
