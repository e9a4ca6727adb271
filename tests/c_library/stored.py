"""Asks the shared library about documents that earlier versions stored.

    python3 stored.py libkohiblad.so TESTS/STORED
    python3 stored.py libkohiblad.so TESTS/STORED --write VERSION

Each line of TESTS/STORED/VERSION/rows.tsv has a document, its text, its comparable key and its
index keys, all but the text in hexadecimal, as the library of that version made them; the lines are
in the order of its sort. 0.6 had no index keys. The library must print the same text, make the same
keys, sort the same rows in the same order, whatever their order was, and find each by its key. With
--write it stores what it makes of the rows of TESTS/STORED/rows.in, which are JSON texts or, after
`\\x`, bytes of documents in hexadecimal.
"""
import bisect
import ctypes
import pathlib
import random
import sys

LIBRARY = ctypes.CDLL(sys.argv[1])
SIZE = ctypes.c_size_t
ANY_DEPTH = SIZE(2 ** 64 - 1)
OK, NO_ROOM = 0, 11


def sized(data):
    return data, SIZE(len(data))


def made(call, document, item=ctypes.c_uint8):
    """The items that a call makes of a document."""
    length, room = SIZE(), 0
    while True:
        out = (item * max(room, 1))()
        status = getattr(LIBRARY, f"kohiblad_{call}")(*sized(document), ANY_DEPTH, out, SIZE(room),
                                                      ctypes.byref(length))
        if status != NO_ROOM:
            assert status == OK, f"{call} of {document.hex()}: {status}"
            return list(out[:length.value])
        room = length.value


def order_of(rows):
    """The numbers of rows in the library's order."""
    offsets = [0]
    for row in rows:
        offsets.append(offsets[-1] + len(row))
    order = (SIZE * len(rows))()
    status = LIBRARY.kohiblad_sort(*sized(b"".join(rows)), (SIZE * len(offsets))(*offsets),
                                   SIZE(len(offsets)), ANY_DEPTH, order, SIZE(len(rows)))
    assert status == OK, status
    return list(order)


def line_of(document):
    """What is stored of a document."""
    index_keys = made("index_keys", document, ctypes.c_uint64)
    return [document.hex(), bytes(made("print", document)).decode(),
            bytes(made("key", document)).hex(), " ".join(f"{it:016x}" for it in index_keys)]


def row_of(line):
    """The document of a line of rows.in."""
    if line.startswith("\\x"):
        return bytes.fromhex(line[2:])
    text, out, length = line.encode(), (ctypes.c_uint8 * 4096)(), SIZE()
    status = LIBRARY.kohiblad_parse(*sized(text), ANY_DEPTH, 0, out, SIZE(4096),
                                    ctypes.byref(length))
    assert status == OK, f"{line}: {status}"
    return bytes(out[:length.value])


def lines_of(path):
    return [line.split("\t") for line in path.read_text(encoding="utf-8").splitlines()]


def compare(path):
    """Compares the rows that a version stored with what the library makes of them."""
    lines = lines_of(path)
    documents = [bytes.fromhex(document) for document, *_ in lines]
    for line, document in zip(lines, documents):
        assert LIBRARY.kohiblad_check(*sized(document), ANY_DEPTH), f"{line[0]} is no document"
        # A line of 0.6 ends after the key.
        assert line_of(document)[:len(line)] == line, f"{path}: {line}, now {line_of(document)}"
    shuffled = random.Random(1).sample(range(len(lines)), len(lines))
    order = [shuffled[at] for at in order_of([documents[at] for at in shuffled])]
    assert [lines[at][2] for at in order] == [key for _, _, key, *_ in lines], f"{path}: the order"
    keys = [bytes.fromhex(key) for _, _, key, *_ in lines]
    for document in documents:
        at = bisect.bisect_left(keys, bytes(made("key", document)))
        found = documents[at]
        assert LIBRARY.kohiblad_compare(*sized(found), *sized(document), ANY_DEPTH) == 0
    return len(lines)


def main():
    folder = pathlib.Path(sys.argv[2])
    if sys.argv[3:4] == ["--write"]:
        documents = [row_of(it) for it in (folder / "rows.in").read_text("utf-8").splitlines()]
        lines = ["\t".join(line_of(documents[at])) + "\n" for at in order_of(documents)]
        (folder / sys.argv[4]).mkdir(exist_ok=True)
        (folder / sys.argv[4] / "rows.tsv").write_text("".join(lines), encoding="utf-8")
        return
    paths = sorted(folder.glob("*/rows.tsv"))
    assert paths, f"{folder} has no rows"
    for path in paths:
        print(f"{compare(path)} rows of {path.parent.name}")


main()
