"""Threads of little stack: a document is read as in any other thread, or refused as too deep."""
import os
import re
import subprocess
import sys
import threading
import unittest

import kohiblad
from kohiblad import Document, InvalidDocumentError, KohibladError, TooDeepError, _stack
from kohiblad import _library as library
from kohiblad.arrow import Column
from kohiblad.typed_file import TypedFile

# Where the library is installed, the header is beside it.
HEADER = os.path.join(os.path.dirname(os.environ.get("KOHIBLAD_LIBRARY", "")), os.pardir, "include",
                      "kohiblad.h")
LEAST_STACK = 256 << 10
# So many levels fit that stack in each call, beside what Python itself takes.
FEW = 80
DEPTHS = (1, FEW, 95, 115, 120, 200, 230, 240, 500, 998)
# Of these a thread of that stack reads documents of any depth.
FLAT = {"value", "len", "list", "get_path", "get", "member"}


def nested(depth, value="x"):
    """A value in so many lists and dicts in turn."""
    for level in range(depth):
        value = [value, level] if level % 2 else {"a": value, "b": None}
    return value


def unwound(value):
    """What each level of such a value has, since Python compares no values that nest so deep."""
    found = []
    while isinstance(value, (list, dict)):
        inner = value[0] if isinstance(value, list) else value["a"]
        found.append(value[1:] if isinstance(value, list) else [*value, value["b"]])
        value = inner
    return found, value


def calls_of(depth):
    """Calls over a document, by their names."""
    value = nested(depth)
    document = Document.of(value)
    text, data = str(document), bytes(document)
    row = Document.of({"a": document, "b": 5})
    array = Document.of([document, 1])
    column = Column.of([row, None, Document.of({"a": 1, "b": 6}), row, Document.of({"b": "x"})])
    foreign = Column.from_arrow(column)
    stored = TypedFile.build([row], {"b": "int64"})
    path = ["a"] + [0 if level % 2 else "a" for level in reversed(range(depth))]
    return {
        "parse": lambda: bytes(Document.parse(text)),
        "loads": lambda: unwound(kohiblad.loads(text)),
        "stored": lambda: bytes(Document(data)),
        "of": lambda: bytes(Document.of(value)),
        "of a document": lambda: bytes(Document.of([document])),
        "of a document beside bytes": lambda: bytes(Document.of({"a": [document, b"bytes"]})),
        "of levels around bytes": lambda: bytes(Document.of(nested(depth, b"bytes"))),
        "dumps": lambda: kohiblad.dumps([value]),
        "str": lambda: str(document),
        "repr": lambda: repr(document),
        "pretty": document.pretty,
        "key": lambda: Document(data).key(),
        "hash": lambda: hash(Document(data)),
        "equal": lambda: Document(data) == Document.of([document, b""])[0],
        "less": lambda: Document(data) < Document.of({"a": document}),
        "canonical": lambda: bytes(document.canonical()),
        "contains": lambda: row.contains({"a": document}),
        "has_key": lambda: row.has_key("b"),
        "has_any_key": lambda: row.has_any_key("b", "c"),
        "has_all_keys": lambda: row.has_all_keys("b", "c"),
        "select": lambda: list(map(bytes, array.select("$[*]?(@ != 1)"))),
        "path_of": lambda: row.path_of("/a/0"),
        "set": lambda: bytes(row.set("b", 6)),
        "set it": lambda: bytes(Document.of({}).set(["b", "c"], document, create=True)),
        "set at its end": lambda: bytes(row.set(path, 6)),
        "create its levels": lambda: bytes(Document.of({}).set(path, 6, create=True)),
        "insert": lambda: bytes(row.insert("c", [5])),
        "without": lambda: bytes(row.without("b")),
        "without two": lambda: bytes(row.without("b", "c")),
        "pick": lambda: bytes(row.pick("a")),
        "distinct": lambda: bytes(array.distinct()),
        "intersection": lambda: bytes(array.intersection([document])),
        "difference": lambda: bytes(array.difference([1])),
        "overlaps": lambda: array.overlaps([2, document]),
        "joined": lambda: bytes(row | {"c": 1}),
        "added": lambda: bytes(array + [document]),
        "merge": lambda: bytes(row.merge({"b": None})),
        "merge it": lambda: bytes(Document.of({"a": 1}).merge(row)),
        "without_nulls": lambda: bytes(row.without_nulls()),
        "index_keys": row.index_keys,
        "top_keys": row.top_keys,
        "member_key": lambda: row.member_key("b", "a"),
        "survey": lambda: column.survey("b"),
        "survey of Arrow": lambda: foreign.survey("b"),
        "least_type": lambda: foreign.least_type("b"),
        "extract": lambda: foreign.extract(["b"], ["int64"])[0].to_list(),
        "extract two": lambda: [it.to_list() for it in foreign.extract(["b", "a"],
                                                                       ["int64", "text"])],
        "rest": lambda: str(foreign.extract(["a"], ["int64"])[0].rest[0]),
        "sorted_order": foreign.sorted_order,
        "build": lambda: TypedFile.build([row], {"b": "int64"}),
        "file": lambda: len(TypedFile(stored)),
        "row of a file": lambda: bytes(TypedFile(stored, check=False)[0]),
        "value": lambda: unwound(document.value()),
        "len": lambda: len(document),
        "list": lambda: len(list(document)),
        "get_path": lambda: row.get_path(*path[:2]) is None,
        "get": lambda: bytes(row["a"]) if depth else None,
        "member": lambda: bytes(row.member("a")),
    }


def in_thread(size, call):
    """What a call returns in a thread of so much stack, and the error that it raises, or None."""
    answers = []

    def run():
        try:
            answers.append((call(), None))
        except KohibladError as error:
            answers.append((None, error))

    threading.stack_size(size)
    thread = threading.Thread(target=run)
    thread.start()
    thread.join()
    threading.stack_size(0)
    return answers[0]


def main():
    """Prints a line for each answer of a thread of little stack that is not right."""
    for depth in DEPTHS:
        for name, call in calls_of(depth).items():
            try:
                expected = call()
            except TooDeepError:
                continue
            answer, error = in_thread(LEAST_STACK, call)
            if error is None and answer != expected:
                print(name, "at", depth, "has another answer")
            if error is None and depth == max(DEPTHS) and name not in FLAT:
                print(name, "at", depth, "is not refused")
            if error is not None and (depth <= FEW or name in FLAT or error.name != "TooDeep"):
                print(name, "at", depth, "is refused:", error)
    deepest = Document.of(nested(kohiblad.DEPTH))
    for size in (4 << 20, 0):
        _, error = in_thread(size, lambda: str(deepest.canonical().merge(deepest)))
        if error is not None:
            print("a thread of", size, "refuses:", error)
    print("done")


class StackTest(unittest.TestCase):
    def test_no_document_ends_a_thread(self):
        done = subprocess.run([sys.executable, "-c", "import test_stack; test_stack.main()"],
                              stdout=subprocess.PIPE)
        self.assertEqual((done.returncode, done.stdout.decode()), (0, "done\n"))

    @unittest.skipUnless(os.path.exists(HEADER), "the constants: needs kohiblad.h by the library")
    def test_the_constants_are_those_of_the_header(self):
        with open(HEADER, encoding="utf-8") as file:
            told = dict(re.findall("^#define KOHIBLAD_([A-Z_]*STACK) ([0-9]+)$", file.read(), re.M))
        self.assertEqual({name: int(it) for name, it in told.items()}, {
            "LEVEL_STACK": library.LEVEL_STACK, "EDIT_LEVEL_STACK": library.EDIT_LEVEL_STACK,
            "PATCH_LEVEL_STACK": library.PATCH_LEVEL_STACK, "CALL_STACK": _stack._CALL_STACK,
            "PATH_STACK": library.PATH_STACK})

    def test_the_words_of_the_error(self):
        deepest = Document.of(nested(kohiblad.DEPTH))
        _, error = in_thread(LEAST_STACK, lambda: str(deepest))
        self.assertIsInstance(error, TooDeepError)
        self.assertRegex(str(error), "^TooDeep: it nests more than [12][0-9]{2} deep, .* thread")

    def test_the_row_that_is_too_deep(self):
        column = Column.from_arrow(Column.of([Document.of(nested(it)) for it in (5, 1000, 5)]))
        for call in (lambda: column.survey("a"), column.sorted_order):
            _, error = in_thread(LEAST_STACK, call)
            self.assertIsInstance(error, TooDeepError)
            self.assertEqual(error.row, 1)

    def test_what_is_no_document(self):
        data = bytes(Document.of(nested(kohiblad.DEPTH)))
        for bad in (b"", b"\xff" * 10_000, data[:-1], bytes(Document.of([5] * 5000))[:-1]):
            _, error = in_thread(LEAST_STACK, lambda bad=bad: Document(bad))
            self.assertIsInstance(error, InvalidDocumentError)
        # Whether it is one below the levels that the stack carries is not known.
        for bad in (data, data[:-6] + b"\xff" * 6):
            _, error = in_thread(LEAST_STACK, lambda bad=bad: Document(bad))
            self.assertIsInstance(error, TooDeepError)


if __name__ == "__main__":
    unittest.main()
