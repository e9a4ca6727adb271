"""Look-ups in documents in files, of which only slices are read."""
import doctest
import io
import os
import random
import sqlite3
import tempfile
import unittest

from kohiblad import Document, InvalidDocumentError, read_path
from kohiblad import _library as library
from kohiblad import _slices


class Counting(io.BytesIO):
    """A file that counts what is read of it."""
    taken = 0

    def read(self, size=-1):
        data = super().read(size)
        self.taken += len(data)
        return data


def long_document():
    members = {f"key{i}": "x" * 3000 for i in range(100)}
    members["at"] = [1, {"in": ["a", "b"], "of": None}, "y" * 50000, 7]
    return Document.of(members)


class SlicesTest(unittest.TestCase):
    def test_the_example(self):
        result = doctest.testmod(_slices)
        self.assertEqual(result.failed, 0)
        self.assertGreater(result.attempted, 0)

    def test_paths(self):
        row = Document.parse('{"id":7,"":{"a":[]},"tags":["a",{"of":null},-1.50]}')
        file = io.BytesIO(bytes(row))
        for path in [(), ("id",), ("",), ("", "a"), ("tags", 1), ("tags", -1), ("tags", 1, "of"),
                     ("tags", 3), ("tags", -4), ("none",), ("id", "x"), (0,), ("tags", "0"),
                     ("\ud800",), ("tags", 2**70), ("tags", -2**70)]:
            with self.subTest(path):
                self.assertEqual(read_path(file, *path, default="none"),
                                 row.get_path(*path, default="none"))

    def test_scalars_have_no_parts(self):
        file = io.BytesIO(bytes(Document.parse("1.50")))
        self.assertEqual(str(read_path(file)), "1.50")
        self.assertIsNone(read_path(file, "a"))
        self.assertIsNone(read_path(file, 0))
        self.assertIsNone(read_path(file, -1))

    def test_steps(self):
        file = io.BytesIO(bytes(Document.parse("[]")))
        for step in (1.0, None, b"a", True):
            with self.assertRaises(TypeError):
                read_path(file, step)

    def test_little_is_read(self):
        document = long_document()
        for path, most in [(("key7",), 16384), (("none",), 8192), (("at", 1, "in", -1), 24576),
                           (("at", 3), 24576)]:
            file = Counting(bytes(document))
            self.assertEqual(read_path(file, *path), document.get_path(*path))
            self.assertLess(file.taken, most, path)
            self.assertGreater(len(bytes(document)), 300000)

    def test_a_document_among_others(self):
        first, second = bytes(Document.of([1])), bytes(long_document())
        file = io.BytesIO(first + second + b"rest")
        self.assertEqual(read_path(file, 0, size=len(first)), 1)
        self.assertEqual(read_path(file, "at", 0, offset=len(first), size=len(second)), 1)

    def test_a_file(self):
        with tempfile.TemporaryDirectory() as folder:
            path = os.path.join(folder, "document")
            with open(path, "wb") as file:
                file.write(bytes(long_document()))
            with open(path, "rb") as file:
                self.assertEqual(read_path(file, "at", 3), 7)

    @unittest.skipUnless(hasattr(sqlite3.Connection, "blobopen"), "sqlite3 opens no blobs")
    def test_a_blob_of_sqlite(self):
        connection = sqlite3.connect(":memory:")
        connection.execute("CREATE TABLE rows (id INTEGER PRIMARY KEY, doc BLOB)")
        connection.execute("INSERT INTO rows VALUES (1, ?)", [bytes(long_document())])
        with connection.blobopen("rows", "doc", 1, readonly=True) as blob:
            self.assertEqual(read_path(blob, "at", 1, "of", default=0), None)
            self.assertEqual(read_path(blob, "key99"), "x" * 3000)

    def test_no_documents(self):
        data = bytes(Document.parse('{"a":"xyz","b":[1]}'))
        for end in range(len(data)):
            file = io.BytesIO(data[:end])
            with self.subTest(end), self.assertRaises(InvalidDocumentError):
                read_path(file, "b", size=len(data))
            with self.subTest(end), self.assertRaises(InvalidDocumentError):
                read_path(file, "b")
        with self.assertRaises(InvalidDocumentError):
            read_path(io.BytesIO(b"\0\0\0\1"), "a")
        with self.assertRaises(InvalidDocumentError):
            read_path(io.BytesIO(data), offset=100)

    def test_random_documents(self):
        chosen = random.Random(3)
        for _ in range(50):
            members = {f"k{i}": chosen.choice(["x" * chosen.randrange(9000), i, None, [i, "y"]])
                       for i in range(chosen.randrange(800))}
            document = Document.of(members)
            file = io.BytesIO(bytes(document))
            for name in ["k0", "k5", "k10", "k799", "k", "z"]:
                self.assertEqual(read_path(file, name, default=library),
                                 document.get_path(name, default=library))


if __name__ == "__main__":
    unittest.main()
