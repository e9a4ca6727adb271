"""The annotations, as mypy reads them, of the package and for its callers."""
import os
import re
import shutil
import subprocess
import sys
import tempfile
import unittest

TOP = os.path.dirname(os.path.dirname(os.path.abspath(__file__)))
SOURCE = os.path.join(TOP, "src")
# A program that uses what README says of types. Its last line is wrong.
CALLER = """\
from typing import Iterator, List, Mapping, Sequence
from kohiblad import ArrayDocument, Document, DocumentPath, ObjectDocument, dumps, loads
from kohiblad.arrow import Column, Typed, frame

document = Document.parse(b"{}", depth=3)
if isinstance(document, ObjectDocument):
    mapping: Mapping[str, object] = document
    names: Iterator[str] = iter(document)
    joined: ObjectDocument = document | {"a": 1}
if isinstance(document, ArrayDocument):
    sequence: Sequence[object] = document
    some: Sequence[object] = document[1:]
    longer: ArrayDocument = document + [1]
text: str = dumps([loads("1"), document, document["a"][0]]) + str(document) + document.pretty()
path: DocumentPath = ["tags", -1]
changed: Document = document.set(path, 1).insert("a", {}).without("a", 0, ("b", 1)).merge({"a": 1})
changed = changed.without_nulls()
other: Document = (changed | {"a": None} | document).member("a").item(0) + [changed]
held: bool = other.contains(changed, steps=100) and other.has_key("a")
held = other.has_any_key("a", "b") or other.has_all_keys()
child: object = other.get_path("tags", 0, default="none")
chosen: List[object] = [*other.select("$.tags[*]"), *other.select(b"$")]
keys: List[int] = other.index_keys() + other.top_keys()
ordered = sorted([document, Document.of(None)])
column: Column = Column.of([document, None])
members: List[Typed] = column.extract(["a", ["b", -1]], ["decimal 2", None], unfit="null")
members += column.extract(["$.a.b"], iso_dates=True)
made: object = frame(column, {"a": "$.a", "b": ["b", 0]}, {"b": "date"}, floats=True)
made = [column.to_pandas(), members[0].to_pandas(floats=True), members[0].masked]
count: int = column.survey(0).numbers + members[0].unfit + len(column.least_type("a", exact=True))
Document.parse(5)
"""


def mypy_command():
    """How mypy is called, or None."""
    own = [sys.executable, "-m", "mypy"]
    found = shutil.which("mypy")
    for command in (own, [found]) if found else (own,):
        if subprocess.run([*command, "--version"], stdout=subprocess.DEVNULL,
                          stderr=subprocess.DEVNULL).returncode == 0:
            return command
    return None


MYPY = mypy_command()


@unittest.skipUnless(MYPY, "the annotations: needs the Debian package mypy")
class TypesTest(unittest.TestCase):
    @classmethod
    def setUpClass(cls):
        folder = tempfile.TemporaryDirectory()
        cls.addClassCleanup(folder.cleanup)
        cls.folder = folder.name

    def complaints(self, *paths):
        """The errors and notes of mypy --strict."""
        done = subprocess.run([*MYPY, "--strict", "--no-error-summary", "--cache-dir", self.folder,
                               *paths], env=dict(os.environ, MYPYPATH=SOURCE), cwd=self.folder,
                              stdout=subprocess.PIPE, stderr=subprocess.STDOUT)
        self.assertIn(done.returncode, (0, 1), done.stdout.decode())
        return done.stdout.decode().splitlines()

    def caller(self, program):
        path = os.path.join(self.folder, "caller.py")
        with open(path, "w", encoding="utf-8") as file:
            file.write(program)
        return path

    def test_the_package(self):
        self.assertEqual(self.complaints(os.path.join(SOURCE, "kohiblad")), [])

    def test_a_caller(self):
        complaints = self.complaints(self.caller(CALLER))
        self.assertEqual([it.split(": ")[0] for it in complaints if ": error: " in it],
                         [f"caller.py:{len(CALLER.splitlines())}"], complaints)

    def test_the_example_of_readme(self):
        with open(os.path.join(TOP, "README.md"), encoding="utf-8") as file:
            example = "".join(re.findall("```python\n(.*?)```", file.read(), re.S))
        lines = re.findall(r"^(?:>>>|\.\.\.) (.*\n)", example, re.M)
        self.assertGreater(len(lines), 8)
        self.assertEqual(self.complaints(self.caller("".join(lines))), [])


if __name__ == "__main__":
    unittest.main()
