"""The lines of DRIVERS.md, with the drivers that are installed, and what they go by."""
import importlib.util
import os
import re
import subprocess
import sys
import tempfile
import unittest
from datetime import date
from decimal import Decimal

from kohiblad import Document, InvalidDocumentError, InvalidTextError
from kohiblad.sql import read_text, write_text

TOP = os.path.dirname(os.path.dirname(os.path.abspath(__file__)))
PACKAGES = {"psycopg2": "python3-psycopg2", "psycopg": "python3-psycopg",
            "sqlalchemy": "python3-sqlalchemy", "django": "python3-django"}
TABLE = """
DROP EXTENSION IF EXISTS kohiblad_jsonb_order, kohiblad_compat CASCADE;
DROP TABLE IF EXISTS goods, shop_good;
CREATE TABLE goods (id int PRIMARY KEY, doc kohiblad);
"""
# drivers.sh sets it where the variables of libpq lead to a server that has the extension.
HAS_SERVER = "KOHIBLAD_DRIVERS" in os.environ


def blocks_of(section):
    """The blocks of Python in a section of the page."""
    with open(os.path.join(TOP, "DRIVERS.md"), encoding="utf-8") as file:
        found = re.search(rf"^## {section}\n(.*?)(?=^## |\Z)", file.read(), re.M | re.S)
    return re.findall(r"^```python\n(.*?)^```", found[1], re.M | re.S)


class PageTest(unittest.TestCase):
    def run_block(self, block, has_server=True):
        """Runs the lines of a block in a process of their own, over an empty table."""
        for name, package in PACKAGES.items():
            if re.search(rf"^>>> (import|from) .*\b{name}\b", block, re.M) \
                    and importlib.util.find_spec(name) is None:
                self.skipTest(f"the drivers: needs the Debian package {package}")
        if has_server:
            if not HAS_SERVER:
                self.skipTest("the drivers in PostgreSQL: drivers.sh runs them")
            subprocess.run(["psql", "-Xqc", TABLE], check=True, stderr=subprocess.DEVNULL)
        with tempfile.TemporaryDirectory() as folder:
            path = os.path.join(folder, "block.txt")
            with open(path, "w", encoding="utf-8") as file:
                file.write(block)
            done = subprocess.run([sys.executable, "-W", "error::SyntaxWarning", "-m", "doctest",
                                   path], cwd=folder, stdout=subprocess.PIPE,
                                  stderr=subprocess.STDOUT)
        self.assertEqual(done.returncode, 0, done.stdout.decode())

    def test_psycopg2(self):
        block, = blocks_of("psycopg2")
        self.run_block(block)

    def test_psycopg(self):
        block, = blocks_of("psycopg 3")
        self.run_block(block)

    def test_sqlalchemy(self):
        block, _ = blocks_of("SQLAlchemy")
        self.run_block(block)

    def test_sqlalchemy_in_sqlite(self):
        _, block = blocks_of("SQLAlchemy")
        self.run_block(block, has_server=False)

    def test_django(self):
        block, = blocks_of("Django")
        self.run_block(block)


class TextTest(unittest.TestCase):
    def test_texts_of_columns(self):
        for value in (None, [1, {"a": Decimal("1.50")}], {"day": date(2020, 2, 29)}, b"\0\xff"):
            document = Document.of(value)
            self.assertEqual(bytes(read_text(write_text(value))), bytes(document))
            self.assertEqual(bytes(read_text(write_text(document).encode())), bytes(document))
        self.assertEqual(read_text('{"a": 1}'), Document.of({"a": 1}))
        self.assertIsNone(read_text(None))

    def test_refusals(self):
        with self.assertRaises(InvalidTextError):
            read_text("{")
        with self.assertRaises(InvalidDocumentError):
            read_text("\\x00")
        with self.assertRaises(TypeError):
            write_text(1.5)


@unittest.skipUnless(importlib.util.find_spec("sqlalchemy"),
                     "the drivers: needs the Debian package python3-sqlalchemy")
class SqlAlchemyTest(unittest.TestCase):
    def setUp(self):
        import sqlalchemy
        from kohiblad.sqlalchemy import KohibladType
        self.sqlalchemy = sqlalchemy
        self.doc = sqlalchemy.Column("doc", KohibladType)

    def in_postgres(self, expression):
        from sqlalchemy.dialects import postgresql
        compiled = expression.compile(dialect=postgresql.dialect())
        return str(compiled), list(compiled.params.values())

    def test_expressions(self):
        doc = self.doc
        for expression, text, values in (
                (doc["tags"][0], "(doc -> %(doc_1)s) -> %(param_1)s", ["tags", 0]),
                (doc["a", "b", 0], "doc #> %(doc_1)s::TEXT[]", [["a", "b", "0"]]),
                (doc["a"].astext, "doc ->> %(doc_1)s", ["a"]),
                (doc["a", "b"].astext, "doc #>> %(doc_1)s::TEXT[]", [["a", "b"]]),
                (doc["a"]["b"].astext, "(doc -> %(doc_1)s) ->> %(param_1)s", ["a", "b"]),
                (doc.astext, "doc #>> %(doc_1)s::TEXT[]", [[]]),
                (doc["n"].as_string(), "doc ->> %(doc_1)s", ["n"]),
                (doc["n"].as_integer(), "CAST(doc ->> %(doc_1)s AS INTEGER)", ["n"]),
                (doc["n"].as_float(), "CAST(doc ->> %(doc_1)s AS FLOAT)", ["n"]),
                (doc["n"].as_numeric(9, 2), "CAST(doc ->> %(doc_1)s AS NUMERIC(9, 2))", ["n"]),
                (doc["n"].as_boolean(), "CAST(doc ->> %(doc_1)s AS BOOLEAN)", ["n"]),
                (doc.text_of("id"), "doc ->> %(doc_1)s", ["id"]),
                (doc.text_of(["a", 1]), "doc #>> %(doc_1)s::TEXT[]", [["a", "1"]]),
                (doc.has_key("id"), "doc ? %(doc_1)s", ["id"]),
                (doc.has_key(doc.text_of("key")), "doc ? (doc ->> %(doc_1)s)", ["key"]),
                (doc.has_any(["a", "b"]), "doc ?| %(doc_1)s::TEXT[]", [["a", "b"]]),
                (doc.has_all(["a", "b"]), "doc ?& %(doc_1)s::TEXT[]", [["a", "b"]]),
                (doc.contains({"a": 1}), "doc @> %(doc_1)s", [{"a": 1}]),
                (doc.contains(doc["a"]), "doc @> (doc -> %(doc_1)s)", ["a"]),
                (doc.contained_by({"a": 1}), "doc <@ %(doc_1)s", [{"a": 1}]),
                (doc.path_exists("$.a"), "doc @? CAST(%(param_1)s AS jsonpath)", ["$.a"]),
                (doc.path_match("$.a > 1"), "doc @@ CAST(%(param_1)s AS jsonpath)", ["$.a > 1"]),
                (doc.delete_path(["a", "b"]), "doc #- %(doc_1)s::TEXT[]", [["a", "b"]]),
                (doc + {"a": 1}, "doc || %(doc_1)s", [{"a": 1}]),
                (doc.concat([1]), "doc || %(doc_1)s", [[1]]),
                (doc["a"] + doc["b"], "(doc -> %(doc_1)s) || (doc -> %(doc_2)s)", ["a", "b"]),
                (doc["id"] > 7, "(doc -> %(doc_1)s) > %(param_1)s", ["id", 7]),
                (doc["id"] == 7, "(doc -> %(doc_1)s) = %(param_1)s", ["id", 7])):
            self.assertEqual(self.in_postgres(expression)[1], values)
            shape = re.sub(r"%\(\w+\)s", "%s", self.in_postgres(expression)[0])
            self.assertEqual(shape, re.sub(r"%\(\w+\)s", "%s", text))

    def test_values_of_a_column(self):
        values = [Document.of({"day": date(2020, 2, 29)}), Document.of(None), None,
                  Document.parse("[1.50]")]
        engine = self.sqlalchemy.create_engine("sqlite://")
        table = self.sqlalchemy.Table("goods", self.sqlalchemy.MetaData(), self.doc)
        table.create(engine)
        with engine.begin() as connection:
            connection.execute(table.insert(), [{"doc": it} for it in values])
            found = connection.scalars(self.sqlalchemy.select(table.c.doc)).all()
        self.assertEqual([it and bytes(it) for it in found], [it and bytes(it) for it in values])


if __name__ == "__main__":
    unittest.main()
