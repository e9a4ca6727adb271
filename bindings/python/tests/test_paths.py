"""Paths of SQL/JSON: the examples of the page on paths, and random ones beside a model."""
import os
import pickle
import sys
import unittest

from kohiblad import Document, Path, PathError, QueryError, TooDeepError
from test_stack import LEAST_STACK, in_thread

PATHS = os.environ.get("KOHIBLAD_PATHS", "")
if PATHS:
    sys.path.append(PATHS)

ROUNDS = 3000
ROW = Document.parse('{"lines": [{"price": 3}, {"price": 5.0}], "note": "n/a"}')


def asked(document, path, variables=None):
    """The values of a path, or of what came before its error, and the error's name."""
    try:
        return document.select(path, variables), None
    except QueryError as error:
        if error.name == "UndefinedVariable":
            return [], error.name
        return document.select(path, variables, silent=True), error.name


def shown(values):
    return [str(Document.of(it)) for it in values]


@unittest.skipUnless(PATHS, "the model of paths is in the repository")
class TestPathsBesideTheModel(unittest.TestCase):
    def assert_as_model(self, document, path, variables, expected):
        from texts import write_document
        values, error = asked(Document.parse(document), path, variables)
        told = expected.error and expected.error.name.title().replace("_", "")
        wanted = [Document.parse(write_document(it)) for it in expected.values]
        self.assertEqual((shown(values), error), (shown(wanted), told), (path, document))

    def test_examples(self):
        from examples import examples, examples_of_page, expected_of
        count = 0
        for document, path, *expected in (*examples(), *examples_of_page()):
            self.assert_as_model(document, path, None, expected_of(*expected))
            count += 1
        self.assertGreater(count, 100)

    def test_random_paths(self):
        from maker import VARIABLES, Maker
        from meaning import path_gives
        from texts import write_document, write_path
        maker = Maker(20261130)
        variables = Document.parse(write_document(VARIABLES))
        for _ in range(ROUNDS):
            query, document = maker.query(), maker.document(3)
            self.assert_as_model(write_document(document), write_path(query), variables,
                                 path_gives(query, VARIABLES, document))


class TestPaths(unittest.TestCase):
    def test_a_path_that_was_read(self):
        path = Path("$.lines [*] ? (@.price>4)")
        self.assertEqual(str(path), '$."lines"[*]?(@."price" > 4)')
        self.assertEqual(path.text, "$.lines [*] ? (@.price>4)")
        self.assertEqual(shown(ROW.select(path)), ['{"price":5.0}'])
        self.assertEqual(Path(b"$.a"), Path('lax $."a"'))
        self.assertEqual(hash(Path("$.a")), hash(Path('$."a"')))
        self.assertNotEqual(Path("$.a"), Path("strict $.a"))
        self.assertNotEqual(Path("$.a"), "$.a")
        self.assertEqual(pickle.loads(pickle.dumps(path)), path)
        with self.assertRaises(AttributeError):
            path._data = b"$"

    def test_kinds_do_not_compare(self):
        rows = [Document.parse(it) for it in ('{"t":"n/a"}', '{"t":950}', '{"t":null}')]
        for path in ("$?(@.t > 890)", "$ ? (@.t>890)", "$?(890 < @.t)"):
            self.assertEqual([len(it.select(path)) for it in rows], [0, 1, 0], path)
        self.assertEqual([it.matches("$.t > 890") for it in rows], [None, True, False])

    def test_tests(self):
        self.assertIs(ROW.matches("$.lines[*].price > 4"), True)
        self.assertIs(ROW.matches("$.lines[*].price > 9"), False)
        self.assertIsNone(ROW.matches("$.note > 4"))
        self.assertRaises(QueryError, ROW.matches, "$.lines")
        self.assertIsNone(ROW.matches("$.lines", silent=True))
        self.assertIs(ROW.exists("$.lines[*] ? (@.price > 4)"), True)
        self.assertIs(ROW.exists("$.none"), False)
        self.assertRaises(QueryError, ROW.exists, "strict $.none")
        self.assertIsNone(ROW.exists("strict $.none", silent=True))

    def test_variables(self):
        path = "$.lines[*].price ? (@ > $least)"
        for variables in ({"least": 4}, Document.of({"least": 4})):
            self.assertEqual(ROW.select(path, variables), [5])
        for variables in (None, {}, {"most": 4}):
            with self.assertRaises(QueryError) as refused:
                ROW.select(path, variables, silent=True)
            self.assertEqual(refused.exception.name, "UndefinedVariable")
        for variables in ([], 5, "least"):
            self.assertRaises(TypeError, ROW.select, path, variables)

    def test_errors(self):
        with self.assertRaises(QueryError) as refused:
            ROW.select("strict $.none")
        self.assertEqual(refused.exception.name, "MemberNotFound")
        self.assertIn("strict $.none", str(refused.exception))
        self.assertEqual(Document.parse('[-1, "a"]').select("$[*].abs()", silent=True), [1])
        self.assertEqual(ROW.select("strict $.none", silent=True), [])
        for path, offset in (("$.total + ", 10), ("$.a ? (@.b > )", 13), ("$['a']", 2), ("$[-", 3),
                             ("$..a", 2), ("$.a = 1", 4)):
            for call in (Path, ROW.select, ROW.exists, ROW.matches):
                with self.assertRaises(PathError) as refused:
                    call(path)
                self.assertEqual(refused.exception.offset, offset, path)
                lines = str(refused.exception).split("\n")
                self.assertEqual(lines[:2], ["the text is not a path:", path])
                self.assertTrue(lines[2].startswith(" " * offset + "^ expected "), lines)
                self.assertIn(f"at byte {offset}", refused.exception.report)
                self.assertEqual(str(pickle.loads(pickle.dumps(refused.exception))),
                                 str(refused.exception))
        for path, told in (("$.a.double()", ".double()"), ("$.a / 2", "`/`"),
                           ('$.a like_regex "b"', "like_regex"), ("$.a.datetime()", ".datetime()")):
            with self.assertRaises(PathError) as refused:
                Path(path)
            self.assertIn(told, str(refused.exception))

    def test_a_thread_with_little_stack(self):
        deep = "$" + " ? (exists(@" * 25 + "))" * 25
        self.assertEqual(ROW.select(deep), ROW.select("$"))
        _, error = in_thread(LEAST_STACK, lambda: ROW.select(deep))
        self.assertIsInstance(error, TooDeepError)
        found, error = in_thread(LEAST_STACK, lambda: ROW.exists("$.note"))
        self.assertTrue(error is None and found or isinstance(error, TooDeepError))


if __name__ == "__main__":
    unittest.main()
