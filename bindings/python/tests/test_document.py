"""Documents read in place: as a Mapping, a Sequence and texts."""
import collections.abc
import copy
import json
import subprocess
import sys
import threading
import unittest
from decimal import Decimal

from kohiblad import (ArrayDocument, DEPTH, Document, InvalidDocumentError, ObjectDocument,
                      ScalarDocument, dumps, loads)
from models import Values

ROW = '{"id":7,"price":1.50,"tags":["new",[1,{"é":null}]],"ok":true}'
# [false,10,{"k":"v"}], word by word on docs/FORMAT.md.
PAGE = bytes.fromhex("800000033000000020000002" "5000000e" "500a" "40000001"
                     "10000001" "10000001" "6b76")


def value_of(child):
    return child.value() if isinstance(child, Document) else child


def assert_refused_alike(test, call, value, document):
    """Both are refused by the same error, whose text says array where Python's says list."""
    with test.assertRaises(Exception) as expected:
        call(value)
    with test.assertRaises(type(expected.exception)) as refused:
        call(document)
    text = str(expected.exception).replace("list ind", "array ind")
    test.assertEqual(str(refused.exception), text)


class MappingTest(unittest.TestCase):
    def setUp(self):
        self.row = Document.parse(ROW)

    def test_is_a_mapping(self):
        self.assertIsInstance(self.row, ObjectDocument)
        self.assertIsInstance(self.row, collections.abc.Mapping)
        self.assertEqual(self.row.kind, "object")
        self.assertEqual(list(self.row), ["id", "ok", "price", "tags"])
        self.assertEqual(list(self.row.keys()), ["id", "ok", "price", "tags"])
        self.assertEqual(len(self.row), 4)
        self.assertEqual(len(self.row.items()), 4)

    def test_members(self):
        self.assertEqual(self.row["id"], 7)
        self.assertEqual(str(self.row["price"]), "1.50")
        self.assertIs(self.row["ok"], True)
        self.assertIsNone(self.row["tags"][1][1]["é"])
        self.assertEqual(self.row.get("id"), 7)
        self.assertEqual(self.row.get("x", "none"), "none")
        self.assertIn("id", self.row)

    def test_no_such_member(self):
        for name in ("x", "", "i", "idd", 7, None, "\udc00"):
            self.assertNotIn(name, self.row)
            with self.assertRaises(KeyError):
                self.row[name]

    def test_keys_that_are_none_are_refused_as_by_a_dict(self):
        value = {"id": 7}
        for key in ("x", 7, 1.5, None, ("id",), b"id", [], {}, {"id"}):
            assert_refused_alike(self, lambda it: it[key], value, self.row)
        for key in ([], {}):
            assert_refused_alike(self, lambda it: key in it, value, self.row)
            assert_refused_alike(self, lambda it: it.get(key), value, self.row)

    def test_views_are_the_members(self):
        values = Values(seed=8)
        for _ in range(300):
            value = {values.text(): values.any(depth=2) for _ in range(5)}
            document = Document.of(value)
            self.assertEqual({name: value_of(it) for name, it in document.items()}, value)
            self.assertEqual({name: value_of(document[name]) for name in document}, value)
            names = sorted(value, key=str.encode)
            self.assertEqual([value_of(it) for it in document.values()],
                             [value[name] for name in names])

    def test_cannot_be_changed(self):
        with self.assertRaises(TypeError):
            self.row["id"] = 8
        with self.assertRaises(AttributeError):
            self.row.other = 8


class SequenceTest(unittest.TestCase):
    def test_is_a_sequence(self):
        array = Document.of([1, "a", None])
        self.assertIsInstance(array, ArrayDocument)
        self.assertIsInstance(array, collections.abc.Sequence)
        self.assertEqual(array.kind, "array")
        self.assertIn("a", array)
        self.assertEqual(array.index("a"), 1)
        self.assertEqual(array.count(None), 1)
        with self.assertRaises(ValueError):
            array.index("x")

    def test_reads_as_a_list(self):
        values = Values(seed=9)
        for size in range(8):
            value = [values.any(depth=1) for _ in range(size)]
            array = Document.of(value)
            self.assertEqual(len(array), size)
            self.assertEqual([value_of(it) for it in array], value)
            self.assertEqual([value_of(it) for it in reversed(array)], value[::-1])
            self.assertEqual([value_of(it) for it in array[1::2]], value[1::2])
            for index in range(-size, size):
                self.assertEqual(value_of(array[index]), value[index])
            for index in (size, -size - 1, 2**64, -2**64):
                with self.assertRaises(IndexError):
                    array[index]

    def test_indexes_that_are_none_are_refused_as_by_a_list(self):
        value, array = [1, 2], Document.parse("[1,2]")
        for index in (2, 5, -3, "a", 1.5, None, (0,), b"", slice("a"), slice(1, 2, 0)):
            assert_refused_alike(self, lambda it: it[index], value, array)

        class Second:
            def __index__(self):
                return 1

        self.assertEqual(array[Second()], 2)
        self.assertEqual(array[True], 2)

    def test_many_items_are_walked_in_one_pass(self):
        count = 20_000
        array = Document.of(list(range(count)))
        self.assertEqual(list(array), list(range(count)))


class TextTest(unittest.TestCase):
    def test_the_document_of_the_page(self):
        document = Document(PAGE)
        self.assertEqual(document.value(), [False, 10, {"k": "v"}])
        self.assertEqual(bytes(Document.of([False, 10, {"k": "v"}])), PAGE)
        self.assertEqual(bytes(document), PAGE)
        self.assertEqual(bytes(Document(bytearray(PAGE))), PAGE)

    def test_texts(self):
        document = Document.parse(' {"b": [1.50, {}], "a": "\\u00e9"}')
        self.assertEqual(str(document), '{"a":"é","b":[1.50,{}]}')
        self.assertEqual(document.pretty(),
                         '{\n  "a": "é",\n  "b": [\n    1.50,\n    {}\n  ]\n}')
        self.assertEqual(repr(document), '<ObjectDocument {"a":"é","b":[1.50,{}]}>')
        self.assertEqual(len(repr(Document.of("a" * 100))), len("<ScalarDocument >") + 70)

    def test_canonical_rewrites_old_forms(self):
        """A decimal with the unused byte, and a whole number in more bytes than it needs."""
        digits = "00000000000000000000000000000096"
        old = Document(bytes.fromhex("20000000" "20000013" "70" + digits + "ff02"))
        self.assertEqual(old.value(), Decimal("1.50"))
        canonical = bytes.fromhex("20000000" "20000012" "70" + digits + "02")
        self.assertEqual(bytes(old.canonical()), canonical)
        self.assertEqual(old, Document.parse("1.50"))
        wide = bytes.fromhex("20000000" "20000003" "500005")
        narrow = bytes.fromhex("20000000" "20000002" "5005")
        self.assertEqual(bytes(Document(wide).canonical()), narrow)

    def test_a_scalar(self):
        for text, kind in (("null", "null"), ("true", "boolean"), ("1.5", "number"),
                           ('"a"', "string")):
            scalar = Document.parse(text)
            self.assertIsInstance(scalar, ScalarDocument)
            self.assertEqual(scalar.kind, kind)
            self.assertEqual(scalar.value(), loads(text))
        self.assertEqual(Document.of(b"").kind, "extension")
        self.assertEqual(copy.deepcopy(scalar), scalar)


    def test_json_takes_the_text_and_not_the_document(self):
        document = Document.parse('{"a":[1,true]}')
        with self.assertRaises(TypeError):
            json.dumps(document)
        self.assertEqual(json.loads(str(document)), document.value())
        self.assertEqual(dumps({"row": document}), '{"row":{"a":[1,true]}}')


class RoomTest(unittest.TestCase):
    def test_results_longer_than_is_guessed(self):
        zeros = [0] * 50_000
        self.assertEqual(Document.parse("[" + ",".join("0" * 50_000) + "]").value(), zeros)
        longest = [Decimal("1E-255")] * 1000
        text = str(Document.of(longest))
        self.assertEqual(len(text), 1000 * 258 + 1)
        self.assertEqual(Document.parse(text).value(), longest)


class DepthTest(unittest.TestCase):
    def test_as_deep_as_is_allowed(self):
        text = "[" * DEPTH + "]" * DEPTH
        document = Document.parse(text)
        self.assertEqual(str(document), text)
        self.assertEqual(bytes(Document(bytes(document))), bytes(document))
        self.assertEqual(document, document.canonical())
        for value in (document.value(), Document.of(document.value()).value()):
            depth = 0
            while value is not None:
                value, depth = (value[0] if value else None), depth + 1
            self.assertEqual(depth, DEPTH)

    def test_as_deep_as_is_allowed_around_an_extension_value(self):
        value = b"x"
        for _ in range(DEPTH):
            value = {"a": value}
        value = Document.of(value).value()
        while isinstance(value, dict):
            value = value["a"]
        self.assertEqual(value, b"x")

    def test_bytes_that_nest_too_deep(self):
        data = bytes.fromhex("80000000")
        for _ in range(20_000):
            data = bytes.fromhex("80000001") + (0x50000000 | len(data)).to_bytes(4, "big") + data
        for depth in (0, 1, DEPTH):
            with self.assertRaises(InvalidDocumentError):
                Document(data, depth)


class ThreadTest(unittest.TestCase):
    def test_a_depth_keeps_texts_within_a_small_stack(self):
        """README's 64 levels, in a process that would end by a signal without them."""
        program = (
            "import threading\n"
            "from kohiblad import Document, TooDeepError\n"
            "def run():\n"
            "    for open, close in (('[', ']'), ('{\"a\":', '}')):\n"
            "        text = open * 64 + '0' + close * 64\n"
            "        assert str(Document.parse(text, depth=64)) == text\n"
            "        for deep in (open * 65 + '0' + close * 65, open * 100_000):\n"
            "            try:\n"
            "                Document.parse(deep, depth=64)\n"
            "            except TooDeepError as error:\n"
            "                print(error.name)\n"
            "threading.stack_size(256 << 10)\n"
            "thread = threading.Thread(target=run)\n"
            "thread.start()\n"
            "thread.join()\n")
        done = subprocess.run([sys.executable, "-c", program], stdout=subprocess.PIPE)
        self.assertEqual((done.returncode, done.stdout), (0, b"TooDeep\n" * 4))

    def test_threads_share_nothing(self):
        texts = [f'{{"n":{number},"a":[{number}.50,"{"x" * number}"]}}' for number in range(300)]
        wrong = []

        def run(order):
            for _ in range(10):
                for text in order:
                    document = Document.parse(text)
                    if str(document) != str(Document.of(document.value())) or \
                            document["a"][0] != Decimal(f"{document['n']}.50"):
                        wrong.append(text)

        threads = [threading.Thread(target=run, args=(it,)) for it in (texts, texts[::-1])]
        for thread in threads:
            thread.start()
        for thread in threads:
            thread.join()
        self.assertEqual(wrong, [])


if __name__ == "__main__":
    unittest.main()
