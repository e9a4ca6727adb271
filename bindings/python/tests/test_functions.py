"""Documents that are asked and changed without being unpacked."""
import doctest
import subprocess
import sys
import unittest
from collections import OrderedDict, UserDict
from decimal import Decimal
from enum import IntEnum
from types import MappingProxyType
from unittest import mock

import kohiblad
from kohiblad import (ArrayDocument, DEPTH, Document, FloatError, InvalidTextError, KohibladError,
                      NumberError, ObjectDocument, PathError, ScalarDocument, TooDeepError,
                      TooManyStepsError, _changes, _document)
from models import (FewNames, at_path, by_match, contains, distinct, edited, has_key, merged,
                    picked, scalars, stripped)

ROUNDS = 3000
# The deepest array.
DEEPEST = Document.parse("[" * DEPTH + "]" * DEPTH)
NO_STEPS = (None, 1.5, True, b"a", bytearray(b"a"), memoryview(b"a"), Decimal(1), {"a"}, {"a": 1},
            object(), [None], ["a", b"b"], [["a"]], ("a", False), [1.0])


class Size(IntEnum):
    LARGE = 1


class Name(str):
    def encode(self, *arguments):
        return b"x"


def value_of(it):
    return it.value() if isinstance(it, Document) else it


class FunctionTest(unittest.TestCase):
    def assert_is(self, document, value):
        """It is the document of the value, in the form that is written today."""
        self.assertEqual(bytes(document), bytes(Document.of(value)))
        self.assertIs(type(document), type(Document.of(value)))


class ExampleTest(unittest.TestCase):
    def test_the_examples_of_the_methods(self):
        result = doctest.testmod(_document)
        self.assertEqual(result.failed, 0)
        self.assertGreater(result.attempted, 20)


class ContainsTest(FunctionTest):
    def test_known_answers(self):
        for left, right, expected in (
                ([1, 2], [2, 2, 1], True), ([1, 2], 2, True), (2, [2], False),
                ([[1, 2]], 2, False), ([[1, 2]], [2], False), ([[1, 2]], [[2]], True),
                ({"a": [1, 2]}, {"a": 2}, False), ({"a": 1, "b": 2}, {"b": 2}, True),
                (5, Decimal("5.0"), True), (1, True, False), ([], [], True), ({}, [], False),
                ([{}], [[]], False), (None, None, True), ([None], None, True),
                ({"a": {"b": [{"c": 1, "d": 2}]}}, {"a": {"b": [{"d": 2}]}}, True)):
            with self.subTest(left=left, right=right):
                self.assertIs(Document.of(left).contains(right), expected)
                self.assertIs(Document.of(left).contains(Document.of(right)), expected)

    def test_answers_as_the_model(self):
        values, found = FewNames(seed=41), 0
        for _ in range(ROUNDS):
            left = values.any(depth=4)
            right = values.part(left)
            expected = contains(left, right)
            document = Document.of(left)
            self.assertIs(document.contains(right), expected, (left, right))
            if expected:
                found += 1
                self.assertLessEqual(set(Document.of(right).index_keys()),
                                     set(document.index_keys()))
        self.assertTrue(ROUNDS / 2 < found < ROUNDS)

    def test_a_budget_of_steps(self):
        left = Document.of([[number] for number in range(100)])
        right = Document.of([[number] for number in range(99, -1, -1)])
        for steps in (0, 1, 100):
            with self.assertRaises(TooManyStepsError) as refused:
                left.contains(right, steps)
            self.assertIsInstance(refused.exception, KohibladError)
            self.assertEqual((refused.exception.status, refused.exception.name),
                             (18, "TooManySteps"))
        for steps in (201 * 201, 2**63, 2**64, 2**80, None):
            self.assertTrue(left.contains(right, steps=steps))
        for steps in (-1, -2**80):
            with self.assertRaisesRegex(ValueError, "steps"):
                left.contains(right, steps)
        for steps in ("1", 1.5):
            with self.assertRaises(TypeError):
                left.contains(right, steps)

    def test_what_is_no_value_is_refused(self):
        with self.assertRaises(FloatError):
            DEEPEST.contains([1.5])
        with self.assertRaises(TypeError):
            DEEPEST.contains(object())


class KeyTest(FunctionTest):
    def test_has_key_as_the_model(self):
        values = FewNames(seed=42)
        for _ in range(ROUNDS):
            value, name = values.any(depth=2), values.text()
            document = Document.of(value)
            is_there = has_key(value, name)
            self.assertIs(document.has_key(name), is_there)
            top, = Document.of(name).top_keys()
            self.assertIs(top in document.top_keys(), is_there)
            if document.kind in ("array", "object"):
                self.assertIs(name in document, is_there)

    def test_some_and_all_of_several_keys_as_the_model(self):
        values, counted = FewNames(seed=47), set()
        for number in range(ROUNDS):
            value = values.any(depth=2)
            names = [values.text() for _ in range(number % 5)]
            found = [has_key(value, name) for name in names]
            document = Document.of(value)
            self.assertIs(document.has_any_key(*names), any(found), (value, names))
            self.assertIs(document.has_all_keys(*names), all(found), (value, names))
            counted.add((any(found), all(found)))
        self.assertEqual(len(counted), 4)

    def test_many_keys(self):
        names = [f"key {number}" for number in range(5_000)]
        document = Document.of(dict.fromkeys(names))
        for it in (document, Document.of(names)):
            self.assertTrue(it.has_all_keys(*names, *reversed(names)))
            self.assertFalse(it.has_all_keys(*names, "key 5000"))
            self.assertTrue(it.has_any_key("x", "key 4999", "y"))
            self.assertFalse(it.has_any_key("x", "key 5000", "y"))

    def test_what_is_no_key(self):
        self.assertFalse(Document.of({"\ufffd": 1}).has_key("\ud800"))
        for value in ({"\ufffd": 1, "a": 1}, ["\ufffd", "a"]):
            document = Document.of(value)
            self.assertFalse(document.has_any_key("\ud800"))
            self.assertTrue(document.has_any_key("\ud800", "a"))
            self.assertFalse(document.has_all_keys("a", "\ud800"))
        for name in (None, 1, b"a", ["a"]):
            document = Document.of({"a": 1})
            for call in (document.has_key, document.has_any_key, document.has_all_keys):
                with self.assertRaisesRegex(TypeError, "a key is a str"):
                    call(name)

    def test_index_keys(self):
        values = FewNames(seed=43)
        for _ in range(300):
            value = values.any(depth=4)
            keys = Document.of(value).index_keys()
            self.assertEqual(len(keys), scalars(value))
            self.assertTrue(all(type(it) is int and 0 <= it < 2**64 for it in keys))
        self.assertEqual(Document.of(5).index_keys(), Document.parse("[[5.0]]").index_keys())
        self.assertNotEqual(Document.of({"a": 5}).index_keys(), Document.of(5).index_keys())
        for value in ([], {}, {"a": [{}]}):
            self.assertEqual(Document.of(value).index_keys(), [])
        self.assertEqual(Document.of([1, {"a": "b"}]).top_keys(), [])

    def test_more_keys_than_the_usual_room_holds(self):
        numbers = Document.of(list(range(50_000)))
        self.assertEqual(len(set(numbers.index_keys())), 50_000)
        names = Document.of({f"n{number}": None for number in range(50_000)})
        self.assertEqual(len(set(names.top_keys())), 50_000)


class PathTest(FunctionTest):
    def test_get_path_as_the_model(self):
        values, found = FewNames(seed=44), 0
        for _ in range(ROUNDS):
            value = values.any(depth=4)
            path = values.path(value)
            expected = at_path(value, path)
            missing = object()
            child = Document.of(value).get_path(*path, default=missing)
            # In a long document the way is another one.
            long = Document.of([0, {"": value, "long": "x" * 5000}])
            other = long.get_path(1, "", *path, default=missing)
            self.assertEqual(type(other), type(child))
            if expected:
                self.assertEqual(bytes(Document.of(other)), bytes(Document.of(child)))
                found += 1
                self.assert_is(Document.of(child), expected[0])
                self.assertIs(isinstance(child, Document), isinstance(expected[0], (list, dict)))
                self.assertIs(type(value_of(child)), type(expected[0]))
            else:
                self.assertIs(child, missing)
        self.assertTrue(ROUNDS / 2 < found < ROUNDS)

    def test_paths_that_lead_nowhere(self):
        row = Document.parse('{"a": [1, {"b": null}], "\ufffd": 2}')
        for path in (("x",), ("a", 2), ("a", -3), ("a", 2**64), ("a", -2**64), ("a", "0"), (0,),
                     ("a", 0, 0), ("a", 1, "b", "c"), ("\ud800",), ("a",) * 5000):
            self.assertIsNone(row.get_path(*path))
            self.assertEqual(row.get_path(*path, default="none"), "none")
        self.assertIs(row.get_path(), row)
        self.assertEqual(Document.of(5).get_path(), 5)
        self.assertIsNone(Document.of(5).get_path("a"))
        self.assertEqual(row.get_path("a", Size.LARGE), Document.of({"b": None}))
        self.assertEqual(len(DEEPEST.get_path(*[0] * (DEPTH - 1), default="none")), 0)

    def test_many_values_and_texts_that_are_no_paths(self):
        numbers = list(range(50_000))
        self.assertEqual(Document.of(numbers).select("$[*]"), numbers)
        self.assertEqual(Document.of([[n] for n in numbers]).select(b"$[*][0]"), numbers)
        self.assertEqual(len(DEEPEST.select("$" + "[*]" * (DEPTH - 1))), 1)
        self.assertEqual(DEEPEST.select("$" + "[*]" * 10 * DEPTH), [])
        for text, offset in (("", 0), ("a", 0), ("$.", 2), ("$[", 2), ("$[x]", 2), ("$[1 to]", 6),
                             ("$.a-", 4), (".a", 0), ("$.a = 1", 4)):
            with self.assertRaises(PathError) as refused:
                Document.of(5).select(text)
            self.assertEqual((refused.exception.name, refused.exception.offset),
                             ("OtherKind", offset), text)
        self.assertRaises(InvalidTextError, Document.of(5).select, b"$.\xff")
        self.assertRaises(InvalidTextError, Document.of(5).select, "$.\ud800")
        self.assertRaises(TypeError, Document.of(5).select, 5)

    def test_paths_given_as_names(self):
        row = Document.of({"": 0, "a/b": [1, {"m~n": 2}], "0": {"x y": 3}})
        for text, path in (("", []), ("/", [""]), ("/a~1b/0", ["a/b", 0]), ("{}", []),
                           ("/a~1b/-1/m~0n", ["a/b", -1, "m~n"]), ('{0,"x y"}', ["0", "x y"]),
                           ('{"",0}', ["", "0"]), ("/a~1b/01/0", ["a/b", "01", "0"]),
                           ('$."a/b"[#-1]', ["a/b", -1]), (b"/a~1b/-", ["a/b", 2**64 - 1]),
                           ('$."a/b"[last - 1] ."x\\"y\\u00e9"', ["a/b", -2, 'x"y\u00e9']),
                           ("strict $.a[0] [ last+1 ]", ["a", 0, 2**64 - 1]), ("$", [])):
            self.assertEqual(row.path_of(text), path, text)
        self.assertEqual(row.get_path(*row.path_of("/a~1b/1/m~0n")), 2)
        self.assertEqual(row.set(row.path_of("/a~1b/-"), 9).get_path("a/b", 2), 9)
        self.assertEqual(Document.of([5]).path_of("/" + "9" * 30), [2**64 - 1])
        self.assertEqual(Document.of(5).path_of("/0"), ["0"])
        for text in ("a", "/~", "/~2", "{a", "{a,}", "{NULL}", "{a b}", "$.total = 5", "$.a b"):
            with self.assertRaises(PathError) as refused:
                row.path_of(text)
            self.assertIn("not a path", str(refused.exception))
        for text in ("$[*]", "$.a[0 to 1]", "$.a > 1", "$.a + 1", "$.**", "$.a.size()", "$x",
                     "$.a ? (@ > 1)", "$[0, 1]", "$[last + 2]", "$[$.a]"):
            with self.assertRaisesRegex(PathError, "keys and indexes alone"):
                row.path_of(text)
        self.assertRaises(InvalidTextError, row.path_of, b"/\xff")
        self.assertRaises(TypeError, row.path_of, 5)

    def test_a_text_that_looks_like_a_document_is_none(self):
        text = bytes(Document.of({"b": None})).decode()
        for row in ({"a": text}, {"a": text, "long": "x" * 5000}):
            document = Document.of(row)
            self.assertEqual(document.get_path("a", "b", default="none"), "none")
            self.assert_is(document.set(["a", "b"], 1), row)
            self.assert_is(document.merge({"a": {"b": 1}}), {**row, "a": {"b": 1}})

    def test_a_child_as_a_document(self):
        values = FewNames(seed=45)
        for _ in range(300):
            items, members = ([values.any(depth=2) for _ in range(4)] for _ in range(2))
            array, row = Document.of(items), Document.of(dict(zip("abcd", members)))
            for index in range(-4, 4):
                self.assert_is(array.item(index), items[index])
            for name, value in zip("abcd", members):
                self.assert_is(row.member(name), value)
        long = Document.of(["x" * 300, b"y" * 300])
        self.assertIsInstance(long.item(0), ScalarDocument)
        self.assertEqual([it.value() for it in map(long.item, (0, 1))], ["x" * 300, b"y" * 300])
        with self.assertRaises(IndexError):
            long.item(2)
        with self.assertRaises(TypeError):
            long.item("a")
        for name in ("x", "\ud800", 5):
            with self.assertRaises(KeyError):
                row.member(name)
        with self.assertRaises(AttributeError):
            long.member("a")

    def test_steps_that_are_none_are_refused_by_each_call(self):
        row = Document.parse('{"a": [1]}')
        for path in NO_STEPS:
            for call in (lambda it: row.set(it, 1), lambda it: row.insert(it, 1), row.without,
                         lambda it: row.without("a", it),
                         lambda it: row.without(*["a"] * 20, it)):
                with self.subTest(path=path):
                    with self.assertRaisesRegex(TypeError, "a step of a path is a str or an int"):
                        call(path)
        for step in (None, 1.5, True, b"a", ["a"]):
            with self.assertRaisesRegex(TypeError, "a step of a path is a str or an int"):
                row.get_path(step)
        for path in ("\ud800", ["a", "\udfff"]):
            for call in (lambda it: row.set(it, 1), row.without):
                with self.assertRaises(InvalidTextError):
                    call(path)
        with self.assertRaises(InvalidTextError):
            row.without(*["a"] * 20, "\ud800")


class PickTest(FunctionTest):
    def test_as_the_model(self):
        values = FewNames(seed=48)
        for _ in range(ROUNDS):
            value = values.any(depth=3)
            names = [it for it in values.path(value) if isinstance(it, str)] + ["a", "none"]
            document = Document.of(value)
            self.assert_is(document.pick(*names), picked(value, names, True))
            self.assert_is(document.without(*names), picked(value, names, False))
            self.assert_is(document.pick(), {} if isinstance(value, dict) else value)

    def test_names_that_are_none_are_refused(self):
        row = Document.parse('{"a": [1]}')
        for call in (row.pick, row.member_key):
            for name in (5, None, b"a", ["a"]):
                with self.assertRaisesRegex(TypeError, "a key is a str"):
                    call("a", name)
            with self.assertRaises(InvalidTextError):
                call("a", "\ud800")
        self.assert_is(row.pick(Name("a")), row)
        self.assertEqual(row.member_key(Name("a")), row.member("a").key())

    def test_keys_of_members(self):
        row = Document.parse('{"a": [1], "b": 5.0}')
        self.assertEqual(row.member_key(), b"")
        self.assertEqual(row.member_key("b", "c", "a"),
                         Document.of(5).key() + b"\0" + Document.of([1]).key())
        self.assertEqual(Document.of([1]).member_key("a", "b"), b"\0\0")


class SetTest(FunctionTest):
    def test_as_the_model(self):
        values = FewNames(seed=49)
        for _ in range(ROUNDS):
            value, other = [values.any(depth=2) for _ in range(5)], values.any(depth=3)
            if value[0] is None:
                value = values.any(depth=2)
            document = Document.of(value)
            matched, rest = by_match(value, other, self.are_equal)
            self.assert_is(document.distinct(), distinct(value, self.are_equal))
            self.assert_is(document.intersection(other), matched)
            self.assert_is(document.difference(Document.of(other)), rest)
            self.assertIs(document.overlaps(other), bool(matched))

    @staticmethod
    def are_equal(left, right):
        return Document.of(left) == Document.of(right)

    def test_an_array_around_the_deepest_document_is_refused(self):
        deepest = Document.parse('{"a":' * DEPTH + "0" + "}" * DEPTH)
        for call in (deepest.distinct, lambda: deepest.difference([]),
                     lambda: deepest.intersection(deepest)):
            with self.assertRaises(TooDeepError):
                call()
        self.assert_is(deepest.difference(deepest), [])
        self.assert_is(DEEPEST.distinct(), DEEPEST)
        self.assertTrue(deepest.overlaps(deepest))


class EditTest(FunctionTest):
    def test_edits_as_the_model(self):
        values = FewNames(seed=46)
        for _ in range(ROUNDS):
            value, new = values.any(depth=4), values.any(depth=2)
            path = values.path(value)
            document = Document.of(value)
            self.assert_is(document.set(path, new), edited(value, path, "put", new))
            self.assert_is(document.insert(path, Document.of(new)),
                           edited(value, path, "insert", new))
            self.assert_is(document.without(path), edited(value, path, "remove"))
            self.assert_is(document, value)

    def test_forms_of_a_path(self):
        row = Document.parse('{"a": [1, 2], "x": 0}')
        for path in (["a", 1], ("a", -1), Document.of(["a", 1]), ("a", Size.LARGE),
                     [Name("a"), 1], ("a", 1)):
            self.assert_is(row.set(path, 5), {"a": [1, 5], "x": 0})
        self.assert_is(row.set(Name("a"), 5), {"a": 5, "x": 0})
        self.assert_is(row.set("a\"\n\0", 5), {"a": [1, 2], "a\"\n\0": 5, "x": 0})
        self.assert_is(row.set("", 5), {"": 5, "a": [1, 2], "x": 0})
        long = "n" * 5000
        self.assert_is(row.set(long, 5).set([long, 1], 6).without("a"), {long: 5, "x": 0})
        self.assert_is(row.set([], 5), 5)
        self.assert_is(row.insert([], 5), row)
        self.assert_is(row.without([]), row)
        self.assert_is(row.without(), row)
        array = Document.parse("[1, 2]")
        for far in (2, 2**31, 2**63, 2**64, 10**50):
            self.assert_is(array.set(far, 5), [1, 2, 5])
            self.assert_is(array.insert(-far - 1, 5), [5, 1, 2])
            self.assert_is(array.without(far, -far - 1), [1, 2])

    def test_paths_that_lead_nowhere_change_nothing(self):
        row = Document.parse('{"a": [1, 2], "x": 0}')
        for path in (["b", "c"], ["x", "y"], [0], ["a", "b"], ["a", 5, 0], ["a"] * 5000):
            self.assert_is(row.set(path, DEEPEST), row)
            self.assert_is(row.insert(path, DEEPEST), row)
            self.assert_is(row.without(path), row)
        self.assert_is(row.insert("a", DEEPEST), row)
        self.assert_is(Document.of(5).set("a", 1), 5)

    def test_without_many_names(self):
        names = [f"n{number}" for number in range(40)]
        row = {name: [number, {"a": b"x"}] for number, name in enumerate(names)}
        document = Document.of(row)
        for count in range(0, 40, 3):
            left = {name: row[name] for name in names[count:]}
            self.assert_is(document.without(*names[:count]), left)
            self.assert_is(document.without(*names[:count], "x", "\0", *names[:count]), left)
        self.assert_is(document.without(*names), {})
        self.assert_is(document.without(*map(Name, names)), {})
        self.assert_is(Document.of(names).without(*names), names)
        self.assert_is(Document.of(names).without(*[0] * 39), names[39:])

    def test_old_forms_are_rewritten(self):
        """A whole number in more bytes than it needs is not kept, also where nothing changes."""
        wide = bytes.fromhex("80000001" "20000003" "500005")
        old = Document(wide)
        self.assertNotEqual(wide, bytes(Document.of([5])))
        for document in (old.set(1, 6).without(1), old.insert("x", 0), old.without(7), old + [],
                         old.without_nulls(), Document.of([[]]).set(0, old).get_path(0)):
            self.assert_is(document, [5])
        inner = Document(bytes.fromhex("40000001" "10000001" "5000000b" "61") + wide)
        for document in (inner | {}, inner.merge({}), inner.merge({"b": None}),
                         inner.merge({"b": {}}).without("b"), inner.without(*"bcdefghijklm"),
                         Document.of({}).merge(inner), Document.of(1).merge(inner)):
            self.assert_is(document, {"a": [5]})
        self.assert_is(Document.of({}).merge(old), [5])
        outer = Document(bytes.fromhex("40000001" "10000001" "50000018" "6f") + bytes(inner))
        for document in (outer.merge({"o": {}}), outer.merge({"o": {"b": None}}),
                         outer.merge({"o": {"b": {}}}).without(["o", "b"])):
            self.assert_is(document, {"o": {"a": [5]}})

    def test_values_that_are_refused(self):
        row = Document.parse('{"a": 1}')
        for error, value in ((FloatError, 1.5), (TypeError, object()), (NumberError, 2**127),
                             (InvalidTextError, "\ud800"), (TypeError, {1: 2})):
            for call in (lambda: row.set("a", value), lambda: row.insert("a", value),
                         lambda: row | {"a": value}, lambda: row.merge({"b": value}),
                         lambda: Document.of([]) + [value]):
                with self.assertRaises(error):
                    call()

    def test_as_deep_as_is_allowed(self):
        inside = DEEPEST.get_path(0)
        for document in (Document.of([5]).set(0, inside), Document.of([]).insert(0, inside),
                         Document.of([5]).set([], DEEPEST), DEEPEST.set([0] * (DEPTH - 1), []),
                         Document.of([5]) + [inside], Document.of({}) | {"a": inside},
                         Document.of({}).merge({"a": inside})):
            self.assertEqual(bytes(Document(bytes(document))), bytes(document))
        self.assertEqual(DEEPEST.set([0] * DEPTH, 5).get_path(*[0] * DEPTH), 5)
        long = Document.of(["x" * 100_000])
        self.assertEqual(DEEPEST.set([0] * (DEPTH - 1), long).get_path(*[0] * DEPTH), "x" * 100_000)
        for call in (lambda: Document.of([5]).set(0, DEEPEST),
                     lambda: Document.of([5]).set(0, [DEEPEST]),
                     lambda: Document.of({}).insert("a", DEEPEST),
                     lambda: DEEPEST.set([0] * DEPTH, []),
                     lambda: DEEPEST.set([0] * DEPTH, long),
                     lambda: DEEPEST.insert([0] * DEPTH, {}),
                     lambda: Document.of({}) | {"a": DEEPEST},
                     lambda: Document.of({}).merge({"a": DEEPEST})):
            with self.assertRaises(TooDeepError) as refused:
                call()
            self.assertIn("1000 deep", str(refused.exception))


class JoinTest(FunctionTest):
    def test_objects(self):
        values = FewNames(seed=47)
        for _ in range(500):
            left, right = ({values.text(): values.any(depth=2) for _ in range(4)}
                           for _ in range(2))
            document = Document.of(left)
            for other in (right, Document.of(right), OrderedDict(right), UserDict(right),
                          MappingProxyType(right)):
                self.assert_is(document | other, {**left, **right})
                self.assert_is(other | document, {**right, **left})
        changed = before = Document.of({"a": 1})
        changed |= {"b": 2}
        self.assertIsInstance(changed, ObjectDocument)
        self.assert_is(changed, {"a": 1, "b": 2})
        self.assert_is(before, {"a": 1})

    def test_arrays(self):
        values = FewNames(seed=48)
        for _ in range(500):
            left, right = ([values.any(depth=2) for _ in range(size)] for size in (3, 2))
            array = Document.of(left)
            self.assertIsInstance(array + right, ArrayDocument)
            for other in (right, tuple(right), Document.of(right)):
                self.assert_is(array + other, left + right)
                self.assert_is(other + array, right + left)

    def test_others_are_refused(self):
        row, array, scalar = map(Document.of, ({"a": 1}, [1], 5))
        for left in (row, array, scalar):
            for right in (row, array, scalar, {"a": 1}, [1], (1,), 5, "a", None):
                if left is not row or right is not row and right != {"a": 1}:
                    with self.assertRaises(TypeError):
                        left | right
                if left is not array or right is not array and right not in ([1], (1,)):
                    with self.assertRaises(TypeError):
                        left + right
        with self.assertRaisesRegex(TypeError, "is no str"):
            row | {1: 2}


class MergeTest(FunctionTest):
    def test_the_cases_of_the_rfc(self):
        """RFC 7396, appendix A."""
        for line in ('{"a":"b"}|{"a":"c"}|{"a":"c"}', '{"a":"b"}|{"b":"c"}|{"a":"b","b":"c"}',
                     '{"a":"b"}|{"a":null}|{}', '{"a":"b","b":"c"}|{"a":null}|{"b":"c"}',
                     '{"a":["b"]}|{"a":"c"}|{"a":"c"}', '{"a":"c"}|{"a":["b"]}|{"a":["b"]}',
                     '{"a":{"b":"c"}}|{"a":{"b":"d","c":null}}|{"a":{"b":"d"}}',
                     '{"a":[{"b":"c"}]}|{"a":[1]}|{"a":[1]}', '["a","b"]|["c","d"]|["c","d"]',
                     '{"a":"b"}|["c"]|["c"]', '{"a":"foo"}|null|null', '{"a":"foo"}|"bar"|"bar"',
                     '{"e":null}|{"a":1}|{"a":1,"e":null}', '[1,2]|{"a":"b","c":null}|{"a":"b"}',
                     '{}|{"a":{"bb":{"ccc":null}}}|{"a":{"bb":{}}}'):
            target, patch, result = line.split("|")
            self.assertEqual(str(Document.parse(target).merge(Document.parse(patch))), result)
            self.assertEqual(str(Document.parse(target).merge(kohiblad.loads(patch))), result)

    def test_patches_as_the_model(self):
        values = FewNames(seed=49)
        for _ in range(ROUNDS):
            value = values.any(depth=5)
            patch = values.patch(value)
            self.assert_is(Document.of(value).merge(patch), merged(value, patch))

    def test_deep_patches(self):
        for name, bottom in (("a", b"x" * 5000), ("é", 5)):
            target = patch = None
            for _ in range(DEPTH - 1):
                target, patch = {name: target, "t": 1, "u": 2}, {name: patch, "p": 3, "t": None}
            target, patch = Document.of({name: target, "z": bottom}), Document.of({name: patch})
            expected = bottom
            result = target.merge(patch)
            self.assertEqual(result["z"], expected)
            self.assertEqual(bytes(Document(bytes(result))), bytes(result))
            inner = result
            for _ in range(DEPTH - 1):
                inner = inner[name]
                self.assertEqual((inner["p"], inner["u"], "t" in inner), (3, 2, False))
            self.assertNotIn(name, inner)

    def test_many_members(self):
        row = {f"n{number}": {"a": number, "b": Decimal(number) / 4} for number in range(5000)}
        patch = {name: None if number % 3 else {"a": None, "c": [number]}
                 for number, name in enumerate(row)}
        self.assert_is(Document.of(row).merge(patch), merged(row, patch))


class NullsTest(FunctionTest):
    def test_known_answers(self):
        for text, result in (('{"a":null}', "{}"), ("null", "null"), ("[null]", "[null]"),
                             ('{"a":null,"b":1}', '{"b":1}'), ("5", "5"), ("[]", "[]"),
                             ('{"a":{"b":null,"c":[null,{"d":null}]}}', '{"a":{"c":[null,{}]}}')):
            self.assertEqual(str(Document.parse(text).without_nulls()), result)

    def test_answers_as_the_model(self):
        values, changed = FewNames(seed=50), 0
        for _ in range(ROUNDS):
            value = values.any(depth=5)
            document = Document.of(value)
            result = document.without_nulls()
            self.assert_is(result, stripped(value))
            self.assert_is(document, value)
            changed += result != document
        self.assertGreater(changed, 50)

    def test_deep_and_long_documents(self):
        value = None
        for _ in range(DEPTH):
            value = {"a": value, "n": None, "z": 1}
        result = Document.of(value).without_nulls()
        self.assertEqual(bytes(Document(bytes(result))), bytes(result))
        for _ in range(DEPTH - 1):
            self.assertEqual(list(result), ["a", "z"])
            result = result["a"]
        self.assert_is(result, {"z": 1})
        self.assertEqual(bytes(DEEPEST.without_nulls()), bytes(DEEPEST))
        row = {f"n{number}": number if number % 3 else None for number in range(50_000)}
        self.assert_is(Document.of(row).without_nulls(), stripped(row))


class StackTest(unittest.TestCase):
    def test_a_value_that_is_too_deep_is_refused_before_it_is_put(self):
        with mock.patch.object(_changes, "_edited", wraps=_changes._edited) as call:
            for path in ([0] * DEPTH, ["a"], 0):
                try:
                    DEEPEST.set(path, DEEPEST)
                except TooDeepError:
                    pass
            self.assertEqual(call.call_count, 6)
            self.assertTrue(all(len(it.args[3]) == 8 for it in call.call_args_list))

    def test_a_path_that_is_too_deep_is_not_made(self):
        for count in (DEPTH + 1, 5 * DEPTH, 100 * DEPTH):
            for document, step in (({}, "a"), ([], 0), ({"b": 5}, "a"), ([[]], 0)):
                with self.assertRaises(TooDeepError) as refused:
                    Document.of(document).set([step] * count, 5, create=True)
                self.assertIn("1000 deep", str(refused.exception))
            # A scalar is in the way, or a step is of the wrong kind.
            deepest = Document.parse("[" * DEPTH + "5" + "]" * DEPTH)
            for document, step in ((Document.of({"a": 5}), "a"), (Document.of([]), "a"),
                                   (Document.of([1]), 7), (Document.of(5), "a"), (deepest, 0)):
                self.assertEqual(document.set([step] * count, 5, create=True), document)
        self.assertEqual(Document.of([]).set([0] * DEPTH, 5, create=True), deepest)

    def run_in_thread(self, size, program):
        """Runs a program in a thread with a stack of this size; a smaller one ends by a signal."""
        whole = ("import threading\n"
                 "from kohiblad import DEPTH, Document, TooDeepError\n"
                 "def run():\n" + program +
                 f"threading.stack_size({size})\n"
                 "thread = threading.Thread(target=run)\n"
                 "thread.start()\n"
                 "thread.join()\n")
        done = subprocess.run([sys.executable, "-c", whole], stdout=subprocess.PIPE)
        self.assertEqual((done.returncode, done.stdout), (0, b"done\n"))

    def test_readme_s_64_levels(self):
        self.run_in_thread(256 << 10, (
            "    for open, close, step in (('[', ']', 0), ('{\"a\":', '}', 'a')):\n"
            "        row = Document.parse(open * 64 + '0' + close * 64, depth=64)\n"
            "        inner = row.set([step] * 64, 1).insert([step] * 64, 2).without([step] * 64)\n"
            "        assert inner.get_path(*[step] * 63).kind in ('array', 'object')\n"
            "        assert row.contains(row) and len(row.index_keys()) == 1\n"
            "        row.merge(row), row.without_nulls(), row.top_keys(), row.has_key('a')\n"
            "        assert row.has_any_key('a', 'b') == row.has_all_keys('a') == (step == 'a')\n"
            "    print('done')\n"))

    def test_readme_s_1000_levels(self):
        self.run_in_thread(2_600 << 10, (
            "    deepest = Document.parse('[' * DEPTH + ']' * DEPTH)\n"
            "    for call in (deepest.set, deepest.insert):\n"
            "        try:\n"
            "            call([0] * DEPTH, deepest)\n"
            "        except TooDeepError:\n"
            "            continue\n"
            "        print('put')\n"
            "    assert deepest.set([0] * DEPTH, 5).without([0] * DEPTH) == deepest\n"
            "    assert deepest.contains(deepest) and deepest.without_nulls() == deepest\n"
            "    objects = Document.parse('{\"a\":' * DEPTH + '0' + '}' * DEPTH)\n"
            "    assert objects.merge(objects) == objects.without_nulls() == objects\n"
            "    assert Document.of({}).merge(objects) == objects\n"
            "    print('done')\n"))


class LimitTest(unittest.TestCase):
    def test_few_and_short_paths_are_kept(self):
        row = Document.of({"a": 1})
        before = dict(_changes._kept_paths)
        for number in range(300):
            row.set(["x" * 300, number], 1)
        self.assertEqual(_changes._kept_paths, before)
        for number in range(1000):
            row.set(["x", number], 1)
        self.assertLessEqual(len(_changes._kept_paths), 256)


if __name__ == "__main__":
    unittest.main()
