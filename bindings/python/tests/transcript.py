"""Prints what the package answers to many calls, a line for each: test_native.py compares two ways.

Each line has the result with its types, or the exception with all that it says.
"""
import array
import decimal
import random
from collections import OrderedDict, UserDict
from datetime import date, datetime, timedelta, timezone
from decimal import Decimal
from enum import IntEnum
from types import MappingProxyType

from kohiblad import (DEPTH, Date, Document, Interval, KohibladError, Opaque, Timestamp, dumps,
                      loads)
from models import Values


class Text(str):
    pass


class OtherText(str):
    def encode(self, *arguments):
        return b"[1]"


class Bytes(bytes):
    pass


class Whole(int):
    def __repr__(self):
        return "no number"


class Size(IntEnum):
    LARGE = 3


class Number(Decimal):
    pass


class Index:
    def __index__(self):
        return 1

    def __repr__(self):
        return "the index 1"


class FailingIndex:
    def __index__(self):
        raise LookupError("no index")


class FailingTruth:
    def __bool__(self):
        raise LookupError("no truth")


class Keys(dict):
    pass


def shown(value):
    """A value with the type of each part, and its order."""
    if isinstance(value, dict):
        inner = ",".join(f"{shown(name)}:{shown(it)}" for name, it in value.items())
    elif isinstance(value, (list, tuple)):
        inner = ",".join(map(shown, value))
    elif isinstance(value, Document):
        inner = f"{bytes(value).hex()} {value.kind} {value}"
    elif isinstance(value, Decimal):
        inner = repr(value.as_tuple())
    else:
        inner = repr(value)
    return f"{type(value).__name__}({inner})"


def described(error):
    cause = type(error.__cause__).__name__
    more = (error.status, error.name, getattr(error, "offset", "")) \
        if isinstance(error, KohibladError) else ()
    return f"{type(error).__name__} {error.args!r} {error} {more} {cause}"


def answer(call, *arguments, **more):
    try:
        line = shown(call(*arguments, **more))
    except Exception as error:
        line = described(error)
    print(line.encode("utf-8", "backslashreplace").decode()[:4000])


def texts():
    yield from ("", " ", "[1,", "[1]]", "nul", "01", "NaN", "Infinity", '"\\ud800"', "\ufeff1",
                '{"a":1,}', "\0", '["\u00e9" 1]', "1e", "1e99", "1E-999", str(2**127),
                str(-2**127), str(-2**127 - 1), str(2**64), str(2**63), str(-2**63),
                "0." + "0" * 255, "0." + "0" * 256, '{"a": [1, 2.5e-999]}', "-0", "-0.0", "1e5", "25e-1", "1.50",
                '"\\u0000\\"\\\\\\n"', "\udc00", '"\ud800"', '{"b":1,"a":2,"b":3}', "[[[]]]", "{}",
                '{"":{"":[]}}', "[" * DEPTH + "]" * DEPTH, "[" * (DEPTH + 1) + "]" * (DEPTH + 1),
                '{"a":' * DEPTH + "1" + "}" * DEPTH, "[" * 100_000, "170141183460469231731687303715"
                "884105727.5", "0.1701411834604692317316873037158841057", '"' + "é" * 1000 + '"',
                '"' + "a" * 100_000 + '"', "[" + ",".join(map(str, range(20_000))) + "]",
                "[" + ",".join(["1.50"] * 20_000), '["\U0001f600", "\u0100", "\x7f"]')
    yield from (b"", b"[1]", b'"\xff"', b"\xc3", '"é"'.encode(), bytearray(b"[1]"),
                memoryview(b"[1]"), Bytes(b"[2]"), array.array("B", b"[3]"), Text("[1.5]"),
                Text('"\udc00"'), OtherText("[2]"), None, 5, 1.5, ["[]"], object)


def values():
    nested, around_bytes, endless, dictionary = [], b"", {}, {}
    for _ in range(5000):
        nested, around_bytes = [nested], (around_bytes,)
    endless["a"] = endless
    deep = []
    for number in range(DEPTH - 1):
        deep = [deep] if number % 2 else {"k": deep}
    for number in range(3000):
        dictionary[f"name{number * 7919 % 3001}"] = [number, Decimal(number) / 8]
    inner = Document.parse('{"n": [1.50, {"é": null}]}')
    yield from (None, True, False, 0, -1, 2**63 - 1, 2**63, -2**63, -2**63 - 1, 2**64, 2**127 - 1,
                2**127, -2**127, -2**127 - 1, 10**5000, 1.5, float("nan"), [0.1], {"a": [1e300]},
                "", "a\"\\\b\f\n\r\t/\x00\x1f\x7f", "é\u07ff\u0800\uffff\U0001f600\U0010ffff",
                "\ud800", ["\udfff"], {"\udfff": 1}, {"\udfff": b""}, [b"", "\ud800"],
                ["a", "\ud800", 1.5], [1.5, "\ud800"], "x" * 5000, "é" * 5000, "\n" * 5000,
                ["\U0001f600" * 2000],
                {"é": 1, "e": 2, "z": 3, "": 4, "\U0001f600": 5, "\uffff": 6})
    for text in ("1.50", "-0.00", "1E+3", "1.5E+1", "25E-4", "0E+9", "1E+38", "1E+39", "0E-9",
                 "-1E-255", "1E-256", "0E-256", "NaN", "sNaN", "-Infinity", "1E+999999",
                 f"{2**127}E-3", f"{2**127 - 1}E-3", "123456789012345678901234567890.12345678",
                 "0.0000001", "0.000001", "-1.5"):
        yield Decimal(text)
        yield {"a": [Decimal(text), object()]}
    yield from ([], {}, (), [[], {}, ()], nested, around_bytes, endless, deep, [deep], [[deep]],
                {"k": deep}, dictionary, OrderedDict([("b", 1), ("a", 2)]), Keys(a=1),
                MappingProxyType({"a": 1}), UserDict({"a": Decimal("1.0")}), {1: 2}, {None: 1},
                {("a",): b""}, {"a": 1, b"b": 2}, {Text("a"): Text("b")}, [Size.LARGE], Whole(5),
                {"n": Number("1.50")}, [True, Whole(7), 2**70], {1, 2}, 1j, object(), [object()],
                [timedelta(1)], range(3), bytearray(b"a"), memoryview(b"b"), b"", [b"\0\xff"],
                date(2020, 1, 2), [datetime(2020, 1, 2, 3)], {"a": datetime(2020, 1, 2, tzinfo=(
                    timezone(timedelta(hours=1))))}, Date(2**31), Timestamp(2**63),
                Interval(1, 2, 3), [Interval(2**31, 0, 0)], Opaque(0x60, b"a"), Opaque(0, b""),
                Opaque(0x60, 5), Opaque(0xF0, b"x" * 5000), Interval(1.5, 0, 0), Date("1"),
                Timestamp(None), inner, [inner, {"a": inner}], {"x": [1, {"y": inner["n"]}]},
                [Document.parse("[" * DEPTH + "]" * DEPTH)], {"a": [b"x", {"b": [1, "z"]}], "c": 1})
    random_values = Values(seed=21)
    for _ in range(1500):
        yield random_values.any(depth=4)


def read_all(document):
    """Each way to read a document."""
    for call in (lambda it: it.value(), Document.pretty, Document.key, Document.canonical, str,
                 repr, hash, lambda it: it.kind):
        answer(call, document)
    if document.kind == "array":
        for index in (0, -1, len(document), -len(document) - 1, True, Index(), FailingIndex(),
                      2**64, -2**64, 1.5, "a", None, slice(1, None, 2), slice("a")):
            answer(lambda it: it[index], document)
        for call in (len, list, lambda it: list(reversed(it)), lambda it: it.index(1),
                     lambda it: it.count(None), lambda it: 1 in it):
            answer(call, document)
    elif document.kind == "object":
        for name in ("a", "", "é", "\ud800", "n", Text("a"), OtherText("a"), 7, None, (), [],
                     ("a",), b"a"):
            for call in (lambda it: it[name], lambda it: name in it,
                         lambda it: it.get(name, "none")):
                answer(call, document)
        for call in (len, list, dict, lambda it: list(it.keys()), lambda it: list(it.values()),
                     lambda it: list(it.items()), lambda it: ("a", 1) in it.items()):
            answer(call, document)


def ask(document):
    """The functions over a document."""
    for call in (Document.index_keys, Document.top_keys, lambda it: it.contains(it),
                 lambda it: it.contains(it, 5), lambda it: it.without("a", 0), lambda it: it | it,
                 lambda it: {"a": 1} | it, lambda it: it + it, lambda it: [1.50] + it,
                 lambda it: it.merge(it), lambda it: it.merge({"a": None, "n": {"a": 1}}),
                 lambda it: it.without(*"abcdefghijklmn"), Document.without_nulls):
        answer(call, document)
    for other in (5, "a", [1], {}, None, b"x", 1.5, object()):
        answer(document.contains, other)
        answer(document.set, ["n", 0], other)
        answer(document.merge, other)
    for path in (0, "a", -1, [], ["a", 0], "\ud800", [5, "a"], Text("a"), None, 1.5, b"a", Index(),
                 FailingIndex(), True, 2**70, ["n", "\ud800"]):
        for call in (document.without, lambda it: document.set(it, [1]),
                     lambda it: document.insert(it, {"a": Decimal("1.50")})):
            answer(call, path)
        answer(lambda it: document.get_path(*it) if type(it) is list else document.get_path(it),
               path)
    for name in ("a", "", "\ud800", 0, -1, 5, None, Text("n")):
        for call in (document.has_key, document.has_any_key,
                     lambda it: document.has_all_keys("a", it), lambda it: document.member(it),
                     lambda it: document.item(it)):
            answer(call, name)


def main():
    for text in texts():
        answer(loads, text)
        answer(Document.parse, text)
        answer(Document.parse, text, exponents=False)
        answer(Document.parse, text, 2)
    for depth in (-1, 0, 1, 2, DEPTH, DEPTH + 1, 2**31, 2**64, -2**64, True, Index(),
                  FailingIndex(), 1.0, None, "1", Decimal(1)):
        for text in ("[]", "5", "[[]]", 5, "["):
            answer(Document.parse, text, depth)
            answer(Document.parse, text, depth=depth)
        for data in (b"\x80\0\0\0", b"\x20\0\0\0\0\0\0\0", b"", None, bytearray(b"\x80\0\0\0")):
            answer(Document, data, depth)
    for exponents in (True, False, 0, 1, 2, "", "x", None, [], FailingTruth()):
        answer(Document.parse, "1e2", exponents=exponents)
    answer(Document.parse)
    answer(Document.parse, "1", 2, 3)
    for data in (None, 5, "[]", [1], b"\0", Bytes(b"\x80\0\0\0"), memoryview(b"\x80\0\0\0")):
        answer(Document, data)
    for number, value in enumerate(values()):
        answer(Document.of, value)
        answer(dumps, value)
        try:
            document = Document.of(value)
        except (KohibladError, TypeError, RecursionError):
            continue
        if len(bytes(document)) < 2000:
            read_all(document)
            if number % 4 == 0:
                ask(document)
        else:
            answer(document.value)
            answer(list, document.items() if document.kind == "object" else [])
    chance, random_values = random.Random(22), Values(seed=23)
    for _ in range(1500):
        data = bytearray(bytes(Document.of(random_values.any(depth=3))))
        place = chance.randrange(len(data))
        data[place:place + chance.randrange(2)] = bytes(
            [chance.randrange(256)] * chance.randrange(3))
        answer(Document, data)
        answer(lambda it: Document(it).value(), data)
        answer(lambda it: list(Document(it)), bytes(data))
    with decimal.localcontext() as context:
        context.prec, context.capitals = 3, 0
        for name in context.traps:
            context.traps[name] = True
        for value in (Decimal("1E+3"), Decimal("123456.789"), Decimal("1E-200"), Decimal("0E-255")):
            answer(dumps, [value])
            answer(loads, format(value, "f"))
            answer(Document.of(value).value)


if __name__ == "__main__":
    main()
