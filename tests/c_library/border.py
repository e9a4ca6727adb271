"""Asks the shared library by ctypes: known answers of each call, and the lines of tests/lines that
one of its calls answers, beside the answers that stand there.

    python3 border.py libkohiblad.so TESTS/LINES
"""
import ctypes
import os
import sys

HERE = os.path.dirname(os.path.abspath(__file__))
LIBRARY = ctypes.CDLL(sys.argv[1])
SIZE = ctypes.c_size_t
NO_ROOM, NONE, TOO_DEEP = 11, 12, 13
ANY_DEPTH = 2 ** 64 - 1
KINDS = ["null", "boolean", "number", "string", "extension", "array", "object"]
# The calls that answer commands of jsonb_probe.
CALLS = {"is_document": "check", "is_canonical": "is_canonical",
         "to_string": "print", "to_pretty_string": "pretty",
         "to_canonical": "canonical", "array_of": "build_array",
         "object_of": "build_object"}


class Kind(ctypes.Structure):
    _fields_ = [("status", ctypes.c_uint32), ("kind", ctypes.c_uint32), ("count", ctypes.c_uint64)]


class Place(ctypes.Structure):
    _fields_ = [("status", ctypes.c_uint32), ("type", ctypes.c_uint32),
                ("offset", ctypes.c_uint64), ("length", ctypes.c_uint64)]


class Decimal(ctypes.Structure):
    _fields_ = [("status", ctypes.c_uint32), ("scale", ctypes.c_uint32),
                ("high", ctypes.c_int64), ("low", ctypes.c_uint64)]


class Extension(ctypes.Structure):
    _fields_ = [("status", ctypes.c_uint32), ("tag", ctypes.c_uint32), ("value", ctypes.c_int64),
                ("months", ctypes.c_int32), ("days", ctypes.c_int32), ("seconds", ctypes.c_int32),
                ("offset", ctypes.c_uint64), ("length", ctypes.c_uint64)]


class Fault(ctypes.Structure):
    _fields_ = [("status", ctypes.c_uint32), ("offset", ctypes.c_uint64)]


class Expected(ctypes.Structure):
    _fields_ = [("status", ctypes.c_uint32), ("classes", ctypes.c_uint32)]


class Integer(ctypes.Structure):
    _fields_ = [("status", ctypes.c_uint32), ("value", ctypes.c_int64)]


class Truth(ctypes.Structure):
    _fields_ = [("status", ctypes.c_uint32), ("value", ctypes.c_uint32)]


class Cursor(ctypes.Structure):
    _fields_ = [("index", ctypes.c_uint64), ("key", ctypes.c_uint64), ("value", ctypes.c_uint64)]



class PathFault(ctypes.Structure):
    _fields_ = [("status", ctypes.c_uint32), ("reason", ctypes.c_uint32),
                ("offset", ctypes.c_uint64), ("expected", ctypes.c_uint32),
                ("mark", ctypes.c_uint32), ("found", ctypes.c_uint32),
                ("left_out", ctypes.c_uint32)]


for predicate in ("check", "is_canonical"):
    getattr(LIBRARY, "kohiblad_" + predicate).restype = ctypes.c_bool
for answer, calls in ((Kind, "kind"), (Decimal, "as_decimal"), (Extension, "as_extension"),
                      (Integer, "as_int64"), (Fault, "text_fault"), (Truth, "exists path_exists path_match"),
                      (PathFault, "path_fault"),
                      (Expected, "text_expected"), (Place, "find_key find_index get_path")):
    for call in calls.split():
        getattr(LIBRARY, "kohiblad_" + call).restype = answer


def given(values):
    """How values cross: bytes and lists of offsets as a pointer and a length, numbers as size_t."""
    crossed = []
    for value in values:
        if isinstance(value, bytes):
            crossed += [value, SIZE(len(value))]
        elif isinstance(value, list):
            crossed += [(SIZE * (len(value) or 1))(*value), SIZE(len(value))]
        else:
            crossed.append(SIZE(value))
    return crossed


def tell(call, *values):
    return getattr(LIBRARY, "kohiblad_" + call)(*given(values))


def ask(call, *values):
    """The status and the bytes; first without room, and with one byte too few."""
    length = SIZE(7)
    export = getattr(LIBRARY, "kohiblad_" + call)
    status = export(*given(values), b"", SIZE(0), ctypes.byref(length))
    if status != NO_ROOM:
        assert length.value == 0, (call, status)
        return status, b""
    size = length.value
    for room in (size - 1, size):
        out = ctypes.create_string_buffer(b"\xa5" * (size + 1), size + 1)
        status = export(*given(values), out, SIZE(room), ctypes.byref(length))
        assert status == (NO_ROOM if room < size else 0) and length.value == size, (call, status)
        assert room == size or out.raw == b"\xa5" * (size + 1), call
    return status, out.raw[:size]


def parse(text, depth, exponents=0):
    return ask("parse", text, depth, exponents)


def is_document(data):
    return tell("check", data, ANY_DEPTH)


def name_of(status):
    out, length = ctypes.create_string_buffer(32), SIZE()
    assert LIBRARY.kohiblad_status_name(status, out, SIZE(32), ctypes.byref(length)) == 0
    return out.raw[:length.value].decode()


def said(answer):
    status, answer = answer
    return f"ok {answer.hex()}" if status == 0 else f"error {name_of(status)}"


def member(document, index):
    key, key_length = ctypes.create_string_buffer(4096), SIZE()
    out, length = ctypes.create_string_buffer(65536), SIZE()
    status = LIBRARY.kohiblad_get_member(
        document, SIZE(len(document)), SIZE(index), key, SIZE(4096), ctypes.byref(key_length),
        out, SIZE(65536), ctypes.byref(length))
    return status, key.raw[:key_length.value], out.raw[:length.value]


def rows(parts):
    offsets = [0]
    for part in parts:
        offsets.append(offsets[-1] + len(part))
    return b"".join(parts), offsets


def known_answers():
    """Answers that the format's pages give."""
    array = bytes.fromhex("8000000330000000200000025000000e500a4000000110000001100000016b76")
    names = ("Ok InvalidEOF InvalidJsonb InvalidJsonbHeader InvalidJsonbJEntry InvalidJsonbNumber "
             "InvalidJsonbExtension InvalidUtf8 ObjectDuplicateKey InvalidJson OutOfMemory NoRoom "
             "None TooDeep OtherKind PastRange Overlap BadNumber TooManySteps BadMagic "
             "UnknownVersion TrailingData WrongLength OutOfForm NotReadBack MemberNotFound "
             "ObjectNotFound ArrayNotFound InvalidSubscript NonNumericItem SingletonRequired "
             "NumberNotFound DivisionByZero OutOfRange UndefinedVariable BooleanRequired "
             "Unknown").split()
    assert [name_of(status) for status in range(37)] == names
    for document, answer in (
            ("2000000060000005 10fffffffe", (0, 0x10, -2, 0, 0, 0, 0, 0)),
            ("2000000060000009 200000000000000007", (0, 0x20, 7, 0, 0, 0, 0, 0)),
            ("200000006000000d 300000000000000007fffff1f0", (0, 0x30, 7, 0, 0, -3600, 0, 0)),
            ("200000006000000a 300000000000000007ff", (0, 0x30, 7, 0, 0, -3600, 0, 0)),
            ("2000000060000011 4000000001ffffffff0000000000000003", (0, 0x40, 3, 1, -1, 0, 0, 0)),
            ("2000000060000003 00abcd", (0, 0, 0, 0, 0, 0, 9, 2)),
            ("2000000060000002 50ff", (0, 0x50, 0, 0, 0, 0, 9, 1))):
        fields = tell("as_extension", bytes.fromhex(document))
        assert tuple(getattr(fields, name) for name, _ in Extension._fields_) == answer, document
    for document, answer in (
            ("200000002000000a 70ffffffffffffff6a02", (0, 2, -1, 2**64 - 150)),
            ("2000000020000012 700000000000000001000000000000000500", (0, 0, 1, 5)),
            ("2000000020000002 40ff", (0, 0, -1, 2**64 - 1))):
        number = tell("as_decimal", bytes.fromhex(document))
        assert (number.status, number.scale, number.high, number.low) == answer, document
    assert parse(b'[false,10,{"k":"v"}]', 2) == (0, array)
    assert parse(b'[false,10,{"k":"v"}]', 1) == (TOO_DEEP, b"")
    assert parse(b'["[[[","\\"[["]', 1)[0] == 0
    assert parse(b"[" * 2000000, 3) == (TOO_DEEP, b"")
    assert name_of(parse(b"\xff", 9)[0]) == "InvalidUtf8"
    for text, same in ((b"1e5", b"100000"), (b"1.50e1", b"15.0"), (b"25e-1", b"2.5"),
                       (b"6.02e23", b"602000000000000000000000"), (b"0e99", b"0")):
        assert parse(text, 0, 1) == parse(same, 0), text
        assert name_of(parse(text, 0)[0]) == "InvalidJson", text
    assert name_of(parse(b"1e999999999", 0, 1)[0]) == "InvalidJson"
    assert ask("print", array, ANY_DEPTH) == (0, b'[false,10,{"k":"v"}]')
    assert ask("print", array, 1)[1].startswith(b"\xef\xbf\xbd")
    assert ask("pretty", array, 2)[1].count(b"\n") == 6
    assert ask("pretty", array, 1) == (0, b"null")
    assert tell("check", array, 2)
    assert not tell("check", array, 1) and not tell("check", array[:-1], 9)
    kind = tell("kind", array)
    assert (kind.status, kind.kind, kind.count) == (0, 5, 3)
    assert ask("get_index", array, 0) == (0, bytes.fromhex("2000000030000000"))
    assert ask("get_index", array, 1) == (0, bytes.fromhex("2000000020000002500a"))
    assert ask("get_index", array, 2) == (0, array[18:])
    assert ask("get_index", array, 3) == (NONE, b"")
    place = tell("find_index", array, 2)
    assert (place.status, place.type, place.offset, place.length) == (0, 0x50000000, 18, 14)
    inner = array[18:]
    assert member(inner, 0) == (0, b"k", bytes.fromhex("200000001000000176"))
    assert member(inner, 1) == (NONE, b"", b"") and member(array, 0)[0] == NONE
    assert ask("get_key", inner, b"k") == (0, bytes.fromhex("200000001000000176"))
    assert ask("get_key", inner, b"j") == (NONE, b"") and ask("get_key", array, b"k")[0] == NONE
    place = tell("find_key", inner, b"k")
    assert (place.status, place.type, place.offset, place.length) == (0, 0x10000000, 13, 1)
    assert ask("copy", 0x10000000, b"v") == (0, bytes.fromhex("200000001000000176"))
    assert ask("copy", 0x20000000, array[16:18]) == ask("get_index", array, 1)
    assert ask("copy", 0x30000000, b"") == (0, bytes.fromhex("2000000030000000"))
    assert ask("copy", 0x50000000, inner) == (0, inner)
    for unknown in (0x70000000, 0x80000000, 0x10000001):
        assert name_of(ask("copy", unknown, b"v")[0]) == "InvalidJsonbJEntry"
    parts = [ask("get_index", array, i)[1] for i in range(3)]
    assert ask("build_array", *rows(parts), 1) == (0, array)
    assert ask("build_object", *rows([b"k", parse(b'"v"', 0)[1]]), 0) == (0, inner)
    status, _ = ask("build_object", *rows([b"k", inner, b"k", inner]), 1)
    assert name_of(status) == "ObjectDuplicateKey"
    assert name_of(ask("build_array", array, [0, 40], 9)[0]) == "InvalidEOF"
    order = (SIZE * 4)(9, 9, 9, 9)
    documents = [parse(text, 9)[1] for text in (b"null", b'"a"', b"5.0", b"5")]
    assert LIBRARY.kohiblad_sort(*given(rows(documents)), SIZE(9), order, SIZE(4)) == 0
    assert list(order) == [2, 3, 1, 0]


def document(text):
    status, made = parse(text.encode(), 1000, 1)
    assert status == 0, text
    return made


def text_of(asked):
    """The text of a document that a call made, or the name of the status."""
    status, made = asked
    return name_of(status) if status else ask("print", made, ANY_DEPTH)[1].decode()


def selected(text, path):
    """The texts of the values that a path selects, or the name of the status."""
    places, count, given_bytes = (Place * 99)(), SIZE(), document(text)
    status = LIBRARY.kohiblad_select(*given([given_bytes, path.encode(), ANY_DEPTH]), places,
                                     SIZE(99), ctypes.byref(count))
    if status:
        return name_of(status)
    parts = [(it.type, given_bytes[it.offset:it.offset + it.length])
             for it in places[:count.value]]
    return [text_of(ask("copy", *part)) for part in parts]


def path_texts():
    """What docs/FUNCTIONS.md says of path texts and names."""
    for path, answer in (
            ("$[0 to #]", "123"), ("$[# to 1]", ""), ("$[0 to #-0]", "123"), ("$[2 to 1]", ""),
            ("$[#-9 to 01]", "12"), ("$[#-0]", ""), ("$[#]", ""), ("$[01]", "2"), ("$[007]", ""),
            ("$[#-01]", "3"), ("$[last]", "3"), ("$[last - 2]", "1"), ("$[last-1]", "2"),
            ("$[last - 1 to last]", "23"), ("$[2, 0, last, 7]", "313"), ("$[#,0,0]", "11")):
        assert "".join(selected("[1,2,3]", path)) == answer, path
    for path in ("$[]", "$[-1]", "$[+1]", "$[ 1]", "$[0  to 1]", "$.", '$."a\\""', "$.*b*[",
                 "$?(@.* == 1)", "$?(@ == 01)", "$?(@  == 1)", "$[0,]", "$[0 ,1]", "$[last + 1]",
                 "$[0, 1 to 2]", "$[last -]", "$[Last]", "$[0, 1][0, 1]"):
        assert selected("[1,2,3]", path) == "OtherKind", path
    keys = '{"*a":1,"a":2,"*":3,"":4,"a\\\\":5,"a\\"":6}'
    for path, answer in (("$.*a", "1"), ('$."*"', "3"), ('$.""', "4"), ("$.a\\", "5"),
                         ('$."a\\"', "5"), ('$.a"', "6"), ("$.*", "431265")):
        assert "".join(selected(keys, path)) == answer, path
    backslashes = r'["a\\b","a\nb","a\\nb","\\"]'
    for path, answer in ((r'$[*]?(@ == "a\b")', r'"a\\b"'), (r'$[*]?(@ == "a\nb")', r'"a\\nb"'),
                         (r'$[*]?(@ == "\")', r'"\\"'), (r'$[*]?(@ == "a\\b")', "")):
        assert "".join(selected(backslashes, path)) == answer, path
    for path, answer in (("$[#-0]", "[18446744073709551615]"), ("$[007].a", '[7,"a"]'),
                         ("$[18446744073709551616]", "[18446744073709551615]"),
                         ("$[#-9999999999999999999]", "[-9223372036854775808]"),
                         ("$.*", "OtherKind"), ("$.*a", '["*a"]'), ("$[0 to #]", "OtherKind")):
        assert text_of(ask("path_of_text", path.encode())) == answer, path
    within = document('{"a":[1,2]}')
    for text, answer in (
            ("/a/-", '["a",18446744073709551615]'), ("/a/01", '["a","01"]'),
            ("/a/18446744073709551616", '["a",18446744073709551615]'), ("{a,-1}", '["a",-1]'),
            ("$.a[*]", "OtherKind"), ("$.a[0 to 1]", "OtherKind"), ("$.a?(@ == 1)", "OtherKind"),
            ("{a\u00a0b}", '["a\u00a0b"]'), ("{\u2003}", '["\u2003"]'),
            ("{a\x1cb}", r'["a\u001cb"]')):
        assert text_of(ask("path_in", within, text.encode(), 2)) == answer, text
    for space in "\t\n\v\f\r ":
        assert text_of(ask("path_in", within, f"{{a{space}b}}".encode(), 2)) == "OtherKind"
        assert ask("path_in", within, f'{{"a{space}b"}}'.encode(), 2)[0] == 0


def edits():
    """What docs/FUNCTIONS.md says of Create, and the header of paths that are documents."""
    for text, path, answer in (
            ("{}", '["a","b"]', '{"a":{"b":9}}'), ("{}", '["a",0,"b"]', '{"a":[{"b":9}]}'),
            ("{}", '["a",18446744073709551615]', '{"a":[9]}'), ("{}", '["a",1]', "{}"),
            ("{}", '["a",-1]', "{}"), ("[1]", '[1,"a"]', '[1,{"a":9}]'), ("[1]", "[2]", "[1]"),
            ("[1]", "[18446744073709551615]", "[1,9]"), ("[1]", "[-1]", "[9]"),
            ("[]", "[-1]", "[]"), ('{"a":null}', '["a","b"]', '{"a":null}')):
        made = ask("edit", document(text), document(path), 3, document("9"), 3)
        assert text_of(made) == answer, (text, path)
    # A zero that is stored as a decimal is no index.
    path = bytes.fromhex("800000012000000a70000000000000000000")
    assert name_of(tell("get_path", document("[1]"), path, 1).status) == "OtherKind"
    assert text_of(ask("edit", document("[1]"), path, 2, b"", 1)) == "OtherKind"
    # The depth counts for the path, which is an array, and for names.
    empty = document("[]")
    for depth, status in ((0, "InvalidJsonb"), (1, "Ok")):
        assert name_of(tell("get_path", document("1"), empty, depth).status) == status
        assert name_of(ask("edit", document("1"), empty, 2, b"", depth)[0]) == status
        assert name_of(ask("pick", document("1"), empty, 0, depth)[0]) == status


def refusals():
    """Which status comes first where several are due, as the header says."""
    other, names, no_path = b"\xff", document("[]"), document("null")
    no_order = ((SIZE * 1)(), SIZE(0))
    for answer, asked in (
            ("TooDeep", parse(b"[\xff", 0)), ("InvalidUtf8", parse(b"[\xff", 1)),
            ("InvalidUtf8", ask("path_in", other, b"\xff", 9)),
            ("InvalidJsonb", ask("path_in", other, b"x", 9)),
            ("InvalidUtf8", ask("get_key", other, b"\xff")),
            ("InvalidJsonb", ask("pick", other, no_path, 0, 9)),
            ("OtherKind", ask("pick", names, no_path, 0, 9)),
            ("InvalidJsonb", ask("member_key", other, no_path, 9)),
            ("InvalidJsonb", ask("edit", other, no_path, 9, other, 9)),
            ("InvalidJsonb", ask("edit", names, other, 9, other, 9)),
            ("InvalidJsonb", ask("edit", names, no_path, 0, other, 9)),
            ("OtherKind", ask("edit", names, no_path, 9, other, 9)),
            ("OtherKind", ask("edit", names, no_path, 2, other, 9)),
            ("InvalidEOF", ask("build_array", other, [0, 1, 0], 9)),
            ("InvalidEOF", ask("build_object", *rows([b"\xff", other, b"a"]), 9)),
            ("InvalidJsonb", ask("build_object", *rows([b"\xff", other]), 9)),
            ("InvalidUtf8", ask("build_object", *rows([b"a", names, b"a", names, b"\xff", names]),
                                9))):
        assert name_of(asked[0]) == answer, (answer, asked)
    for answer, status in (
            ("TooDeep", tell("text_fault", b"[\xff", 0, 0).status),
            ("InvalidUtf8", tell("text_fault", b"]\xff", 0, 0).status),
            ("TooDeep", tell("text_expected", b"[\xff", 0, 0).status),
            ("InvalidUtf8", tell("text_expected", b"]\xff", 0, 0).status),
            ("InvalidJsonbJEntry", ask("print_at", 1, other, 0)[0]),
            ("InvalidJsonb", ask("print_at", 0x30000000, other, 0)[0]),
            ("InvalidJsonbJEntry", ask("pretty_at", 0x70000000, other, 0)[0]),
            ("InvalidJsonb", ask("pretty_at", 0x10000000, other, 0)[0]),
            ("InvalidUtf8", tell("exists", other, b"\xff", 9).status),
            ("InvalidUtf8", tell("find_key", other, b"\xff").status),
            ("InvalidJsonb", tell("get_path", other, no_path, 9).status),
            ("InvalidEOF", LIBRARY.kohiblad_sort(*given([names, [0, 5], 9]), *no_order)),
            ("NoRoom", LIBRARY.kohiblad_sort(*given([names, [0, 4], 9]), *no_order)),
            ("InvalidUtf8", LIBRARY.kohiblad_select(*given([other, b"\xff", 9]), (Place * 1)(),
                                                    SIZE(0), ctypes.byref(SIZE()))),
            ("InvalidJsonb", LIBRARY.kohiblad_select(*given([other, b"x", 9]), (Place * 1)(),
                                                     SIZE(0), ctypes.byref(SIZE())))):
        assert name_of(status) == answer, answer


def faults():
    """Where texts are not JSON, by the grammar of RFC 8259."""
    for text, name, offset in (
            (b"01", "InvalidJson", 1), (b"1.5.", "InvalidJson", 3), (b"-01", "InvalidJson", 2),
            (b"1-", "InvalidJson", 1), (b".5", "InvalidJson", 0), (b"1.", "BadNumber", 2),
            (b"1..", "BadNumber", 2), (b"-a", "BadNumber", 1), (b"[1,]", "InvalidJson", 3),
            (b"[1", "InvalidJson", 2), (b"1" * 40, "BadNumber", 39), (b"1e5", "BadNumber", 1)):
        fault = tell("text_fault", text, 9, 0)
        assert (name_of(fault.status), fault.offset) == (name, offset), text


def spaced_paths():
    """Spaces around a filter, and names that have to be between quotes."""
    rows = '{"total":9001,"a":[{"b":"x","c d":1},{"b":"y","c d":2}],"f()":3,"g ":4}'
    for path, answer in (
            ("$ ? (@.total > 9000).total", "9001"), ("$ ? (@.total > 9001).total", ""),
            ('$.a[*]  ?  (  @.b == "x"  )."c d"', "1"), ('$.a[*]?( @.b == "y" ).c d', "2"),
            ("$.total ? (@ > 9000) ?(@ < 9002)", "9001"), ('$."f()"', "3"), ('$."g "', "4"),
            ('$.a[*]?(@.b == "x" || @.b == "y" && @."c d" == 1)."c d"', "1"),
            ('$.a[*]?((@.b == "x" || @.b == "y")&&@."c d" > 1)."c d"', "2"),
            ('$.a[*] ? ( ! ( @.b == "x" || @.none == 1 ) )."c d"', "2"),
            ("$.a[*]?(!(@.none == 1))[*]", ""), ("$.total?(!(!((@ == 9001))))", "9001"),
            ('$.a[*] ? (exists (@."c d") && ! exists(@.none))."c d"', "12"),
            ("$?(exists(@.a[2]) || @.total == 1).total", "")):
        assert "".join(selected(rows, path)) == answer, path
    for path in ("$.f()", "$.a.size()", "$.g ", "$.total .x", "$?(@.f() == 1)",
                 "$ ?(@.total > 1) ", "$ ? (@.total>1)", "$.total ? @ > 1",
                 "$?(@.total > 1 &&)", "$?(@.total > 1 & @ > 1)", "$?(!@.total > 1)", "$?()",
                 "$?((@.total > 1)", "$?(@.total > 1))", "$?(|| @.total > 1)",
                 "$?(exists(@.total)", "$?(exists(@.a[*]))", "$?(exists(@.total) == true)"):
        assert selected(rows, path) == "OtherKind", path


def walks():
    """What a walk gives where it begins, ends and is refused."""
    def begun(text):
        cursor, given_bytes = Cursor(7, 7, 7), bytes.fromhex(text)
        status = LIBRARY.kohiblad_begin(*given([given_bytes]), ctypes.byref(cursor))
        return name_of(status), cursor.index, cursor.key, cursor.value

    def stepped(given_bytes, *cursor):
        cursor, key, value = Cursor(*cursor), Place(9, 9, 9, 9), Place(9, 9, 9, 9)
        LIBRARY.kohiblad_next(*given([given_bytes]), *map(ctypes.byref, (cursor, key, value)))
        assert value.status == 0 or (value.type, value.offset, value.length) == (0, 0, 0)
        assert key.status == 0 or (key.type, key.offset, key.length) == (0, 0, 0)
        return name_of(key.status), name_of(value.status)

    for text, answer in (("80000005", ("Ok", 0, 0, 24)), ("40000001", ("InvalidEOF", 7, 7, 7)),
                         ("4000000110000001", ("Ok", 0, 12, 13)),
                         ("20000000", ("None", 7, 7, 7)), ("00000000", ("InvalidJsonb", 7, 7, 7))):
        assert begun(text) == answer, text
    array, pairs = document("[1]"), document('{"a":1}')
    assert stepped(bytes.fromhex("80000005"), 0, 0, 24) == ("InvalidEOF", "InvalidEOF")
    assert stepped(array, 0, 0, 8) == ("None", "Ok")
    assert stepped(array, 1, 0, 10) == ("None", "None")
    assert stepped(array[:-1], 0, 0, 8) == ("InvalidJsonb", "InvalidJsonb")
    assert stepped(pairs, 0, 12, 13) == ("Ok", "Ok")
    assert stepped(pairs[:-1], 0, 12, 13) == ("InvalidJsonb", "InvalidJsonb")


def index_keys():
    """The bytes that docs/FUNCTIONS.md says are hashed."""
    def hashed(text):
        value = 0xcbf29ce484222325
        for byte in bytes.fromhex(text):
            value = (value ^ byte) * 0x100000001b3 % 2 ** 64
        return value

    for call, text, keys in (
            ("index_keys", '{"id":3,"town":"Oslo"}',
             ("6964 01 00 8206", "746f776e 01 00 a0 4f736c6f 01")),
            ("index_keys", '{"a":[1,{"b\\u0000":null}]}',
             ("61 01 00 8202", "61 01 62 0201 01 00 d0")),
            ("index_keys", "[1,[1.0]]", ("00 8202", "00 8202")), ("index_keys", "{}", ()),
            ("top_keys", '{"a":1,"b\\u0000":{"c":2}}', ("0000 61", "0000 6200")),
            ("top_keys", '["a",1,"a"]', ("0000 61", "0000 61")), ("top_keys", '"a"', ("0000 61",)),
            ("top_keys", "1", ())):
        made, count = (ctypes.c_uint64 * 9)(), SIZE()
        status = getattr(LIBRARY, "kohiblad_" + call)(*given([document(text), 9]), made, SIZE(9),
                                                      ctypes.byref(count))
        assert (status, made[:count.value]) == (0, list(map(hashed, keys))), text


def probe(line, answer):
    """Whether a call of the library answers this line of jsonb_probe, and then whether alike."""
    command, *words = line.split(" ")
    if answer in ("error BadCommand", "error BadHex"):
        return None
    if command in ("array_of", "object_of"):
        if command == "array_of":
            parts = [bytes.fromhex(word) for word in words]
        else:
            parts = [bytes.fromhex(it) for word in words for it in word.split("=", 1)]
        # The call for C checks the documents before the keys.
        documents = parts if command == "array_of" else parts[1::2]
        if not all(map(is_document, documents)):
            answer = "error InvalidJsonb"
        return said(ask(CALLS[command], *rows(parts), ANY_DEPTH)) == answer
    taken = {"is_document": 1, "is_canonical": 1, "within": 2, "to_canonical": 1, "item_type": 1,
             "cmp": 2, "to_string": 1, "to_pretty_string": 1, "lookup": 2, "array": 1, "pairs": 1}
    if len(words) != taken.get(command):
        return None
    given_bytes = bytes.fromhex(words[0])
    if command in ("is_document", "is_canonical"):
        return str(tell(CALLS[command], given_bytes, ANY_DEPTH)).lower() == answer
    if command == "within":
        depth = int(words[1])
        return depth >= 2 ** 63 or str(tell("check", given_bytes, depth)).lower() == answer
    if command == "item_type":
        kind = tell("kind", given_bytes)
        count = f" {kind.count}" if kind.kind > 4 else ""
        if kind.status:
            return f"error {name_of(kind.status)}" == answer
        return f"ok {KINDS[kind.kind]}{count}" == answer
    if command == "cmp":
        sign = tell("compare", given_bytes, bytes.fromhex(words[1]), ANY_DEPTH)
        return ("equal", "greater", "less")[sign] == answer.split(" ")[0]
    if command in ("to_string", "to_pretty_string", "to_canonical"):
        return said(ask(CALLS[command], given_bytes, ANY_DEPTH)) == answer
    if command == "lookup":
        status, value = ask("get_key", given_bytes, bytes.fromhex(words[1]))
        told = answer if answer.startswith("error") else answer.split(" ", 2)[2]
        if status == 0:
            return not is_document(given_bytes) or told.split(" ")[1] == value.hex()
        return told == ("none" if status == NONE else f"error {name_of(status)}")
    if not is_document(given_bytes):
        return None
    if answer == "none":
        is_array = command == "array"
        first = ask("get_index", given_bytes, 0) if is_array else member(given_bytes, 0)
        return first[0] == NONE
    items = answer.split(" | ")[1:-1]
    if command == "array":
        mine = [ask("get_index", given_bytes, i) for i in range(len(items))]
        return [item.split(" ")[1] for item in items] == [value.hex() for _, value in mine]
    mine = [member(given_bytes, i) for i in range(len(items))]
    theirs = [item.split(" ") for item in items]
    return [(it[0], it[2]) for it in theirs] == [(key.hex(), value.hex()) for _, key, value in mine]


def cli(line, answer):
    """The same of a line of jsonb_cli: texts that are written as documents."""
    if not line.startswith("enc "):
        return None
    status, document = parse(line[4:].encode("utf-8", "surrogateescape"), 1000)
    return said((status, document)) == answer


def agreement(folder):
    for program, judge, files in (
        ("jsonb_probe", probe, "sample byte-order rows-builders rows-canonical rows-documents "
                               "rows-items rows-lookup rows-texts"),
        ("jsonb_cli", cli, "sample byte-order rows-texts"),
    ):
        asked = 0
        for file in files.split():
            lines, answers = (
                open(f"{folder}/{program}/{file}.{end}", encoding="utf-8", errors="surrogateescape",
                     newline="\n").read().split("\n")
                for end in ("in", "out")
            )
            for line, answer in zip(lines, answers):
                alike = judge(line, answer)
                if alike is None:
                    continue
                asked += 1
                assert alike, f"{program}: {line}: {answer}"
        assert asked > 100, program
        print(f"{asked} lines of {program} are answered alike")



# The status of an error of a path, by that of SQL.
PATH_ERRORS = {"2203A": 25, "2203C": 26, "22039": 27, "22033": 28, "22036": 29, "22038": 30,
               "2203B": 31, "22012": 32, "42704": 34}


def query_examples():
    """What paths of SQL/JSON give, as PostgreSQL answered, and where a text is none."""
    asked = 0
    for line in open(f"{HERE}/../paths/examples.txt", encoding="utf-8"):
        if line.startswith("#") or not line.strip():
            continue
        text, path, values, *error = line.rstrip("\n").split("\t")
        given = [parse(it.encode(), 100, 1)[1] for it in (text, values)]
        path, is_strict = path.encode(), path.startswith("strict")
        status = PATH_ERRORS[error[0]] if error else 0
        # A silent call hides all errors but that of a variable that is not given.
        for silent, shown in ((0, status), (1, status if status == 34 else 0)):
            answer = ask("path_query", given[0], path, b"", silent, 100)
            assert answer == ((shown, b"") if shown else (0, given[1])), (line, answer)
            truth = tell("path_exists", given[0], path, b"", silent, 100)
            if status and (is_strict or values == "[]"):
                assert (truth.status, truth.value) == (shown or 12, 0), line
            else:
                assert (truth.status, truth.value) == (0, values != "[]"), line
        asked += 1
    assert asked > 30
    number, variables = parse(b"2", 0)[1], parse(b'{"x": 2}', 1)[1]
    two = parse(b"[2]", 1)[1]
    assert ask("path_query", number, b"$ ? (@ == $x)", variables, 0, 1) == (0, two)
    assert ask("path_query", number, b"$x", b"", 1, 0) == (34, b"")
    assert ask("path_query", number, b"$", number, 0, 0) == (14, b"")
    assert ask("path_query", number, b"$", variables, 0, 0) == (2, b"")
    assert ask("path_query", number, b"$.", b"", 0, 0) == (14, b"")
    assert ask("path_query", number, b"\xff", b"x", 0, 0) == (7, b"")
    for text, path, silent, answer in (
            (b"2", b"$ == 2", 0, (0, 1)), (b"2", b"$ > 2", 0, (0, 0)),
            (b"2", b'$ > "b"', 0, (12, 0)), (b"2", b"$", 0, (35, 0)), (b"2", b"$", 1, (12, 0)),
            (b"null", b"$", 0, (12, 0)), (b"[true, true]", b"$[*]", 0, (35, 0)),
            (b'[{"b": true}, {}]', b"strict $[*].b", 0, (25, 0)),
            (b'[{"b": true}, {}]', b"strict $[*].b", 1, (0, 1)),
            (b"true", b"$x", 1, (34, 0))):
        truth = tell("path_match", parse(text, 9)[1], path, b"", silent, 9)
        assert (truth.status, truth.value) == answer, (text, path, silent)
    for path, answer in ((b"$.a", (0, 0, 3, 0, 0, 0, 0)), (b"$.a[", (14, 5, 4, 4, 0, 1, 0)),
                         (b"$.a[1", (14, 5, 5, 6, ord("]"), 1, 0)),
                         (b'$."a', (14, 2, 2, 0, 0, 0, 0)),
                         (b"$ / 2", (14, 6, 2, 0, 0, 0, 4)), (b"\xff", (7, 0, 0, 0, 0, 0, 0))):
        fault = tell("path_fault", path)
        found = tuple(getattr(fault, it) for it, _ in PathFault._fields_)
        assert found == answer, (path, found)
    for path, printed in ((b"lax $.a[*]", b'$."a"[*]'), (b"strict $.a+1", b'strict ($."a" + 1)')):
        assert ask("path_print", path) == (0, printed), path
    assert ask("path_print", b"$.") == (14, b"")
    for path, report in (
            (b"$.a = 1", "$.a = 1\n    ^ expected an operator, an accessor or the end at byte 4, "
                         "found `=`; equal is `==`"),
            (b"$[0:2]", "$[0:2]\n   ^ expected `]` at byte 3, found `:`; the first two items are "
                        "`[0 to 1]`"),
            (b"$..a", "$..a\n  ^ expected a key, `*`, `**` or a method at byte 2, found `.`; all "
                      "levels are `.**`")):
        assert ask("path_report", path) == (0, report.encode()), path
    assert ask("path_report", b"$.a") == (12, b"")
    assert ask("path_report", b"\xff") == (7, b"")


for test in (known_answers, path_texts, spaced_paths, edits, refusals, faults, walks,
             index_keys, query_examples):
    test()
agreement(sys.argv[2])
