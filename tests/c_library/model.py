"""Asks the functions over documents of the shared library, on random documents, and compares each
answer with that of a model on Python values.

    python3 model.py libkohiblad.so QUESTIONS [SEED]

The model writes its documents itself, by docs/FORMAT.md, also in old forms; results of the library
must be the canonical documents of the model's results, byte by byte.
"""
import collections
import ctypes
import operator
import random
import re
import struct
import sys
from fractions import Fraction

LIBRARY = ctypes.CDLL(sys.argv[1])
SIZE = ctypes.c_size_t
OK, INVALID_JSONB, NO_ROOM, NONE, OTHER_KIND, TOO_MANY_STEPS = 0, 2, 11, 12, 14, 18
NO_LIMIT = 2**64 - 1
ROOM = 1 << 16
KEYS = ["", "a", "b", "c", "aa", "ab", "\u00e9", "z"]

NULL, STRING, NUMBER, FALSE, TRUE, CONTAINER, EXTENSION = (
    0x00000000, 0x10000000, 0x20000000, 0x30000000, 0x40000000, 0x50000000, 0x60000000)
SCALAR_HEADER, ARRAY_HEADER, OBJECT_HEADER = 0x20000000, 0x80000000, 0x40000000


class Truth(ctypes.Structure):
    _fields_ = [("status", ctypes.c_uint32), ("value", ctypes.c_uint32)]


class Place(ctypes.Structure):
    _fields_ = [("status", ctypes.c_uint32), ("type", ctypes.c_uint32),
                ("offset", ctypes.c_uint64), ("length", ctypes.c_uint64)]


LIBRARY.kohiblad_contains.restype = LIBRARY.kohiblad_exists.restype = Truth
LIBRARY.kohiblad_exists_any.restype = LIBRARY.kohiblad_exists_all.restype = Truth
LIBRARY.kohiblad_array_overlap.restype = Truth
LIBRARY.kohiblad_get_path.restype = Place

# A number or an extension value: what it is compared by, its stored payload, and the written one.
Scalar = collections.namedtuple("Scalar", "tag meaning stored written")


def number(value, scale, stored, written=None):
    """The number `value / 10**scale`."""
    return Scalar(NUMBER, Fraction(value, 10**scale), stored, written or stored)


def whole(value, width=None):
    """A whole number in the fewest bytes, or stored in the old form of this width."""
    if value == 0:
        written = b"\0"
        stored = written if width is None else b"\x40" + bytes(width)
        return number(0, 0, stored, written)
    first, signed = (b"\x50", False) if value > 0 else (b"\x40", True)

    def payload(width):
        return first + value.to_bytes(width, "big", signed=signed)

    for fewest in (1, 2, 4, 8):
        try:
            written = payload(fewest)
            break
        except OverflowError:
            pass
    return number(value, 0, payload(max(width or 0, fewest)), written)


def decimal(value, scale, width=8, gap=b""):
    """A decimal of 64 or 128 bits; with a byte between value and scale in its old form."""
    digits = b"\x70" + value.to_bytes(width, "big", signed=True)
    return number(value, scale, digits + gap + bytes([scale]), digits + bytes([scale]))


def extension(stored, written=None):
    written = written or stored
    return Scalar(EXTENSION, written, stored, written)


SCALARS = [
    None, True, False, "", "a", "xyz", "\u00e9", "long" * 30,
    whole(0), whole(0, 1), whole(1), whole(5), whole(5, 8), whole(-7), whole(-7, 4), whole(300),
    whole(300, 4), whole(2**63), whole(2**64 - 1), whole(-2**63),
    decimal(50, 1), decimal(150, 2), decimal(0, 2), decimal(5, 0, 16), decimal(500, 2, 16, b"\x26"),
    decimal(10**30, 0, 16), decimal(-150, 2),
    extension(b"\x00\xab"), extension(b"\x10" + bytes(4)), extension(b"\x20" + bytes(8)),
    extension(b"\x30" + bytes(8) + struct.pack(">i", 3600)),
    extension(b"\x30" + bytes(8) + b"\x01", b"\x30" + bytes(8) + struct.pack(">i", 3600)),
    extension(b"\x40" + bytes(16)), extension(b"\x50\x01"), extension(b"\xf0"),
]


def entry(value, stored):
    """The tag and the payload of a value, in its stored or its written form."""
    if value is None:
        return NULL, b""
    if isinstance(value, bool):
        return TRUE if value else FALSE, b""
    if isinstance(value, str):
        return STRING, value.encode()
    if isinstance(value, Scalar):
        return value.tag, value.stored if stored else value.written
    return CONTAINER, container(value, stored)


def container(value, stored):
    if isinstance(value, list):
        header, keys, values = ARRAY_HEADER, [], value
    else:
        header, keys = OBJECT_HEADER, sorted(value, key=str.encode)
        values = [value[key] for key in keys]
    entries = [(STRING, key.encode()) for key in keys] + [entry(it, stored) for it in values]
    return b"".join([struct.pack(">I", header + len(values)),
                     *(struct.pack(">I", tag + len(payload)) for tag, payload in entries),
                     *(payload for _, payload in entries)])


def document(value, stored=True):
    tag, payload = entry(value, stored)
    if tag == CONTAINER:
        return payload
    return struct.pack(">II", SCALAR_HEADER, tag + len(payload)) + payload


def depth_of(value):
    if isinstance(value, list):
        return 1 + max(map(depth_of, value), default=0)
    if isinstance(value, dict):
        return 1 + max(map(depth_of, value.values()), default=0)
    return 0


def data_of(value):
    """The bytes of a text, or of a binary or opaque value."""
    if isinstance(value, str):
        return value.encode()
    is_data = isinstance(value, Scalar) and value.tag == EXTENSION and (
        value.stored[0] == 0 or value.stored[0] > 0x40)
    return value.stored[1:] if is_data else b""


def weight_of(value):
    """How many values and keys there are, and bytes of keys, texts and data."""
    if isinstance(value, list):
        return 1 + sum(map(weight_of, value))
    if isinstance(value, dict):
        return 1 + sum(1 + len(name.encode()) + weight_of(it) for name, it in value.items())
    return 1 + len(data_of(value))


def is_container(value):
    return isinstance(value, (list, dict))


# The model.

def are_equal(left, right):
    """Whether two scalars are equal."""
    if isinstance(left, Scalar) and isinstance(right, Scalar):
        return (left.tag, left.meaning) == (right.tag, right.meaning)
    return type(left) is type(right) and left == right


def are_same(left, right):
    """Whether two values are equal."""
    if isinstance(left, list) and isinstance(right, list):
        return len(left) == len(right) and all(map(are_same, left, right))
    if isinstance(left, dict) and isinstance(right, dict):
        return left.keys() == right.keys() and all(are_same(left[it], right[it]) for it in left)
    return not is_container(left) and not is_container(right) and are_equal(left, right)


def items_of(value):
    """The items of an array; any other value is one item."""
    return value if isinstance(value, list) else [value]


def distinct(value):
    firsts = []
    for item in items_of(value):
        if not any(are_same(item, it) for it in firsts):
            firsts.append(item)
    return firsts


def by_match(left, right):
    """The items of the one for which the other has an equal that none before took, and the rest."""
    matched, rest, others = [], [], list(items_of(right))
    for item in items_of(left):
        number = next((k for k, it in enumerate(others) if are_same(item, it)), None)
        if number is None:
            rest.append(item)
        else:
            matched.append(item)
            del others[number]
    return matched, rest


def escaped(data):
    return b"".join(bytes([2, it + 1]) if it < 3 else bytes([it]) for it in data) + b"\1"


def number_key(value):
    left = abs(value) * 10**256
    assert left.denominator == 1
    pairs, left = [], left.numerator
    while left:
        left, pair = divmod(left, 100)
        pairs.insert(0, pair)
    if not pairs:
        return b"\x80"
    count = bytes([len(pairs) + 1] if len(pairs) >= 129 else [0x81, len(pairs)])
    while not pairs[-1]:
        del pairs[-1]
    key = count + bytes(2 * it + 1 for it in pairs[:-1]) + bytes([2 * pairs[-1]])
    return bytes(255 - it for it in key) if value < 0 else key


# The first byte of an extension value's key, and where its signed fields begin.
FIELDS = {0x10: (17, [0]), 0x20: (18, [0]), 0x30: (19, [0, 8]), 0x40: (20, [0, 4, 8])}


def extension_key(payload):
    tag, fields = payload[0], bytearray(payload[1:])
    if tag == 0:
        return b"\x10" + escaped(fields)
    if tag not in FIELDS:
        return b"\x15" + bytes([tag]) + escaped(fields)
    first, starts = FIELDS[tag]
    for start in starts:
        fields[start] ^= 0x80
    return bytes([first]) + fields


def key(value):
    """The comparable key, by docs/COMPARABLE.md."""
    if value is None:
        return b"\xd0"
    if isinstance(value, bool):
        return b"\x21" if value else b"\x20"
    if isinstance(value, str):
        return b"\xa0" + escaped(value.encode())
    if isinstance(value, Scalar):
        of_tag = number_key if value.tag == NUMBER else extension_key
        return of_tag(value.meaning)
    if isinstance(value, list):
        return b"\xc0" + b"".join(map(key, value)) + b"\0"
    members = sorted((name.encode(), it) for name, it in value.items())
    return b"\xb0" + b"".join(escaped(name) + key(it) for name, it in members) + b"\0"


def contained(left, right):
    if isinstance(left, list) and isinstance(right, list):
        return all(any(contained(it, wanted) for it in left) for wanted in right)
    if isinstance(left, dict) and isinstance(right, dict):
        return all(key in left and contained(left[key], right[key]) for key in right)
    return not is_container(left) and not is_container(right) and are_equal(left, right)


def by_keys(value):
    return iter(sorted((name.encode(), it) for name, it in value.items()))


def steps_to_all(left, right):
    """The steps of containment of a value in a value."""
    if isinstance(left, list) and isinstance(right, list):
        steps = 1
        for wanted in right:
            steps += steps_to_one(left, wanted)
            if not any(contained(it, wanted) for it in left):
                break
        return steps
    if isinstance(left, dict) and isinstance(right, dict):
        steps, members = 1, by_keys(left)
        for key, wanted in by_keys(right):
            found = None
            for name, it in members:
                steps += 1 + len(name)
                if name >= key:
                    found = (it,) if name == key else None
                    break
            if not found:
                break
            steps += steps_to_all(found[0], wanted)
            if not contained(found[0], wanted):
                break
        return steps
    texts = isinstance(left, str) and isinstance(right, str)
    both = [isinstance(it, Scalar) and it.tag == EXTENSION for it in (left, right)]
    data = data_of(left)
    return 1 + (len(data) if (texts or all(both)) and len(data) == len(data_of(right)) else 0)


def steps_to_one(items, wanted):
    """The steps to the first item that contains a value."""
    steps = 0
    for it in items:
        steps += steps_to_all(it, wanted)
        if contained(it, wanted):
            break
    return steps


def steps_in(left, right):
    if isinstance(left, list) and not is_container(right):
        return steps_to_one(left, right)
    return steps_to_all(left, right)


def contains(left, right):
    if isinstance(left, list) and not is_container(right):
        return any(contained(it, right) for it in left)
    return contained(left, right)


def exists(value, key):
    if isinstance(value, (list, dict)):
        return any(type(it) is str and it == key for it in value)
    return type(value) is str and value == key


def place(index, count):
    """How many items are before an index, and whether there is one."""
    if index >= 0:
        return min(index, count), index < count
    return max(count + index, 0), -index <= count


def edited(value, path, edit, new):
    """The value after an edit at the end of a path that has a step."""
    step, rest = path[0], path[1:]
    if isinstance(value, list) and isinstance(step, int):
        before, is_there = place(step, len(value))
        first, last = value[:before], value[before:]
        if rest:
            return first + [edited(last[0], rest, edit, new)] + last[1:] if is_there else value
        if edit == "remove":
            return first + last[1:] if is_there else value
        return first + [new] + (last[1:] if edit == "put" and is_there else last)
    if isinstance(value, dict) and isinstance(step, str):
        if rest:
            if step not in value:
                return value
            return {**value, step: edited(value[step], rest, edit, new)}
        if edit == "remove":
            return {key: it for key, it in value.items() if key != step}
        return value if edit == "insert" and step in value else {**value, step: new}
    return value


def can_wrap(path):
    """Whether containers are made for these steps."""
    return all(isinstance(step, str) or step in (0, NO_LIMIT) for step in path)


def wrapped(path, new):
    """The value in a container for each step."""
    for step in reversed(path):
        new = {step: new} if isinstance(step, str) else [new]
    return new


def created(value, path, new):
    """The value after one was put at the end of a path, with the containers that it lacks."""
    if not path:
        return new
    step, rest = path[0], path[1:]
    if isinstance(value, list) and isinstance(step, int):
        before, is_there = place(step, len(value))
        if is_there:
            return value[:before] + [created(value[before], rest, new)] + value[before + 1:]
        is_next = step in (len(value), NO_LIMIT)
        return value + [wrapped(rest, new)] if is_next and can_wrap(rest) else value
    if isinstance(value, dict) and isinstance(step, str):
        if step in value:
            return {**value, step: created(value[step], rest, new)}
        return {**value, step: wrapped(rest, new)} if can_wrap(rest) else value
    return value


def patched(target, patch):
    """The target after a JSON Merge Patch."""
    if not isinstance(patch, dict):
        return patch
    merged = dict(target) if isinstance(target, dict) else {}
    for key, value in patch.items():
        if value is None:
            merged.pop(key, None)
        else:
            merged[key] = patched(merged.get(key), value)
    return merged


def stripped(value):
    """The value without the members that are null."""
    if isinstance(value, list):
        return [stripped(it) for it in value]
    if isinstance(value, dict):
        return {key: stripped(it) for key, it in value.items() if it is not None}
    return value


def in_order(value):
    return [value[key] for key in sorted(value, key=str.encode)]


def children(value, step):
    """The children to which a step of a path with wildcards leads: a key, an index, `*` for all
    items, `.*` for all members, the first and the last index of a range, or the indexes of a list.
    A filter leads to the value itself, or to nothing."""
    kind, *rest = step
    if kind == "filter":
        steps, comparison, literal = rest
        return [value for it in selected(value, steps)
                if COMPARISONS[comparison](in_rank(it), in_rank(LITERALS[literal]))]
    if isinstance(value, dict):
        if kind == "key":
            return [value[rest[0]]] if rest[0] in value else []
        return in_order(value) if kind == ".*" else []
    if not isinstance(value, list):
        return []
    if kind == "*":
        return value
    if kind == "index":
        before, is_there = place(rest[0], len(value))
        return [value[before]] if is_there else []
    if kind == "range":
        (first, _), (last, is_there) = (place(it, len(value)) for it in rest)
        return value[first:last + is_there]
    if kind == "list":
        return [it for index in rest for it in children(value, ("index", index))]
    return []


def selected(value, path):
    if not path:
        return [value]
    return [it for child in children(value, path[0]) for it in selected(child, path[1:])]


# What filters may compare with, as it is written, and how.
LITERALS = {
    "null": None, "true": True, "false": False, '"a"': "a", '""': "", '"b) == "': "b) == ",
    '"\u00e9"': "\u00e9", "0": whole(0), "-0": whole(0), "1.00": whole(1), "5": whole(5),
    "5e0": whole(5), "5.0": decimal(50, 1), "1.5": decimal(150, 2), "15E-1": decimal(150, 2),
    "-7": whole(-7), "9223372036854775808": whole(2**63),
    "1000000000000000000000000000000": decimal(10**30, 0, 16),
}
COMPARISONS = {"==": operator.eq, "!=": operator.ne, "<>": operator.ne, "<": operator.lt,
               "<=": operator.le, ">": operator.gt, ">=": operator.ge}


def in_rank(value):
    """The rank of a value's kind, and by what a literal of that kind is compared."""
    if value is None:
        return 7, 0
    if isinstance(value, list):
        return 6, 0
    if isinstance(value, dict):
        return 5, 0
    if isinstance(value, str):
        return 4, value.encode()
    if isinstance(value, bool):
        return 2, value
    return (3, value.meaning) if value.tag == NUMBER else (1, 0)


def joined(left, right):
    if isinstance(left, dict) and isinstance(right, dict):
        return {**left, **right}
    return sum((it if isinstance(it, list) else [it] for it in (left, right)), [])


def scalars_in(value):
    if isinstance(value, list):
        return sum(map(scalars_in, value))
    if isinstance(value, dict):
        return sum(map(scalars_in, value.values()))
    return 1


def top_keys_in(value):
    if isinstance(value, dict):
        return len(value)
    return sum(isinstance(it, str) for it in (value if isinstance(value, list) else [value]))


# The library.

def call(name, *values):
    export = getattr(LIBRARY, "kohiblad_" + name)
    crossed = []
    for it in values:
        crossed += [it, SIZE(len(it))] if isinstance(it, bytes) else [it]
    return export, crossed


OUT = ctypes.create_string_buffer(ROOM)


def bytes_of(name, *values):
    """The status of a call whose result is bytes, and those."""
    export, crossed = call(name, *values)
    length = SIZE()
    status = export(*crossed, OUT, SIZE(ROOM), ctypes.byref(length))
    return status, OUT.raw[:length.value] if status == OK else b""


def keys_of(name, *values):
    """The status of a call whose result is keys, and those."""
    export, crossed = call(name, *values)
    keys, count = (ctypes.c_uint64 * (len(values[0]) // 4))(), SIZE()
    status = export(*crossed, keys, SIZE(len(keys)), ctypes.byref(count))
    return status, collections.Counter(keys[:count.value])


def entry_at(stored, found):
    """The tag and the bytes at a place."""
    assert found.offset + found.length <= len(stored)
    return found.type, stored[found.offset:found.offset + found.length]


# How many steps a path has, and how many indexes a list in it.
MOST_STEPS = 4
MOST_INDEXES = 3


def places_of(stored, text, depth):
    """The status of a selection, and the places that it found."""
    export, crossed = call("select", stored, text, SIZE(depth))
    places, count = (Place * ((len(stored) // 4 + 1) * MOST_INDEXES))(), SIZE()
    status = export(*crossed, places, SIZE(len(places)), ctypes.byref(count))
    return status, places[:count.value]


def truth_of(name, *values):
    export, crossed = call(name, *values)
    answer = export(*crossed)
    return answer.status, bool(answer.value)


# The questions: each calls the library with random values, and compares with the model.

def any_value(chance, depth):
    kind = chance.random()
    if depth == 0 or kind < 0.35:
        return chance.choice(SCALARS)
    count = chance.choice([0, 1, 1, 2, 2, 3, 4, 6])
    if kind < 0.65:
        return [any_value(chance, depth - 1) for _ in range(count)]
    return {key: any_value(chance, depth - 1) for key in chance.sample(KEYS, count)}


def part_of(chance, value):
    """What the value is likely to contain."""
    if isinstance(value, list):
        items = [part_of(chance, it) for it in value if chance.random() < 0.5]
        chance.shuffle(items)
        return items
    if isinstance(value, dict):
        return {key: part_of(chance, it) for key, it in value.items() if chance.random() < 0.5}
    return chance.choice(SCALARS) if chance.random() < 0.05 else value


def any_path(chance, value):
    """A path that is likely to lead somewhere."""
    path = []
    while chance.random() < 0.8:
        if isinstance(value, list) and chance.random() < 0.95:
            path.append(chance.randint(-len(value) - 1, len(value)))
            before, is_there = place(path[-1], len(value))
            value = value[before] if is_there else None
        elif isinstance(value, dict) and chance.random() < 0.95:
            path.append(chance.choice(list(value) + KEYS))
            value = value.get(path[-1])
        elif chance.random() < 0.3:
            path.append(chance.choice([0, -1, "a", ""]))
            value = None
        else:
            break
    return path


def path_document(path, stored=True):
    return document([it if isinstance(it, str) else whole(it) for it in path], stored)


def index_text(chance, index):
    if index >= 0:
        return str(index)
    if chance.random() < 0.5:
        return f"#{index}"
    return "last" + (chance.choice(["-%d", " - %d"]) % (-1 - index) if index < -1 else "")


def written(chance, step):
    """A step of a path with wildcards as a text."""
    kind, *rest = step
    if kind == "filter":
        steps, comparison, literal = rest
        path = "".join(written(chance, it) for it in steps)
        return f"?(@{path} {comparison} {literal})"
    bound = [f"[{index_text(chance, it)}]" for it in rest if kind != "key"]
    if kind == "key":
        is_plain = rest[0] and rest[0] != "*" and chance.random() < 0.5
        return f".{rest[0]}" if is_plain else f'."{rest[0]}"'
    if kind == "range":
        return f"{bound[0][:-1]} to {bound[1][1:]}"
    if kind == "list":
        return "[%s]" % chance.choice([",", ", "]).join(it[1:-1] for it in bound)
    return {"*": "[*]", ".*": ".*"}.get(kind) or bound[0]


def any_filter(chance):
    steps = [any_step(chance, ["key", "index"]) for _ in range(chance.randint(0, 2))]
    return "filter", steps, chance.choice(list(COMPARISONS)), chance.choice(list(LITERALS))


ALL_STEPS = ("key", "key", "index", "index", "*", ".*", "range", "list", "filter")


def any_step(chance, kinds=ALL_STEPS):
    kind = chance.choice(kinds)
    if kind == "filter":
        return any_filter(chance)
    if kind == "key":
        return kind, chance.choice(KEYS)
    if kind == "index":
        return kind, chance.randint(-3, 3)
    if kind == "range":
        return kind, chance.randint(-3, 3), chance.randint(-3, 3)
    if kind == "list":
        return kind, *(chance.randint(-3, 3) for _ in range(chance.randint(2, MOST_INDEXES)))
    return kind,


def any_wildcard_path(chance):
    """A path with wildcards, and at most one list of indexes."""
    path = []
    for _ in range(chance.randint(0, MOST_STEPS)):
        has_list = any(kind == "list" for kind, *_ in path)
        path.append(any_step(chance, [it for it in ALL_STEPS if it != "list" or not has_list]))
    return path


def path_text(chance, path):
    return ("$" + "".join(written(chance, step) for step in path)).encode()


# Names that are an index, or nearly one, and names that have to be escaped or quoted.
NAMES = KEYS + ["0", "1", "2", "-", "-1", "-2", "-0", "00", "01", "1a", "+1", str(2**64),
                str(-2**64), "~", "a/b", "~1", "x y", "\t", '"', "\\", "a,b", "{}", "null", "NuLl"]


def step_of(name, value):
    """The step that a name is at a value: a key, but in an array."""
    if isinstance(value, list):
        if name == "-":
            return NO_LIMIT
        if re.fullmatch("0|[1-9][0-9]*", name):
            return min(int(name), NO_LIMIT)
        if re.fullmatch("-[1-9][0-9]*", name):
            return max(int(name), -2**63)
    return name


def steps_of(names, value):
    steps = []
    for name in names:
        steps.append(step_of(name, value))
        kind = "key" if isinstance(steps[-1], str) else "index"
        value, = children(value, (kind, steps[-1])) or [None]
    return steps


def quoted(chance, name):
    """A name in a list as PostgreSQL writes an array of texts, at times with needless quotes."""
    if name and name.upper() != "NULL" and not re.search(r'[\s{},"\\]', name):
        if chance.random() < 0.8:
            return name
    return '"%s"' % re.sub(r'["\\]', r"\\\g<0>", name)


def names_text(chance, names):
    """A JSON pointer or a list of these names."""
    if chance.random() < 0.5:
        return "".join("/" + it.replace("~", "~0").replace("/", "~1") for it in names)
    return "{%s}" % ",".join(quoted(chance, it) for it in names)


def any_path_names(chance, value):
    """Names that are likely to lead somewhere."""
    names = []
    while chance.random() < 0.8:
        others = NAMES
        if isinstance(value, list) and chance.random() < 0.8:
            others = [str(it) for it in range(-len(value) - 1, len(value) + 1)]
        elif isinstance(value, dict) and value and chance.random() < 0.8:
            others = list(value)
        names.append(chance.choice(others))
        steps = steps_of(names[-1:], value)
        kind = "key" if isinstance(steps[0], str) else "index"
        value, = children(value, (kind, steps[0])) or [None]
    return names


def asks_names(chance, left, right):
    names, depth = any_path_names(chance, left), max(depth_of(left), 1)
    text = names_text(chance, names).encode()
    answer = bytes_of("path_in", document(left), text, SIZE(depth))
    assert answer == (OK, path_document(steps_of(names, left), stored=False)), text
    if depth_of(left) > 0:
        answer = bytes_of("path_in", document(left), text, SIZE(depth_of(left) - 1))
        assert answer == (INVALID_JSONB, b""), text
    cut = text[:-1] if text.startswith(b"{") else text + b"~"
    answer = bytes_of("path_in", document(left), cut, SIZE(depth))
    assert answer == (OTHER_KIND, b""), cut


def asks_path_in(chance, left, right):
    """Paths that are texts of their own are the same in each document."""
    steps = [("key" if isinstance(it, str) else "index", it) for it in any_path(chance, left)]
    text = path_text(chance, steps)
    answer = bytes_of("path_in", document(left), text, SIZE(depth_of(left)))
    assert answer == bytes_of("path_of_text", text), text


def asks_contains(chance, left, right):
    wanted = contains(left, right)
    product, needed = weight_of(left) * weight_of(right), steps_in(left, right)
    assert needed <= product
    steps = chance.choice([NO_LIMIT, product, needed, max(needed, 1) - 1, chance.randint(0, product)])
    depth = max(depth_of(left), depth_of(right))
    stored = document(left), document(right)
    status, answer = truth_of("contains", *stored, SIZE(depth), SIZE(steps))
    if steps < needed:
        assert (status, answer) == (TOO_MANY_STEPS, False)
    else:
        assert (status, answer) == (OK, wanted)
    if depth > 0:
        status, answer = truth_of("contains", *stored, SIZE(depth - 1), SIZE(steps))
        assert (status, answer) == (INVALID_JSONB, False)


def asks_exists(chance, left, right):
    key = chance.choice(KEYS + ["xyz"])
    status, answer = truth_of("exists", document(left), key.encode(), SIZE(depth_of(left)))
    assert (status, answer) == (OK, exists(left, key))


def asks_exists_many(chance, left, right):
    names, depth = chance.choices(KEYS + ["xyz"], k=chance.randint(0, 4)), max(depth_of(left), 1)
    stored, there = (document(left), document(names)), [exists(left, key) for key in names]
    assert truth_of("exists_any", *stored, SIZE(depth)) == (OK, any(there)), names
    assert truth_of("exists_all", *stored, SIZE(depth)) == (OK, all(there)), names


def asks_concat(chance, left, right):
    depth = max(depth_of(left), depth_of(right))
    answer = bytes_of("concat", document(left), document(right), SIZE(depth))
    assert answer == (OK, document(joined(left, right), stored=False))


def asks_merge_patch(chance, left, right):
    if isinstance(right, dict):
        right = {key: chance.choice([None, it]) for key, it in right.items()}
    depth = max(depth_of(left), depth_of(right))
    answer = bytes_of("merge_patch", document(left), document(right), SIZE(depth))
    assert answer == (OK, document(patched(left, right), stored=False))


def asks_strip_nulls(chance, left, right):
    answer = bytes_of("strip_nulls", document(left), SIZE(depth_of(left)))
    assert answer == (OK, document(stripped(left), stored=False))


def asks_select(chance, left, right):
    path = any_wildcard_path(chance)
    stored, text = document(left), path_text(chance, path)
    status, places = places_of(stored, text, depth_of(left))
    assert status == OK
    wanted = [entry(it, stored=True) for it in selected(left, path)]
    assert [entry_at(stored, it) for it in places] == wanted, text
    if not any(kind == "list" for kind, *_ in path):
        assert all(it.offset <= after.offset for it, after in zip(places, places[1:])), text


def asks_get_path(chance, left, right):
    path, stored = any_path(chance, left), document(left)
    steps = [("key" if isinstance(it, str) else "index", it) for it in path]
    export, crossed = call("get_path", stored, path_document(path), SIZE(max(depth_of(left), 1)))
    found, wanted = export(*crossed), selected(left, steps)
    assert found.status == (OK if wanted else NONE)
    if wanted:
        assert entry_at(stored, found) == entry(wanted[0], stored=True)
    answer = bytes_of("path_of_text", path_text(chance, steps))
    assert answer == (OK, path_document(path, stored=False))


def asks_edit(chance, left, right):
    number = chance.randrange(4)
    edit, path = ("put", "insert", "remove", "create")[number], any_path(chance, left)
    if edit == "create":
        path += chance.choices(["a", "z", 0, 0, 1, -1, NO_LIMIT], k=chance.randint(0, 2))
        wanted = created(left, path, right)
    elif path:
        wanted = edited(left, path, edit, right)
    else:
        wanted = right if edit == "put" else left
    value = b"" if edit == "remove" else document(right)
    depth = max(depth_of(left), depth_of(right), 1)
    answer = bytes_of("edit", document(left), path_document(path), ctypes.c_uint32(number), value,
                      SIZE(depth))
    assert answer == (OK, document(wanted, stored=False)), (path, edit)


def asks_no_path(chance, left, right):
    """A document that is not a path."""
    is_path = isinstance(right, list) and all(
        isinstance(it, str)
        or isinstance(it, Scalar) and it.tag == NUMBER and it.stored[0] != 0x70 for it in right)
    if not is_path:
        answer = bytes_of("edit", document(left), document(right), ctypes.c_uint32(2), b"",
                          SIZE(9))
        assert answer == (OTHER_KIND, b"")


def any_names(chance, value):
    """Names, of which some are likely to be keys of the value."""
    keys = KEYS + list(value if isinstance(value, dict) else [])
    return chance.choices(keys, k=chance.randint(0, 6))


def asks_pick(chance, left, right):
    names, others = any_names(chance, left), chance.choice([0, 1, 7])
    wanted = left
    if isinstance(left, dict):
        wanted = {key: it for key, it in left.items() if (key in names) == (others == 0)}
    depth = max(depth_of(left), 1)
    answer = bytes_of("pick", document(left), document(names), ctypes.c_uint32(others), SIZE(depth))
    assert answer == (OK, document(wanted, stored=False)), (names, others)


def asks_object_keys(chance, left, right):
    wanted = (NONE, b"")
    if isinstance(left, dict):
        wanted = (OK, document(sorted(left, key=str.encode), stored=False))
    assert bytes_of("object_keys", document(left), SIZE(depth_of(left))) == wanted


def asks_array_sets(chance, left, right):
    stored, depth = (document(left), document(right)), SIZE(max(depth_of(left), depth_of(right)))
    assert bytes_of("array_distinct", stored[0], depth) == (
        OK, document(distinct(left), stored=False))
    matched, rest = by_match(left, right)
    assert bytes_of("array_intersection", *stored, depth) == (OK, document(matched, stored=False))
    assert bytes_of("array_except", *stored, depth) == (OK, document(rest, stored=False))
    assert truth_of("array_overlap", *stored, depth) == (OK, bool(matched))


def asks_comparable_key(chance, left, right):
    wanted, depth = key(left), SIZE(depth_of(left))
    assert bytes_of("key", document(left), depth) == (OK, wanted)
    export, crossed = call("key_cut", document(left), depth)
    room, length = chance.choice([0, 1, 16, chance.randint(0, len(wanted) + 3)]), SIZE()
    out = ctypes.create_string_buffer(b"\xa5" * (room + 1), room + 1)
    assert export(*crossed, out, SIZE(room), ctypes.byref(length)) == OK
    assert length.value == len(wanted)
    assert out.raw == wanted[:room] + b"\xa5" * (room + 1 - min(room, len(wanted)))


def asks_member_key(chance, left, right):
    # More than eight names are looked up in a table.
    names = any_names(chance, left) * chance.choice([1, 3])
    depth = SIZE(max(depth_of(left), 1))
    parts = [left[it] if isinstance(left, dict) and it in left else None for it in names]
    there = [isinstance(left, dict) and it in left for it in names]
    wanted = b"".join(key(it) if is_there else b"\0" for it, is_there in zip(parts, there))
    assert bytes_of("member_key", document(left), document(names), depth) == (OK, wanted), names


def asks_no_names(chance, left, right):
    """A document that is not an array of names."""
    if not isinstance(right, list) or not all(isinstance(it, str) for it in right):
        stored = document(left), document(right)
        answer = bytes_of("pick", *stored, ctypes.c_uint32(0), SIZE(9))
        assert answer == bytes_of("member_key", *stored, SIZE(9)) == (OTHER_KIND, b"")


def asks_keys(chance, left, right):
    for name, count in (("index_keys", scalars_in), ("top_keys", top_keys_in)):
        status, keys = keys_of(name, document(left), SIZE(depth_of(left)))
        assert status == OK and sum(keys.values()) == count(left), name
        assert keys_of(name, document(left, stored=False), SIZE(9)) == (OK, keys), name
    if contains(left, right):
        keys = keys_of("index_keys", document(left), SIZE(9))[1]
        assert keys_of("index_keys", document(right), SIZE(9))[1].keys() <= keys.keys()
    for key in KEYS:
        if exists(left, key):
            top_key, = keys_of("top_keys", document(key), SIZE(0))[1]
            assert top_key in keys_of("top_keys", document(left), SIZE(9))[1]


QUESTIONS = [asks_contains, asks_contains, asks_exists, asks_exists_many, asks_concat,
             asks_merge_patch, asks_strip_nulls, asks_select, asks_select, asks_get_path,
             asks_edit, asks_edit, asks_edit, asks_no_path, asks_pick, asks_pick, asks_object_keys, asks_array_sets,
             asks_array_sets, asks_comparable_key, asks_member_key, asks_no_names, asks_keys, asks_names,
             asks_names, asks_path_in]


def main():
    questions = int(sys.argv[2])
    seed = int(sys.argv[3]) if len(sys.argv) > 3 else random.randrange(2**32)
    chance = random.Random(seed)
    asked = collections.Counter()
    for number in range(questions):
        left = any_value(chance, chance.randint(0, 5))
        right = part_of(chance, left) if chance.random() < 0.5 else any_value(chance, 3)
        question = chance.choice(QUESTIONS)
        asked[question.__name__.removeprefix("asks_")] += 1
        try:
            question(chance, left, right)
        except AssertionError:
            print(f"model.py: question {number} of seed {seed} differs: {question.__name__}",
                  document(left).hex(), document(right).hex(), file=sys.stderr)
            raise
    counts = ", ".join(f"{count} {name}" for name, count in sorted(asked.items()))
    print(f"model.py: {questions} questions of seed {seed}, 0 differ: {counts}")


main()
