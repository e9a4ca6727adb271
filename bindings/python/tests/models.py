"""Models of the format's pages that share no code with the package."""
import copy
import random
from datetime import date, datetime, timedelta, timezone
from decimal import Decimal
from functools import cmp_to_key

from kohiblad import Interval, Opaque

# From the least to the greatest.
_KINDS = ((bytes, date, Interval, Opaque), bool, (int, Decimal), str, dict, list, type(None))


def _kind(value):
    return next(rank for rank, types in enumerate(_KINDS) if isinstance(value, types))


def _sign(left, right):
    return (left > right) - (left < right)


def _extension(value):
    """The rank of an extension value's kind, and its fields in the order of their comparison."""
    if isinstance(value, bytes):
        return 0, value
    if isinstance(value, datetime):
        if value.tzinfo is None:
            return 2, value
        return 3, (value, value.utcoffset())
    if isinstance(value, date):
        return 1, value
    return (4 if isinstance(value, Interval) else 5), tuple(value)


def _compare_all(left, right, compare):
    for one, other in zip(left, right):
        sign = compare(one, other)
        if sign:
            return sign
    return _sign(len(left), len(right))


def _compare_pairs(left, right):
    return _sign(left[0].encode(), right[0].encode()) or compare(left[1], right[1])


def compare(left, right):
    """The order of two values as "Order" of docs/FORMAT.md says it: -1, 0 or 1."""
    kinds = _sign(_kind(left), _kind(right))
    if kinds or left is None:
        return kinds
    if isinstance(left, list):
        return _compare_all(left, right, compare)
    if isinstance(left, dict):
        return _compare_all(sorted(left.items(), key=_name), sorted(right.items(), key=_name),
                            _compare_pairs)
    if isinstance(left, str):
        return _sign(left.encode(), right.encode())
    if isinstance(left, (bool, int, Decimal)):
        return _sign(left, right)
    return _sign(_extension(left), _extension(right))


def _name(pair):
    return pair[0].encode()


order_key = cmp_to_key(compare)


def contains(left, right, is_top=True):
    """Whether a value contains another, as "Containment" of docs/FUNCTIONS.md says it."""
    if isinstance(left, dict) and isinstance(right, dict):
        return all(name in left and contains(left[name], it, False) for name, it in right.items())
    if isinstance(left, list) and isinstance(right, list):
        return all(any(contains(one, other, False) for one in left) for other in right)
    if isinstance(left, list) and not isinstance(right, dict) and is_top:
        return any(contains(one, right, False) for one in left)
    return compare(left, right) == 0


def has_key(value, name):
    if isinstance(value, dict):
        return name in value
    return any(isinstance(it, str) and it == name
               for it in (value if isinstance(value, list) else [value]))


def scalars(value):
    """How many scalars a value has."""
    if isinstance(value, (dict, list)):
        return sum(map(scalars, value.values() if isinstance(value, dict) else value))
    return 1


def at_path(value, path):
    """A list of what is at the end of a path, or an empty one if the path leads nowhere."""
    for step in path:
        if isinstance(value, dict) and isinstance(step, str) and step in value:
            value = value[step]
        elif (isinstance(value, list) and isinstance(step, int)
              and -len(value) <= step < len(value)):
            value = value[step]
        else:
            return []
    return [value]


def edited(value, path, edit, new=None):
    """A copy after an edit, as "Edits" of docs/FUNCTIONS.md says it: put, insert or remove."""
    if not path:
        return new if edit == "put" else value
    value, last = copy.deepcopy(value), path[-1]
    for around in at_path(value, path[:-1]):
        if isinstance(around, dict) and isinstance(last, str):
            if edit == "remove":
                around.pop(last, None)
            elif edit == "put" or last not in around:
                around[last] = new
        elif isinstance(around, list) and isinstance(last, int):
            is_there = -len(around) <= last < len(around)
            if is_there and edit != "insert":
                around[last:last + 1 or None] = [new] if edit == "put" else []
            elif edit != "remove":
                around.insert(last, new)
    return value


def merged(value, patch):
    """The function of RFC 7396, section 2."""
    if not isinstance(patch, dict):
        return patch
    value = dict(value) if isinstance(value, dict) else {}
    for name, it in patch.items():
        if it is not None:
            value[name] = merged(value.get(name), it)
        elif name in value:
            del value[name]
    return value


def stripped(value):
    """A value without members that are None, as "Nulls taken out" of docs/FUNCTIONS.md says it."""
    if isinstance(value, dict):
        return {name: stripped(it) for name, it in value.items() if it is not None}
    return list(map(stripped, value)) if isinstance(value, list) else value


def picked(value, names, are_kept):
    """An object with the members that are named, or with the others; other values as they are."""
    if not isinstance(value, dict):
        return value
    return {name: it for name, it in value.items() if (name in names) == are_kept}


def items_of(value):
    """The items of an array; any other value is one item."""
    return value if isinstance(value, list) else [value]


def distinct(value, are_equal):
    """The items without those that are equal to one before them."""
    firsts = []
    for it in items_of(value):
        if not any(are_equal(it, first) for first in firsts):
            firsts.append(it)
    return firsts


def by_match(value, other, are_equal):
    """The items for which the other has an equal that none before took, and the others."""
    matched, rest, left = [], [], list(items_of(other))
    for it in items_of(value):
        number = next((n for n, there in enumerate(left) if are_equal(it, there)), None)
        if number is None:
            rest.append(it)
        else:
            matched.append(it)
            del left[number]
    return matched, rest


class Values:
    """Random values, the same for the same seed."""

    def __init__(self, seed):
        self._random = random.Random(seed)

    def plain(self, depth):
        """A value that JSON can express."""
        return self._value(depth, self._plain_scalar)

    def any(self, depth):
        """A value of any kind."""
        return self._value(depth, self._any_scalar)

    def _value(self, depth, scalar):
        choice = self._random.randrange(10)
        if depth == 0 or choice < 5:
            return scalar()
        count = self._random.randrange(4)
        if choice < 8:
            return [self._value(depth - 1, scalar) for _ in range(count)]
        return {self.text(): self._value(depth - 1, scalar) for _ in range(count)}

    def text(self):
        letters = "ab\0\x01\x1f\"\\/`é\u2028\ud7ff\ue000\uffff\U0001f600"
        return "".join(self._random.choice(letters) for _ in range(self._random.randrange(5)))

    def number(self):
        bits = self._random.choice((1, 3, 8, 31, 63, 64, 127))
        whole = self._random.choice((-1, 1)) * self._random.getrandbits(bits)
        scale = self._random.choice((0, 0, 1, 2, 17, 255))
        # A Decimal has a negative zero, and a document has none.
        return Decimal(f"{whole}E-{scale}") if scale else whole

    def _plain_scalar(self):
        return self._random.choice((lambda: None, lambda: True, lambda: False, self.number,
                                    self.number, self.text))()

    def _any_scalar(self):
        return self._random.choice((self._plain_scalar, self._plain_scalar, self._extension))()

    def _extension(self):
        low = self._random.randrange(3)
        return self._random.choice((
            lambda: self.text().encode(),
            lambda: date(2020, 2, 1 + low),
            lambda: datetime(1960 + low, 2, 3, 4, 5, 6, low),
            lambda: datetime(2020, 2, 3, low, tzinfo=self._zone()),
            lambda: Interval(low - 1, self._random.randrange(-2, 2), self._random.randrange(9)),
            lambda: Opaque(self._random.choice((0x50, 0x60, 0xF0)), self.text().encode())))()

    def _zone(self):
        return timezone(timedelta(seconds=self._random.choice((-3600, 0, 1, 3600))))


class FewNames(Values):
    """Random values in which the same texts, names and numbers come again."""

    def text(self):
        return self._random.choice(("", "a", "b", "ab", "é", "\uffff", "\U0001f600"))

    def number(self):
        return self._random.choice((0, 1, -1, 300, 2**64, Decimal("1.0"), Decimal("1.50")))

    def part(self, value):
        """Some of a value, which contains it if no scalar was changed."""
        if isinstance(value, dict):
            return {name: self.part(it) for name, it in value.items() if self._random.random() < .7}
        if isinstance(value, list):
            some = [self.part(it) for it in value if self._random.random() < .7]
            self._random.shuffle(some)
            return some
        return value if self._random.random() < .95 else self._any_scalar()

    def path(self, value):
        """A path that mostly leads to something in a value."""
        path = []
        while self._random.random() < .8:
            if isinstance(value, dict) and self._random.random() < .95:
                step = self._random.choice((*value, self.text()))
            elif isinstance(value, list) and self._random.random() < .95:
                step = self._random.randint(-len(value) - 1, len(value))
            elif self._random.random() < .2:
                step = self._random.choice((0, -1, "a"))
            else:
                break
            path.append(step)
            found = at_path(value, [step])
            value = found[0] if found else None
        return path

    def patch(self, value):
        """A merge patch that has names of a value."""
        if not isinstance(value, dict) or self._random.random() < .1:
            return self.any(depth=3)
        names = [*value, self.text(), self.text()]
        return {name: None if self._random.random() < .3 else self.patch(value.get(name))
                for name in names if self._random.random() < .7}
