"""Values of documents, their arithmetic and how they compare, as specs/Arithmetic.antt and
specs/Comparison.antt of jsonb_path have them.

A document is null, a truth of Python's, a Fraction, a text, a list or a dict, whose keys are in the
order of their bytes. Extension values, which JSON does not have, are not there.
"""
import enum
from dataclasses import dataclass
from typing import Union


class PathError(enum.Enum):
    """Why a path is given up, as SQLSTATE. That of a match is another member, not an alias."""
    MEMBER_NOT_FOUND = "2203A"
    OBJECT_NOT_FOUND = "2203C"
    ARRAY_NOT_FOUND = "22039"
    INVALID_SUBSCRIPT = "22033"
    NON_NUMERIC_ITEM = "22036"
    SINGLETON_REQUIRED = "22038"
    NUMBER_NOT_FOUND = "2203B"
    DIVISION_BY_ZERO = "22012"
    OUT_OF_RANGE = "22003"
    UNDEFINED_VARIABLE = "42704"
    BOOLEAN_REQUIRED = "22038 of a match"


# ---- arithmetic

@dataclass(frozen=True)
class Fraction:
    """A number: a value, divided by ten to the power of a scale."""
    value: int
    scale: int


def value_at(scale, x):
    """The value without its point at a scale that is no less: with zeros after its last digit."""
    return x.value * 10 ** (scale - x.scale)


def common_scale(x, y):
    """The greater of both scales."""
    return max(x.scale, y.scale)


def sum_of(x, y):
    """The exact sum."""
    scale = common_scale(x, y)
    return Fraction(value_at(scale, x) + value_at(scale, y), scale)


def difference(x, y):
    """The exact difference."""
    scale = common_scale(x, y)
    return Fraction(value_at(scale, x) - value_at(scale, y), scale)


def product(x, y):
    """The exact product."""
    return Fraction(x.value * y.value, x.scale + y.scale)


def remainder(x, y):
    """What is left of x where y is taken from it as often as it goes, with the sign of x."""
    scale = common_scale(x, y)
    dividend, divisor = value_at(scale, x), value_at(scale, y)
    rest = abs(dividend) % abs(divisor)
    return Fraction(-rest if dividend < 0 else rest, scale)


def negated(x):
    """With the other sign."""
    return Fraction(-x.value, x.scale)


def unsigned(x):
    """Without its sign."""
    return Fraction(abs(x.value), x.scale)


def floor_of(x):
    """The greatest integer that is not above."""
    return x.value // 10 ** x.scale


def ceiling_of(x):
    """The least integer that is not below."""
    return -floor_of(negated(x))


def whole_part_of(x):
    """The integer before the point: cut towards zero."""
    whole = abs(x.value) // 10 ** x.scale
    return -whole if x.value < 0 else whole


def is_within(bits, z):
    """The integer fits into so many bits and a sign."""
    return -(1 << bits) <= z < 1 << bits


def number_within(x):
    """The number of the fraction, or the error of one that is out of range."""
    return x if is_within(127, x.value) and x.scale <= 255 else PathError.OUT_OF_RANGE


def remainder_within(x, y):
    """The remainder as a number, or the error where the divisor is zero."""
    return number_within(remainder(x, y)) if y.value else PathError.DIVISION_BY_ZERO


# ---- comparison

class Truth(enum.Enum):
    """The truth of a test."""
    TRUE = "true"
    FALSE = "false"
    UNKNOWN = "unknown"


def truth_of(holds):
    """True or false."""
    return Truth.TRUE if holds else Truth.FALSE


def both(left, right):
    """False if either is, and otherwise unknown if either is."""
    for truth in Truth.FALSE, Truth.UNKNOWN:
        if truth in (left, right):
            return truth
    return Truth.TRUE


def either(left, right):
    """True if either is, and otherwise unknown if either is."""
    for truth in Truth.TRUE, Truth.UNKNOWN:
        if truth in (left, right):
            return truth
    return Truth.FALSE


def negation(truth):
    """The other truth; unknown stays."""
    return {Truth.TRUE: Truth.FALSE, Truth.FALSE: Truth.TRUE}.get(truth, truth)


def unknown(truth):
    """Whether the truth is unknown."""
    return truth_of(truth is Truth.UNKNOWN)


# Whether values compare so, of which the first is below (-1), equal to (0) or above (1) the other.
HOLDS = {
    "==": lambda order: order == 0,
    "!=": lambda order: order != 0,
    "<": lambda order: order < 0,
    "<=": lambda order: order <= 0,
    ">": lambda order: order > 0,
    ">=": lambda order: order >= 0,
}
SCALARS = bool, Fraction, str


def order_of(left, right):
    """The order of two scalars of one kind: of texts that of their bytes."""
    if isinstance(left, Fraction):
        scale = common_scale(left, right)
        left, right = value_at(scale, left), value_at(scale, right)
    elif isinstance(left, str):
        left, right = left.encode(), right.encode()
    return (left > right) - (left < right)


def compares(comparison, left, right):
    """How two values compare: null equals null and differs from all others, and other kinds do not
    compare."""
    if left is None and right is None:
        return truth_of(HOLDS[comparison](0))
    if left is None or right is None:
        return truth_of(comparison == "!=")
    for kind in SCALARS:
        if isinstance(left, kind) and isinstance(right, kind):
            return truth_of(HOLDS[comparison](order_of(left, right)))
    return Truth.UNKNOWN


def starts_with(left, right):
    """The left text starts with the right one; unknown of other values."""
    if isinstance(left, str) and isinstance(right, str):
        return truth_of(left.startswith(right))
    return Truth.UNKNOWN


Tree = Union[None, bool, Fraction, str, list, dict]
