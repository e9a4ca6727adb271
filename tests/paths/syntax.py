"""A path as a tree, as specs/Syntax.antt of jsonb_path has it: what it asks, without its text.

A sign, an operator and a comparison are as in a path's text, `+` or `==`.
"""
import enum
from dataclasses import dataclass
from typing import Optional, Tuple, Union

from values import Fraction, Tree, negated

# The level of the values that hold none.
LAST = "last"


class Mode(enum.Enum):
    """Whether a path passes over what is not there or refuses it."""
    LAX = "lax"
    STRICT = "strict"


class Method(enum.Enum):
    """A method, as it is written."""
    TYPE = "type()"
    SIZE = "size()"
    ABS = "abs()"
    FLOOR = "floor()"
    CEILING = "ceiling()"
    MEMBER_NAMES = "keyvalue().key"
    MEMBER_VALUES = "keyvalue().value"


# ---- what gives values

@dataclass(frozen=True)
class Chain:
    """Something to begin with, and accessors after it."""
    primary: "Primary"
    steps: Tuple["Accessor", ...] = ()


@dataclass(frozen=True)
class Signed:
    """A sign before an expression."""
    sign: str
    operand: "Expression"


@dataclass(frozen=True)
class Arithmetic:
    """An operator between two expressions."""
    operator: str
    left: "Expression"
    right: "Expression"


@dataclass(frozen=True)
class Tested:
    """The truth of a test."""
    test: "Predicate"


# ---- what a chain begins with

@dataclass(frozen=True)
class Root:
    """`$`"""


@dataclass(frozen=True)
class Current:
    """`@`"""


@dataclass(frozen=True)
class Last:
    """`last`"""


@dataclass(frozen=True)
class Literal:
    """A scalar."""
    value: Tree


@dataclass(frozen=True)
class Variable:
    """`$name`"""
    name: str


@dataclass(frozen=True)
class Inner:
    """An expression in parentheses."""
    expression: "Expression"


# ---- one step from a value

@dataclass(frozen=True)
class Member:
    """`.key`"""
    name: str


@dataclass(frozen=True)
class AllMembers:
    """`.*`"""


@dataclass(frozen=True)
class AllItems:
    """`[*]`"""


@dataclass(frozen=True)
class Subscript:
    """One index, or a first and a last one."""
    first: "Expression"
    last: Optional["Expression"] = None


@dataclass(frozen=True)
class ItemsAt:
    """`[0, 2 to last]`"""
    subscripts: Tuple[Subscript, ...]


@dataclass(frozen=True)
class Descendants:
    """`.**{1 to last}`"""
    first: Union[int, str]
    last: Union[int, str]


@dataclass(frozen=True)
class Filter:
    """`?(..)`"""
    test: "Predicate"


@dataclass(frozen=True)
class Called:
    """`.size()`"""
    method: Method


# ---- what is true, false or unknown

@dataclass(frozen=True)
class Conjunction:
    """`&&`"""
    left: "Predicate"
    right: "Predicate"


@dataclass(frozen=True)
class Disjunction:
    """`||`"""
    left: "Predicate"
    right: "Predicate"


@dataclass(frozen=True)
class Denial:
    """`!(..)`"""
    test: "Predicate"


@dataclass(frozen=True)
class IsUnknown:
    """`(..) is unknown`"""
    test: "Predicate"


@dataclass(frozen=True)
class Compared:
    """`==` and its like between two expressions."""
    comparison: str
    left: "Expression"
    right: "Expression"


@dataclass(frozen=True)
class Starting:
    """`starts with`"""
    left: "Expression"
    right: "Expression"


@dataclass(frozen=True)
class Exists:
    """`exists (..)`"""
    expression: "Expression"


@dataclass(frozen=True)
class Query:
    """A path: whether what is not there is passed over, and what it asks."""
    mode: Mode
    tree: "Expression"


Expression = Union[Chain, Signed, Arithmetic, Tested]
Primary = Union[Root, Current, Last, Literal, Variable, Inner]
Accessor = Union[Member, AllMembers, AllItems, ItemsAt, Descendants, Filter, Called]
Predicate = Union[Conjunction, Disjunction, Denial, IsUnknown, Compared, Starting, Exists]


def literal(value):
    """A literal alone."""
    return Chain(Literal(value))


def signed(sign, expression):
    """An expression after a sign: a number with its sign is a literal."""
    if isinstance(expression, Chain) and not expression.steps \
            and isinstance(expression.primary, Literal) \
            and isinstance(expression.primary.value, Fraction):
        number = expression.primary.value
        return literal(negated(number) if sign == "-" else number)
    return Signed(sign, expression)


def in_parentheses(expression, steps):
    """An expression in parentheses, and accessors after it: a chain goes on."""
    if isinstance(expression, Chain):
        return Chain(expression.primary, expression.steps + steps)
    return Chain(Inner(expression), steps) if steps else expression
