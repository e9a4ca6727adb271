"""Makes random documents and paths, to compare the model of meaning.py with others."""
import random

from syntax import (
    LAST, AllItems, AllMembers, Arithmetic, Called, Chain, Compared, Conjunction, Current, Denial,
    Descendants, Disjunction, Exists, Filter, IsUnknown, ItemsAt, Last, Literal, Member, Method,
    Mode, Query, Root, Starting, Subscript, Tested, Variable, in_parentheses, literal, signed,
)
from texts import number_of, read_document
from values import HOLDS

VARIABLES = read_document('{"v": 1, "w": ["a", 2]}')


class Maker:
    """Makes documents and paths. Names have one letter, since the server orders longer ones
    otherwise."""
    NAMES = "abc"
    NUMBERS = [number_of(it) for it in "1 0 2 -1 1.50 -0.5 10 1.0".split()]
    SCALARS = [None, True, False, "a", "ab", "b", "", *NUMBERS]
    LITERALS = [None, True, False, "a", "b", "ab", *map(number_of, "1 0 2 1.5".split())]
    INDEXES = [number_of(it) for it in "0 1 2 1.9".split()]
    LEVELS = [(0, LAST), (1, 1), (2, 2), (LAST, LAST), (1, LAST), (0, 1), (2, 1), (LAST, 1), (0, 0),
              (1, 2)]

    def __init__(self, seed):
        self.random = random.Random(seed)

    def chance(self, share):
        """Whether something happens that happens so often."""
        return self.random.random() < share

    def some(self, make, least, greatest):
        """A few of what is made."""
        return tuple(make() for _ in range(self.random.randint(least, greatest)))

    def drawn(self, *choices):
        """What one of these makes: each is a weight and a call."""
        return self.random.choices([it[1] for it in choices], [it[0] for it in choices])[0]()

    def document(self, depth):
        """A document of at most so many levels."""
        def make_object():
            names = sorted(self.random.sample(self.NAMES, self.random.randint(0, 3)))
            return {name: self.document(depth - 1) for name in names}
        return self.drawn(
            (12 - 3 * depth, lambda: self.random.choice(self.SCALARS)),
            (6 if depth else 0, lambda: list(self.some(lambda: self.document(depth - 1), 0, 3))),
            (5 if depth else 0, make_object),
        )

    def query(self):
        """A path."""
        mode = self.random.choice(list(Mode))
        tree = Tested(self.test(3, ())) if self.chance(0.3) else self.expression(3, ())
        return Query(mode, tree)

    def expression(self, depth, inside):
        """An expression, inside of what gives `@` and `last` a meaning."""
        if depth and self.chance(0.3):
            return self.operation(depth, inside)
        return self.chain(depth, inside)

    def operation(self, depth, inside):
        """A sign before an expression, or an operator between two."""
        if self.chance(0.4):
            return signed(self.random.choice("+-"), self.expression(depth - 1, inside))
        left, right = self.some(lambda: self.expression(depth - 1, inside), 2, 2)
        return Arithmetic(self.random.choice("+-*%"), left, right)

    def chain(self, depth, inside):
        """Something to begin with, and accessors after it."""
        make_step = lambda: self.step(depth, inside)
        if depth and self.chance(0.08):
            return in_parentheses(self.inner(depth, inside), self.some(make_step, 1, 2))
        primary = self.drawn(
            (4, Root),
            (5 if Current in inside else 0, Current),
            (3 if Last in inside else 0, Last),
            (2, lambda: Literal(self.random.choice(self.LITERALS))),
            (1, lambda: Variable(self.random.choice(list(VARIABLES)))),
        )
        is_scalar = isinstance(primary, (Literal, Last))
        return Chain(primary, self.some(make_step, 0, 1 if is_scalar else 3))

    def inner(self, depth, inside):
        """What parentheses hold before an accessor."""
        if self.chance(0.5):
            return Tested(self.test(depth - 1, inside))
        return self.operation(depth, inside)

    def step(self, depth, inside):
        """An accessor."""
        choose = self.random.choice
        return self.drawn(
            (30, lambda: Member(choose(self.NAMES))),
            (6, AllMembers),
            (14, AllItems),
            (12, lambda: ItemsAt(self.some(lambda: self.subscript(depth, inside), 1, 2))),
            (10, lambda: Descendants(*choose(self.LEVELS))),
            (14 if depth else 0, lambda: Filter(self.test(depth - 1, inside + (Current,)))),
            (14, lambda: Called(choose(list(Method)))),
        )

    def subscript(self, depth, inside):
        """One index, or a first and a last one."""
        def make():
            if depth and self.chance(0.5):
                return self.expression(depth - 1, inside + (Last,))
            return Chain(Last()) if self.chance(0.5) else literal(self.random.choice(self.INDEXES))
        return Subscript(make(), make() if self.chance(0.4) else None)

    def test(self, depth, inside):
        """A test."""
        choose = self.random.choice
        if depth and self.chance(0.42):
            test = lambda: self.test(depth - 1, inside)
            return self.drawn(
                (3, lambda: Conjunction(test(), test())),
                (3, lambda: Disjunction(test(), test())),
                (2, lambda: Denial(test())),
                (2, lambda: IsUnknown(test())),
            )
        make = lambda: self.expression(depth, inside)
        return self.drawn(
            (10, lambda: Exists(make())),
            (6, lambda: Starting(make(), literal(choose(["a", "b", ""])))),
            (42, lambda: Compared(choose(list(HOLDS)), make(), make())),
        )
