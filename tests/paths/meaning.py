"""What a path means over a document, as specs/Meaning.antt of jsonb_path says it: a definition
here for each definition there, under its name. The definitions of a place are methods of `Place`.
"""
from dataclasses import dataclass, field, fields, is_dataclass, replace
from typing import Dict, List, Optional

from syntax import (
    LAST, AllItems, AllMembers, Arithmetic, Called, Chain, Compared, Conjunction, Current, Denial,
    Descendants, Disjunction, Exists, Filter, Inner, IsUnknown, ItemsAt, Last, Literal, Member,
    Method, Mode, Root, Signed, Starting, Tested, Variable,
)
from values import (
    Fraction, PathError, Tree, Truth, both, ceiling_of, compares, difference, either, floor_of,
    is_within, negated, negation, number_within, product, remainder_within, starts_with, sum_of,
    truth_of, unknown, unsigned, whole_part_of,
)


@dataclass(frozen=True)
class Outcome:
    """What an expression gives: values in order, then an end or an error."""
    values: List[Tree]
    error: Optional[PathError] = None


def gives(values):
    """These values, and then an end."""
    return Outcome(list(values))


def fails(error):
    """The error alone."""
    return Outcome([], error)


def joined(first, second):
    """The first outcome, and after its values the second, unless it ends with an error."""
    if first.error:
        return first
    return Outcome(first.values + second.values, second.error)


def each(step, values, end):
    """What a step gives of each value, joined, and then this end."""
    found = []
    for value in values:
        outcome = step(value)
        found += outcome.values
        if outcome.error:
            return Outcome(found, outcome.error)
    return Outcome(found, end)


def through(step, outcome):
    """What a step gives of each value, joined: the first error ends it, and what came before
    stays."""
    return each(step, outcome.values, outcome.error)


def before(error, outcome):
    """The outcome, unless there is an error."""
    return fails(error) if error else outcome


def unwrapped(mode, value):
    """In lax the items of an array; otherwise the value itself."""
    return value if mode is Mode.LAX and isinstance(value, list) else [value]


def all_unwrapped(mode, values):
    """The values, each unwrapped."""
    return [it for value in values for it in unwrapped(mode, value)]


def items_of(mode, value):
    """The items of an array; in lax any other value is the one item of an array."""
    if isinstance(value, list):
        return value
    return [value] if mode is Mode.LAX else None


def pairs_in(part, value):
    """The names or the values of all members, of an object alone."""
    return gives(part(value)) if isinstance(value, dict) else fails(PathError.OBJECT_NOT_FOUND)


# ---- descendants

def is_meant(first, last, level, holds):
    """Whether a value so far below is meant: `last` means those that hold none."""
    if first == LAST:
        return last == LAST and not holds
    return first <= level and (last == LAST or level <= last)


def is_container(value):
    """Whether it is an array or an object."""
    return isinstance(value, (list, dict))


def below(first, last, level, value):
    """The values below, each before those below it, as far as their levels are meant."""
    found = []
    children = value.values() if isinstance(value, dict) else value
    for child in children if is_container(value) else []:
        if is_meant(first, last, level + 1, is_container(child)):
            found.append(child)
        found += below(first, last, level + 1, child)
    return found


def itself(first, value):
    """The value itself is at level 0."""
    return [value] if first == 0 else []


# ---- methods and arithmetic

def type_name(value):
    """The name of a value's kind."""
    if value is None:
        return "null"
    names = {bool: "boolean", Fraction: "number", str: "string", list: "array", dict: "object"}
    return names[type(value)]


def calculated(result):
    """The number, or why there is none."""
    return fails(result) if isinstance(result, PathError) else gives([result])


def of_number(error, ask, value):
    """What is asked of a number, or the error of another value."""
    return ask(value) if isinstance(value, Fraction) else fails(error)


def whole_within(integer):
    """The integer as a number."""
    return calculated(number_within(Fraction(integer, 0)))


OPERATED = {
    "+": lambda x, y: number_within(sum_of(x, y)),
    "-": lambda x, y: number_within(difference(x, y)),
    "*": lambda x, y: number_within(product(x, y)),
    "%": remainder_within,
}


def operated(operator, x, y):
    """What an operator gives of two numbers."""
    return OPERATED[operator](x, y)


def only_number(error, ask, values):
    """What is asked of exactly one number, or the error."""
    return of_number(error, ask, values[0]) if len(values) == 1 else fails(error)


def on_numbers(operator, lefts, rights):
    """What two lists of values give, one number each; the left side is looked at first."""
    required = PathError.SINGLETON_REQUIRED
    return only_number(
        required,
        lambda x: only_number(required, lambda y: calculated(operated(operator, x, y)), rights),
        lefts,
    )


def computed(mode, operator, left, right):
    """An operator over what both sides give: an error of either is that of the whole."""
    lefts, rights = all_unwrapped(mode, left.values), all_unwrapped(mode, right.values)
    return before(left.error, before(right.error, on_numbers(operator, lefts, rights)))


def signed_as(sign, x):
    """The number with this sign before it."""
    return number_within(negated(x)) if sign == "-" else x


def with_sign(mode, sign, outcome):
    """A sign before each value, once all are there."""
    return before(outcome.error, each(
        lambda it: of_number(
            PathError.NUMBER_NOT_FOUND, lambda x: calculated(signed_as(sign, x)), it),
        all_unwrapped(mode, outcome.values), None,
    ))


# ---- subscripts

def index_in(outcome):
    """The index that an expression gives: one number, cut towards zero, of 32 bits."""
    if outcome.error:
        return outcome.error
    if len(outcome.values) != 1 or not isinstance(outcome.values[0], Fraction):
        return PathError.INVALID_SUBSCRIPT
    index = whole_part_of(outcome.values[0])
    return index if is_within(31, index) else PathError.INVALID_SUBSCRIPT


def in_bounds(first, last, count):
    """Whether both are indexes of an array of so many items, and the first is not greater."""
    return 0 <= first <= last < count


def items_between(forgives, first, last, items):
    """The items from the first index to the last one: where they are out of bounds, those that
    there are, or the error where nothing is forgiven."""
    for index in first, last:
        if isinstance(index, PathError):
            return fails(index)
    if not forgives and not in_bounds(first, last, len(items)):
        return fails(PathError.INVALID_SUBSCRIPT)
    return gives(it for at, it in enumerate(items) if first <= at <= last)


# ---- tests

def truth_value(truth):
    """A truth as a value: null is unknown."""
    return {Truth.TRUE: True, Truth.FALSE: False, Truth.UNKNOWN: None}[truth]


def table(test, lefts, rights):
    """The truths of all pairs."""
    return [test(left, right) for left in lefts for right in rights]


def some_true(truths):
    """True if one is, and otherwise unknown if one is."""
    found = Truth.FALSE
    for truth in truths:
        found = either(found, truth)
    return found


def some_passes(mode, truths):
    """Whether some pair passes: in lax also beside unknown ones, in strict only if none is
    unknown."""
    if mode is Mode.STRICT and Truth.UNKNOWN in truths:
        return Truth.UNKNOWN
    return some_true(truths)


def some_pair(mode, test, left, right):
    """Whether some value of the left side passes with one of the right side."""
    if left.error or right.error:
        return Truth.UNKNOWN
    return some_passes(mode, table(test, left.values, right.values))


def in_lax_unwrapped(mode, outcome):
    """The outcome, with its values unwrapped in lax."""
    return Outcome(all_unwrapped(mode, outcome.values), outcome.error)


def exists_in(mode, outcome):
    """Whether there is a value: in lax also one before an error."""
    if outcome.error and not (mode is Mode.LAX and outcome.values):
        return Truth.UNKNOWN
    return truth_of(outcome.values)


def truth_in(value):
    """The truth that a value is: null is unknown."""
    if value is None:
        return Truth.UNKNOWN
    return truth_of(value) if isinstance(value, bool) else None


def lone_truth(values):
    """The truth of a list of one value."""
    return truth_in(values[0]) if len(values) == 1 else None


def match_in(outcome):
    """The truth that is the one value, or the error by which there is none."""
    return outcome.error or lone_truth(outcome.values) or PathError.BOOLEAN_REQUIRED


def is_hidden(error):
    """A silent call hides all errors but that of a variable that is not given."""
    return error is not PathError.UNDEFINED_VARIABLE


# ---- the whole

@dataclass(frozen=True)
class Place:
    """Where an expression is asked: of a document, in a filter of `current`, and in a subscript of
    an array whose last index is `last`. What is not there is passed over, or refused."""
    mode: Mode
    forgives: bool
    root: Tree
    current: Tree
    last: int
    variables: Dict[str, Tree] = field(default_factory=dict)

    def unless_forgiven(self, error):
        """Nothing, or the error where nothing is forgiven."""
        return gives([]) if self.forgives else fails(error)

    def of_items(self, ask, value):
        """What is asked of the items of an array."""
        items = items_of(self.mode, value)
        return self.unless_forgiven(PathError.ARRAY_NOT_FOUND) if items is None else ask(items)

    def of_each(self, ask, value):
        """In lax an array is not asked itself: its items are."""
        return each(ask, unwrapped(self.mode, value), None)

    def member_of(self, name, value):
        """The value of the member of this name."""
        if isinstance(value, dict) and name in value:
            return gives([value[name]])
        return self.unless_forgiven(PathError.MEMBER_NOT_FOUND)

    def members_of(self, value):
        """The values of all members, in their order."""
        if isinstance(value, dict):
            return gives(value.values())
        return self.unless_forgiven(PathError.OBJECT_NOT_FOUND)

    def called(self, method, value):
        """What a method gives of a value."""
        if method is Method.TYPE:
            return gives([type_name(value)])
        if method is Method.SIZE:
            return self.of_items(lambda items: gives([Fraction(len(items), 0)]), value)
        asks = {
            Method.ABS: lambda x: calculated(number_within(unsigned(x))),
            Method.FLOOR: lambda x: whole_within(floor_of(x)),
            Method.CEILING: lambda x: whole_within(ceiling_of(x)),
        }
        if method in asks:
            return self.of_each(
                lambda it: of_number(PathError.NON_NUMERIC_ITEM, asks[method], it), value)
        part = dict.keys if method is Method.MEMBER_NAMES else dict.values
        return self.of_each(lambda it: pairs_in(part, it), value)

    def past(self, step):
        """All errors of what is not there are forgiven after `.**`, also in strict."""
        return replace(self, forgives=True) if isinstance(step, Descendants) else self

    def follow(self, expression):
        """What an expression gives at a place."""
        if isinstance(expression, Chain):
            return self.along(expression.steps, self.begin(expression.primary))
        if isinstance(expression, Signed):
            return with_sign(self.mode, expression.sign, self.follow(expression.operand))
        if isinstance(expression, Arithmetic):
            left, right = self.follow(expression.left), self.follow(expression.right)
            return computed(self.mode, expression.operator, left, right)
        assert isinstance(expression, Tested)
        return gives([truth_value(self.judge(expression.test))])

    def begin(self, primary):
        """What a chain begins with."""
        if isinstance(primary, Root):
            return gives([self.root])
        if isinstance(primary, Current):
            return gives([self.current])
        if isinstance(primary, Last):
            return gives([Fraction(self.last, 0)])
        if isinstance(primary, Literal):
            return gives([primary.value])
        if isinstance(primary, Variable):
            return gives([self.variables[primary.name]])
        assert isinstance(primary, Inner)
        return self.follow(primary.expression)

    def along(self, steps, outcome):
        """One accessor after the other."""
        if not steps:
            return outcome
        found = through(lambda it: self.access(steps[0], it), outcome)
        return self.past(steps[0]).along(steps[1:], found)

    def access(self, step, value):
        """What an accessor gives of one value."""
        if isinstance(step, Member):
            return self.of_each(lambda it: self.member_of(step.name, it), value)
        if isinstance(step, AllMembers):
            return self.of_each(self.members_of, value)
        if isinstance(step, AllItems):
            return self.of_items(gives, value)
        if isinstance(step, ItemsAt):
            return self.of_items(
                lambda items: replace(self, last=len(items) - 1).select(step.subscripts, items),
                value)
        if isinstance(step, Descendants):
            return gives(itself(step.first, value) + below(step.first, step.last, 0, value))
        if isinstance(step, Filter):
            return self.of_each(lambda it: self.filtered(step.test, it), value)
        assert isinstance(step, Called)
        return self.called(step.method, value)

    def filtered(self, test, value):
        """The value, if the test is true of it."""
        return gives([value] if replace(self, current=value).judge(test) is Truth.TRUE else [])

    def select(self, subscripts, items):
        """The items that subscripts name, in their order."""
        found = gives([])
        for it in subscripts:
            first = index_in(self.follow(it.first))
            last = first if it.last is None else index_in(self.follow(it.last))
            found = joined(found, items_between(self.forgives, first, last, items))
        return found

    def judge(self, test):
        """Whether a test holds at a place."""
        if isinstance(test, Conjunction):
            return both(self.judge(test.left), self.judge(test.right))
        if isinstance(test, Disjunction):
            return either(self.judge(test.left), self.judge(test.right))
        if isinstance(test, Denial):
            return negation(self.judge(test.test))
        if isinstance(test, IsUnknown):
            return unknown(self.judge(test.test))
        if isinstance(test, Exists):
            return exists_in(self.mode, self.follow(test.expression))
        left = in_lax_unwrapped(self.mode, self.follow(test.left))
        right = self.follow(test.right)
        if isinstance(test, Starting):
            return some_pair(self.mode, starts_with, left, right)
        assert isinstance(test, Compared)
        return some_pair(
            self.mode, lambda x, y: compares(test.comparison, x, y), left,
            in_lax_unwrapped(self.mode, right))


def names_in(part):
    """The variables that a path names."""
    if isinstance(part, Variable):
        return [part.name]
    if is_dataclass(part):
        part = [getattr(part, it.name) for it in fields(part)]
    return [name for it in part for name in names_in(it)] if isinstance(part, (list, tuple)) else []


def all_given(variables, names):
    """Whether all these variables are given."""
    return all(name in variables for name in names)


def path_gives(query, variables, document):
    """What a path gives of a document with these variables: all variables are looked for first."""
    if not all_given(variables, names_in(query.tree)):
        return fails(PathError.UNDEFINED_VARIABLE)
    place = Place(query.mode, query.mode is Mode.LAX, document, document, 0, variables)
    return place.follow(query.tree)
