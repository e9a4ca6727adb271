"""The texts of documents and paths: how they are read and written."""
import json
import re

from syntax import (
    LAST, AllItems, AllMembers, Arithmetic, Called, Chain, Compared, Conjunction, Current, Denial,
    Descendants, Disjunction, Exists, Filter, Inner, IsUnknown, ItemsAt, Last, Literal, Member,
    Method, Mode, Predicate, Query, Root, Signed, Starting, Subscript, Tested, Variable,
    in_parentheses, literal, signed,
)
from values import HOLDS, Fraction

PREDICATES = Predicate.__args__
TOKEN = re.compile(
    r'\s*(\$?"(?:[^"\\]|\\.)*"|\$?[A-Za-z_]\w*|\d+(?:\.\d+)?|\*\*|&&|\|\||[=!<>]=|\S)')
CONSTANTS = {"null": None, "true": True, "false": False}


# ---- documents

def number_of(digits):
    """The number of its digits."""
    whole, _, fraction = digits.partition(".")
    return Fraction(int(whole + fraction), len(fraction))


def in_order(pairs):
    """An object: its members in the order of the bytes of their keys."""
    return dict(sorted(pairs, key=lambda it: it[0].encode()))


def read_document(text):
    """The document of a JSON text."""
    return json.loads(
        text, parse_int=number_of, parse_float=number_of, object_pairs_hook=in_order)


def write_number(x):
    """The digits of a number."""
    digits = str(abs(x.value)).rjust(x.scale + 1, "0")
    point = len(digits) - x.scale
    sign = "-" if x.value < 0 else ""
    return sign + digits[:point] + ("." + digits[point:] if x.scale else "")


def write_document(value):
    """The JSON text of a document."""
    if isinstance(value, dict):
        members = (f"{json.dumps(key)}: {write_document(it)}" for key, it in value.items())
        return "{" + ", ".join(members) + "}"
    if isinstance(value, list):
        return "[" + ", ".join(write_document(it) for it in value) + "]"
    return write_number(value) if isinstance(value, Fraction) else json.dumps(value)


# ---- paths are read

class Reader:
    """What is left of the tokens of a path's text."""

    def __init__(self, text):
        self.tokens = TOKEN.findall(text) + [""]
        self.at = 0

    def next(self):
        """The next token, which is passed."""
        self.at += 1
        return self.tokens[self.at - 1]

    def take(self, *tokens):
        """The next token if it is one of these, which then is passed."""
        return self.next() if self.tokens[self.at] in tokens else None

    def expect(self, *tokens):
        """Passes these tokens."""
        for token in tokens:
            found = self.next()
            if found != token:
                raise ValueError(f"{token} expected, not {found or 'the end'}")

    def query(self):
        """A whole path."""
        mode = Mode(self.take("lax", "strict") or "lax")
        tree = self.disjunction()
        self.expect("")
        return Query(mode, Tested(tree) if isinstance(tree, PREDICATES) else tree)

    def disjunction(self):
        """What `||` joins: a test, or an expression if none of the signs of tests is there."""
        left = self.conjunction()
        while self.take("||"):
            left = Disjunction(left, self.conjunction())
        return left

    def conjunction(self):
        """What `&&` joins."""
        left = self.denial()
        while self.take("&&"):
            left = Conjunction(left, self.denial())
        return left

    def denial(self):
        """A test after `!`, or a comparison."""
        return Denial(self.denial()) if self.take("!") else self.comparison()

    def comparison(self):
        """Two expressions that are compared, or one alone."""
        left = self.sum()
        comparison = self.take(*HOLDS)
        if comparison:
            return Compared(comparison, left, self.sum())
        if self.take("starts"):
            self.expect("with")
            return Starting(left, self.sum())
        return left

    def sum(self):
        """What `+` and `-` join."""
        left = self.product()
        while True:
            operator = self.take("+", "-")
            if not operator:
                return left
            left = Arithmetic(operator, left, self.product())

    def product(self):
        """What `*` and `%` join."""
        left = self.signed()
        while True:
            operator = self.take("*", "%")
            if not operator:
                return left
            left = Arithmetic(operator, left, self.signed())

    def signed(self):
        """An expression after a sign, or a chain."""
        sign = self.take("+", "-")
        return signed(sign, self.signed()) if sign else self.chain()

    def chain(self):
        """Something to begin with, and accessors after it; or a test that is closed."""
        if self.take("exists"):
            self.expect("(")
            expression = self.sum()
            self.expect(")")
            return Exists(expression)
        if not self.take("("):
            return Chain(self.primary(), self.accessors())
        inner = self.disjunction()
        self.expect(")")
        steps = self.accessors()
        if not isinstance(inner, PREDICATES):
            return in_parentheses(inner, steps)
        if steps:
            return Chain(Inner(Tested(inner)), steps)
        if self.take("is"):
            self.expect("unknown")
            return IsUnknown(inner)
        return inner

    def primary(self):
        """What a chain begins with, outside parentheses."""
        token = self.next()
        if token in ("$", "@", "last"):
            return {"$": Root, "@": Current, "last": Last}[token]()
        if token in CONSTANTS:
            return Literal(CONSTANTS[token])
        if token.startswith("$"):
            return Variable(json.loads(token[1:]) if '"' in token else token[1:])
        if token.startswith('"'):
            return Literal(json.loads(token))
        if token[:1].isdigit():
            return Literal(number_of(token))
        raise ValueError(f"{token or 'the end'} begins nothing")

    def accessors(self):
        """All accessors that come now."""
        steps = []
        while True:
            sign = self.take(".", "[", "?")
            if not sign:
                return tuple(steps)
            steps.append({".": self.named, "[": self.in_brackets, "?": self.filter}[sign]())

    def named(self):
        """What comes after a point."""
        token = self.next()
        if token == "*":
            return AllMembers()
        if token == "**":
            return self.descendants()
        if token.startswith('"'):
            return Member(json.loads(token))
        if not self.take("("):
            return Member(token)
        self.expect(")")
        if token == "keyvalue":
            self.expect(".")
            return Called(Method(f"keyvalue().{self.next()}"))
        return Called(Method(token + "()"))

    def descendants(self):
        """The levels after `.**`: all of them if there is no bracket."""
        if not self.take("{"):
            return Descendants(0, LAST)
        first = self.level()
        last = self.level() if self.take("to") else first
        self.expect("}")
        return Descendants(first, last)

    def level(self):
        """A level: a number or `last`."""
        token = self.next()
        return LAST if token == LAST else int(token)

    def in_brackets(self):
        """All items, or those of subscripts."""
        if self.take("*"):
            self.expect("]")
            return AllItems()
        subscripts = [self.subscript()]
        while self.take(","):
            subscripts.append(self.subscript())
        self.expect("]")
        return ItemsAt(tuple(subscripts))

    def subscript(self):
        """One index, or a first and a last one."""
        first = self.sum()
        return Subscript(first, self.sum() if self.take("to") else None)

    def filter(self):
        """A test in parentheses."""
        self.expect("(")
        test = self.disjunction()
        self.expect(")")
        return Filter(test)


def read_path(text):
    """The path of its text."""
    return Reader(text).query()


# ---- paths are written

def write_path(query):
    """The text of a path, with parentheses around all that has an operator."""
    return f"{query.mode.value} {write_expression(query.tree)}"


def write_expression(it):
    """The text of an expression."""
    if isinstance(it, Chain):
        begin = write_primary(it.primary)
        if it.steps and isinstance(it.primary, Literal):
            begin = f"({begin})"
        return begin + "".join(write_step(step) for step in it.steps)
    if isinstance(it, Signed):
        return f"({it.sign}({write_expression(it.operand)}))"
    if isinstance(it, Arithmetic):
        return f"({write_expression(it.left)} {it.operator} {write_expression(it.right)})"
    return write_test(it.test)


def write_primary(it):
    """The text of what a chain begins with."""
    signs = {Root: "$", Current: "@", Last: "last"}
    if type(it) in signs:
        return signs[type(it)]
    if isinstance(it, Variable):
        return f"${it.name}"
    if isinstance(it, Literal):
        return write_document(it.value)
    return f"({write_expression(it.expression)})"


def write_step(it):
    """The text of an accessor."""
    if isinstance(it, Member):
        return "." + json.dumps(it.name)
    if isinstance(it, ItemsAt):
        return "[" + ", ".join(write_subscript(subscript) for subscript in it.subscripts) + "]"
    if isinstance(it, Descendants):
        return ".**{%s to %s}" % (it.first, it.last)
    if isinstance(it, Filter):
        return f" ? ({write_test(it.test)})"
    if isinstance(it, Called):
        return "." + it.method.value
    return ".*" if isinstance(it, AllMembers) else "[*]"


def write_subscript(it):
    """The text of an index, or of a first and a last one."""
    first = write_expression(it.first)
    return first if it.last is None else f"{first} to {write_expression(it.last)}"


def write_test(it):
    """The text of a test."""
    if isinstance(it, (Conjunction, Disjunction)):
        sign = "&&" if isinstance(it, Conjunction) else "||"
        return f"(({write_test(it.left)}) {sign} ({write_test(it.right)}))"
    if isinstance(it, Denial):
        return f"(!({write_test(it.test)}))"
    if isinstance(it, IsUnknown):
        return f"(({write_test(it.test)}) is unknown)"
    if isinstance(it, Exists):
        return f"(exists ({write_expression(it.expression)}))"
    sign = "starts with" if isinstance(it, Starting) else it.comparison
    return f"({write_expression(it.left)} {sign} {write_expression(it.right)})"
