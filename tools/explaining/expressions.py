"""Expressions of a JDF and of its bodies: read from tokens, and evaluated as docs/language.md says under 'Expressions and ranges'."""
from dataclasses import dataclass

from data_text import whole
from jdf_text import RESERVED

LEAST, MOST = -(2**63), 2**63 - 1
BINDS = {
    "||": 1, "|": 1, "&&": 2, "&": 2, "==": 3, "!=": 3, "<": 4, "<=": 4, ">": 4, ">=": 4, "+": 5, "-": 5, "*": 6, "/": 6, "%": 6
}  # fmt: skip


class Unreadable(Exception):
    """A text that has no such form."""


class Fault(Exception):
    """Why an expression or a statement has no value, and the part of the text that it is about."""

    def __init__(self, cause, node, *values):
        super().__init__(cause)
        self.cause, self.node, self.values = cause, node, values


@dataclass(eq=False)
class Node:
    """A part of an expression."""

    # number, name, element, minus, not, choice, or a binary operator
    op: str
    # the number, the name's key, or the flow of an element
    value: object
    parts: tuple
    # the token that a person would point at, and all tokens of the part
    token: object
    tokens: list

    def inner(self):
        """This part and all parts in it."""
        found = [self]
        for it in found:
            found += it.parts
        return found


class Reader:
    """Reads expressions from a list of tokens. In a body an element of a flow is one too, and a variable has a key of its own."""

    def __init__(self, tokens, variable=None):
        self.tokens, self.at, self.variable = tokens, 0, variable

    def text(self, ahead=0):
        at = self.at + ahead
        return self.tokens[at].text if at < len(self.tokens) else ""

    def is_over(self):
        return self.at >= len(self.tokens)

    def take(self, *texts):
        """Takes the next token, which must be one of these."""
        if self.is_over() or (texts and self.text() not in texts):
            raise Unreadable
        self.at += 1
        return self.tokens[self.at - 1]

    def name(self):
        token = self.take()
        if token.kind != "name" or token.text in RESERVED:
            raise Unreadable
        return token

    def node(self, op, value, parts, token, first):
        return Node(op, value, tuple(parts), token, self.tokens[first : self.at])

    def expression(self):
        first, condition = self.at, self.binary(1)
        if self.text() != "?":
            return condition
        mark = self.take("?")
        yes = self.expression()
        self.take(":")
        return self.node("choice", None, (condition, yes, self.expression()), mark, first)

    def binary(self, least):
        first, left = self.at, self.unary()
        while BINDS.get(self.text(), 0) >= least:
            mark = self.take()
            right = self.binary(BINDS[mark.text] + 1)
            left = self.node({"|": "||", "&": "&&"}.get(mark.text, mark.text), None, (left, right), mark, first)
        return left

    def unary(self):
        first, token = self.at, self.take()
        if token.text in ("-", "!"):
            return self.node("minus" if token.text == "-" else "not", None, (self.unary(),), token, first)
        if token.text == "(":
            inner = self.expression()
            self.take(")")
            return Node(inner.op, inner.value, inner.parts, inner.token, self.tokens[first : self.at])
        if token.kind == "number" and whole(token.text) is not None:
            return self.node("number", whole(token.text), (), token, first)
        if token.kind != "name" or token.text in RESERVED:
            raise Unreadable
        if self.variable and self.text() == "[":
            self.take("[")
            index = self.expression()
            self.take("]")
            return self.node("element", token.text, (index,), token, first)
        return self.node("name", self.variable(token.text) if self.variable else token.text, (), token, first)


def within(number, node, *values):
    """A result that fits 64 bits."""
    if LEAST <= number <= MOST:
        return number
    raise Fault("overflow", node, *values)


def quotient(left, right, node):
    """The quotient, rounded towards 0, and the remainder, which has the sign of the dividend."""
    if right == 0:
        raise Fault("divide", node, left, right)
    if left == LEAST and right == -1:
        raise Fault("overflow", node, left, right)
    size = abs(left) // abs(right)
    found = size if (left < 0) == (right < 0) else -size
    return found, left - right * found


ARITHMETIC = {
    "+": lambda a, b, node: within(a + b, node, a, b),
    "-": lambda a, b, node: within(a - b, node, a, b),
    "*": lambda a, b, node: within(a * b, node, a, b),
    "/": lambda a, b, node: quotient(a, b, node)[0],
    "%": lambda a, b, node: quotient(a, b, node)[1],
    "==": lambda a, b, node: int(a == b),
    "!=": lambda a, b, node: int(a != b),
    "<": lambda a, b, node: int(a < b),
    "<=": lambda a, b, node: int(a <= b),
    ">": lambda a, b, node: int(a > b),
    ">=": lambda a, b, node: int(a >= b),
}


def value(node, names, element=None):
    """The value of an expression, where `names` has the values of names, and `element` gives that of an element of a flow."""
    op = node.op
    if op == "number":
        return node.value
    if op == "name":
        if node.value not in names:
            raise Unreadable
        return names[node.value]
    if op == "element":
        return element(node, value(node.parts[0], names, element))
    first = value(node.parts[0], names, element)
    if op == "choice":
        return value(node.parts[1 if first else 2], names, element)
    if op == "minus":
        return within(-first, node, first)
    if op == "not":
        return int(not first)
    if op == "&&":
        return int(bool(first) and value(node.parts[1], names, element) != 0)
    if op == "||":
        return int(bool(first) or value(node.parts[1], names, element) != 0)
    return ARITHMETIC[op](first, value(node.parts[1], names, element), node)


@dataclass(eq=False)
class Range:
    low: Node
    high: Node
    step: Node
    tokens: list

    def values(self, names):
        """The values of the range, as a range of Python."""
        low, high = value(self.low, names), value(self.high, names)
        step = value(self.step, names) if self.step else 1
        if step == 0:
            raise Fault("step", self.step)
        return range(low, high + (1 if step > 0 else -1), step)


def argument(reader):
    """An expression or a range."""
    first, low = reader.at, reader.expression()
    if reader.text() != "..":
        return low
    reader.take()
    high, step = reader.expression(), None
    if reader.text() == "..":
        reader.take()
        step = reader.expression()
    return Range(low, high, step, reader.tokens[first : reader.at])


def arguments(reader):
    """The arguments between parentheses."""
    reader.take("(")
    found = []
    while reader.text() != ")":
        found.append(argument(reader))
        if reader.text() != ")":
            reader.take(",")
    reader.take(")")
    return found
