"""Expressions over named integers, with the operators and the values of docs/language.md, 'Expressions and ranges'."""
import re

TOKEN = re.compile(r"\.\.|\|\||&&|==|!=|<=|>=|[0-9]+|[A-Za-z_][A-Za-z0-9_]*|[-+*/%<>!?:(),]")
NAME = re.compile(r"[A-Za-z_][A-Za-z0-9_]*")
LEAST, GREATEST = -(1 << 63), (1 << 63) - 1


class NoValue(Exception):
    """An expression that can't be read, or that has no value."""


def quotient(left, right):
    if right == 0:
        raise NoValue("a division by 0")
    return abs(left) // abs(right) * (1 if (left < 0) == (right < 0) else -1)


LEVELS = (
    {"||": lambda left, right: int(left != 0 or right != 0)},
    {"&&": lambda left, right: int(left != 0 and right != 0)},
    {"==": lambda left, right: int(left == right), "!=": lambda left, right: int(left != right)},
    {
        "<": lambda left, right: int(left < right),
        "<=": lambda left, right: int(left <= right),
        ">": lambda left, right: int(left > right),
        ">=": lambda left, right: int(left >= right),
    },
    {"+": lambda left, right: left + right, "-": lambda left, right: left - right},
    {"*": lambda left, right: left * right, "/": quotient, "%": lambda left, right: left - right * quotient(left, right)},
)


def tokens_of(text):
    found, at = [], 0
    while at < len(text):
        token = TOKEN.match(text, at)
        if not token:
            raise NoValue(f"`{text[at:]}` begins with nothing that an expression has")
        found.append(token[0])
        at = token.end()
    return found


def fitting(value):
    if not LEAST <= value <= GREATEST:
        raise NoValue(f"{value} does not fit 64 bits")
    return value


class Reader:
    """Reads expressions, each as a function from the values of names to a value, and notes which names they have."""

    def __init__(self, text):
        self.tokens, self.at, self.names = tokens_of("".join(text.split())), 0, []

    def next(self):
        return self.tokens[self.at] if self.at < len(self.tokens) else ""

    def takes(self, token):
        """Whether this token is next; it is then read."""
        found = self.next() == token
        self.at += found
        return found

    def expects(self, token):
        if not self.takes(token):
            raise NoValue(f"`{token}` is missing before `{self.next()}`" if self.next() else f"`{token}` is missing at the end")

    def expression(self):
        decides = self.operation(0)
        if not self.takes("?"):
            return decides
        first = self.expression()
        self.expects(":")
        second = self.expression()
        return lambda values: first(values) if decides(values) else second(values)

    def operation(self, level):
        """An operation of a level or of one that binds more; the first levels take the right side only where the left one leaves it open."""
        if level == len(LEVELS):
            return self.unary()
        left = self.operation(level + 1)
        while self.next() in LEVELS[level]:
            mark = self.next()
            self.at += 1
            left = joined(mark, LEVELS[level][mark], left, self.operation(level + 1))
        return left

    def unary(self):
        if self.takes("-"):
            inner = self.unary()
            return lambda values: fitting(-inner(values))
        if self.takes("!"):
            inner = self.unary()
            return lambda values: int(inner(values) == 0)
        if self.takes("("):
            inner = self.expression()
            self.expects(")")
            return inner
        return self.operand()

    def operand(self):
        token = self.next()
        self.at += 1
        if token.isdigit():
            number = fitting(int(token))
            return lambda values: number
        if not NAME.fullmatch(token):
            raise NoValue(f"a name or a number is missing before `{token}`" if token else "a name or a number is missing at the end")
        self.names.append(token)
        return lambda values: values[token]


def joined(mark, compute, left, right):
    """The function of an operation with two sides."""
    if mark == "||":
        return lambda values: 1 if left(values) else int(right(values) != 0)
    if mark == "&&":
        return lambda values: int(right(values) != 0) if left(values) else 0
    return lambda values: fitting(compute(left(values), right(values)))
