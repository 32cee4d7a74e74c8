"""Bodies of tasks: read from tokens, and run as docs/language.md says under 'Bodies'."""
import time
from dataclasses import dataclass, field

from expressions import Fault, Reader, Unreadable, value
from jdf_text import spelled

WORDS = {"int", "if", "else", "for", "trap"}
BUDGET = 1 << 24


class TooLong(Exception):
    """A run that takes too much work to be looked at here."""


@dataclass(eq=False)
class Statement:
    # int, set, put, if, for or trap
    kind: str
    # the key of the variable, the flow, or the word of a trap
    target: object = None
    # expressions, in the order in which they are evaluated
    parts: tuple = ()
    blocks: tuple = ()
    # the token that a person would point at, and all tokens up to the statement's end or its block
    token: object = None
    tokens: list = field(default_factory=list)

    def inner(self):
        """This statement and all in its blocks."""
        found = [self]
        for it in found:
            found += [inner for block in it.blocks for inner in block]
        return found


class BodyReader(Reader):
    """Reads a body, with the variables that are in scope."""

    def __init__(self, tokens):
        super().__init__(tokens, self.key)
        self.scopes, self.count = [{}], 0

    def key(self, name):
        """The key of a variable in scope, or the name itself."""
        return next((scope[name] for scope in reversed(self.scopes) if name in scope), name)

    def declare(self, name):
        self.count += 1
        self.scopes[-1][name] = (name, self.count)
        return self.scopes[-1][name]

    def body(self):
        braces = self.text() == "{"
        if braces:
            self.take("{")
        found = self.statements()
        if braces:
            self.take("}")
        if not self.is_over():
            raise Unreadable
        return found

    def statements(self):
        found = []
        while not self.is_over() and self.text() != "}":
            found.append(self.statement())
        return tuple(found)

    def block(self, variable=None):
        """A block in braces, and the key of the variable of its loop."""
        self.take("{")
        self.scopes.append({})
        key = self.declare(variable) if variable else None
        found = self.statements()
        self.scopes.pop()
        self.take("}")
        return found, key

    def statement(self):
        first, token = self.at, self.tokens[self.at]
        it = Statement(token.text, token=token)
        {"int": self.variable_of, "if": self.choice, "for": self.loop, "trap": self.trap}.get(token.text, self.assignment)(it, first)
        it.tokens = it.tokens or self.tokens[first : self.at]
        return it

    def variable_of(self, it, _first):
        self.take()
        it.token = self.name()
        self.take("=")
        it.parts = (self.expression(),)
        self.take(";")
        it.target = self.declare(it.token.text)

    def choice(self, it, first):
        self.take()
        self.take("(")
        it.parts = (self.expression(),)
        self.take(")")
        it.tokens = self.tokens[first : self.at]
        it.blocks = (self.block()[0], ())
        if self.text() == "else":
            self.take()
            it.blocks = (it.blocks[0], self.block()[0])

    def loop(self, it, first):
        self.take()
        name = self.name()
        self.take("=")
        low = self.expression()
        self.take("..")
        it.parts = (low, self.expression())
        it.tokens = self.tokens[first : self.at]
        block, it.target = self.block(name.text)
        it.blocks = (block,)

    def trap(self, it, _first):
        self.take()
        it.target = self.name().text
        self.take(";")

    def assignment(self, it, _first):
        name = self.name()
        if name.text in WORDS:
            raise Unreadable
        if self.text() == "[":
            self.take("[")
            index = self.expression()
            self.take("]")
            it.kind, it.target, it.parts = "put", name.text, (index,)
        else:
            it.kind, it.target = "set", self.key(name.text)
        self.take("=")
        it.parts += (self.expression(),)
        self.take(";")


def statements_of(tokens):
    """The statements of a body, from its tokens."""
    return BodyReader(list(tokens)).body()


@dataclass(eq=False)
class Condition:
    """An `if` or a loop that a statement is in: whether its condition held, and with which values."""

    node: object
    held: bool
    values: list


class Run:
    """A run of a body on tiles, a list for each flow or None for one without a tile."""

    def __init__(self, names, tiles, work, watched=False):
        self.names, self.tiles, self.work, self.watched = dict(names), tiles, work, watched
        self.units, self.inside = 0, []

    def start(self, statement):
        """Takes one unit of the budget."""
        self.units += 1
        if self.units > BUDGET:
            raise Fault("budget", statement)
        self.work.take(1)

    def value(self, node):
        return value(node, self.names, self.element)

    def element(self, node, index):
        return self.tile(node, node.value, index)[index]

    def tile(self, node, flow, index):
        """The tile of a flow that has an element with this index."""
        if flow not in self.tiles:
            raise Unreadable
        found = self.tiles[flow]
        if found is None:
            raise Fault("absent", node, flow)
        if not 0 <= index < len(found):
            raise Fault("index", node, flow, index, len(found))
        return found

    def block(self, statements):
        for it in statements:
            self.start(it)
            self.step(it)

    def step(self, it):
        if it.kind in ("int", "set"):
            self.names[it.target] = self.value(it.parts[0])
        elif it.kind == "put":
            index, number = self.value(it.parts[0]), self.value(it.parts[1])
            self.tile(it, it.target, index)[index] = number
        elif it.kind == "if":
            self.choice(it)
        elif it.kind == "for":
            self.loop(it)
        else:
            raise Fault("word", it, it.target)

    def choice(self, it):
        held = self.value(it.parts[0]) != 0
        if self.watched:
            self.inside.append(Condition(it.parts[0], held, self.leaves(it.parts[0])))
        self.block(it.blocks[0 if held else 1])
        if self.watched:
            self.inside.pop()

    def loop(self, it):
        low, high = self.value(it.parts[0]), self.value(it.parts[1])
        for number in range(low, high + 1):
            self.start(it)
            self.names[it.target] = number
            self.block(it.blocks[0])

    def leaves(self, *nodes):
        """The names and the elements in expressions, each as it is spelled, with its value."""
        return leaves_of(nodes, self.names, self.element)


def leaves_of(nodes, names, element=None):
    """The names and the elements in expressions, each as it is spelled, with its value where it has one."""
    found, inner = {}, [it for node in nodes for it in node.inner() if it.op in ("name", "element")]
    for it in sorted(inner, key=lambda it: it.token.start):
        try:
            found.setdefault(spelled_leaf(it), value(it, names, element))
        except (Fault, Unreadable):
            continue
    return list(found.items())


def spelled_leaf(node):
    """A name, or an element with its index."""
    return node.token.text if node.op == "name" else f"{node.value}[{spelled(node.parts[0].tokens)}]"


class Work:
    """How much may still be done, in statements and elements, and until when."""

    def __init__(self, most, seconds):
        self.left, self.until = most, time.monotonic() + seconds

    def take(self, much):
        self.left -= much
        if self.left < 0 or (self.left % 1024 == 0 and time.monotonic() > self.until):
            raise TooLong
