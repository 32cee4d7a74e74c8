"""Whether a body is in `ptg`'s own language, with its names."""
from dataclasses import dataclass

from parsec.own_expressions import OwnWalk
from parsec.own_tokens import RESERVED, NotOwn, own_tokens

BODY_WORDS = RESERVED | {"int", "if", "else", "for", "trap"}
MOST_BLOCKS, MOST_VARIABLES = 32, 256


@dataclass
class OwnBody:
    # one more than the greatest number that stands as an index
    elements: int


class BodyReader:
    """Reads a body with the names that it may use."""

    def __init__(self, tokens, names):
        self.walk, self.names = OwnWalk(tokens, BODY_WORDS), names
        self.walk.on_name, self.walk.on_element = self.see_name, self.see_element
        self.blocks, self.variables, self.elements = [{}], 0, 1

    def read(self):
        walk = self.walk
        whole = walk.sees("{")
        if whole:
            walk.take()
        while not walk.sees("}") and walk.now().kind != "end":
            self.statement()
        if whole:
            walk.take_text("}")
        if walk.now().kind != "end":
            raise NotOwn
        return OwnBody(self.elements)

    def variable(self, name):
        return next((block[name] for block in reversed(self.blocks) if name in block), None)

    def see_name(self, name):
        if not self.variable(name) and name not in self.names["numbers"] and name not in self.names["locals"]:
            raise NotOwn

    def see_element(self, name, index, is_assigned):
        if self.names["flows"].get(name, "CTL") in (("CTL", "READ") if is_assigned else ("CTL",)):
            raise NotOwn
        if len(index) == 1 and index[0].text.isdigit():
            self.elements = max(self.elements, int(index[0].text) + 1)

    def declare(self, name, kind):
        self.variables += 1
        if self.variables > MOST_VARIABLES or name in self.blocks[-1]:
            raise NotOwn
        self.blocks[-1][name] = kind

    def block(self, variable=None):
        self.walk.take_text("{")
        self.blocks.append({})
        if len(self.blocks) > MOST_BLOCKS + 1:
            raise NotOwn
        if variable:
            self.declare(variable, "loop")
        while not self.walk.sees("}"):
            self.statement()
        self.walk.take()
        self.blocks.pop()

    def statement(self):
        walk = self.walk
        if walk.sees("int"):
            walk.take()
            name = walk.take_name().text
            walk.take_text("=")
            walk.expression()
            self.declare(name, "variable")
            walk.take_text(";")
        elif walk.sees("if"):
            walk.take()
            walk.take_text("(")
            walk.expression()
            walk.take_text(")")
            self.block()
            if walk.sees("else"):
                walk.take()
                self.block()
        elif walk.sees("for"):
            self.loop()
        elif walk.sees("trap"):
            walk.take()
            walk.take_name()
            walk.take_text(";")
        else:
            self.assignment()

    def loop(self):
        walk = self.walk
        walk.take()
        name = walk.take_name().text
        walk.take_text("=")
        walk.expression()
        walk.take_text("..")
        walk.expression()
        self.block(name)

    def assignment(self):
        walk = self.walk
        name = walk.take_name().text
        if walk.sees("["):
            walk.take()
            begin = walk.at
            walk.expression()
            walk.take_text("]")
            self.see_element(name, walk.tokens[begin : walk.at - 1], True)
        elif self.variable(name) != "variable":
            raise NotOwn
        walk.take_text("=")
        walk.expression()
        walk.take_text(";")


def own_body(text, planned, numbers):
    """The body, if it is in `ptg`'s language and its names mean something there, else None."""
    names = {"numbers": numbers, "locals": planned.locals(), "flows": {it.name: it.kind for it in planned.flows}}
    try:
        return BodyReader(own_tokens(text), names).read()
    except NotOwn:
        return None

