"""The tree of a file of PaRSEC's JDF. Each part has its line and its span in the text."""
from dataclasses import dataclass, field


@dataclass
class Node:
    """An expression. Its kinds:

    number  text                 name    text
    unary   text, parts[0]       binary  text, parts[0], parts[1]
    choice  parts[0..2]          paren   parts[0]
    access  parts[0] is the name, steps are (".", name), ("->", name), ("[", node), ("(", nodes)
    cast    text is the type, parts[0]
    inline  parts[0], or nothing where `fault` says why it can't be read
    """

    kind: str
    text: str
    line: int
    start: int
    end: int
    parts: list = field(default_factory=list)
    steps: list = field(default_factory=list)
    fault: object = None


@dataclass
class Argument:
    """An expression, or a range with two or three parts."""

    parts: list
    line: int
    start: int
    end: int

    def is_range(self):
        return len(self.parts) > 1


@dataclass
class Property:
    key: str
    tokens: list
    line: int


@dataclass
class Properties:
    items: list
    line: int
    start: int
    end: int

    def value(self, key):
        return next((it for it in self.items if it.key == key), None)


@dataclass
class Target:
    """kind: task, element, NEW or NULL."""

    kind: str
    flow: object
    name: object
    arguments: list
    line: int
    start: int
    end: int
    properties: list = field(default_factory=list)


@dataclass
class Guarded:
    condition: Node
    yes: object
    no: object


@dataclass
class Index:
    name: object
    argument: Argument


@dataclass
class Dependence:
    arrow: object
    indices: list
    what: object
    properties: list
    line: int
    start: int
    end: int
    # the span of the indices with their brackets
    brackets: object = None

    def inward(self):
        return self.arrow.text == "<-"

    def targets(self):
        return targets_of(self.what)


def targets_of(what):
    if isinstance(what, Target):
        return [what]
    return targets_of(what.yes) + (targets_of(what.no) if what.no else [])


@dataclass
class Flow:
    # None where no access word is written
    access: object
    name: object
    dependences: list = field(default_factory=list)

    def kind(self):
        return self.access.text if self.access else "RW"


@dataclass
class Definition:
    name: object
    argument: Argument
    properties: list
    semicolons: list


@dataclass
class Body:
    begin: object
    properties: list
    text: object
    end: object


@dataclass
class Class:
    name: object
    params: list = field(default_factory=list)
    properties: list = field(default_factory=list)
    definitions: list = field(default_factory=list)
    affinity: object = None
    flows: list = field(default_factory=list)
    priority: object = None
    # the spans of SIMCOST and its expression
    costs: list = field(default_factory=list)
    bodies: list = field(default_factory=list)
    # its place was refused as it was read
    is_broken: bool = False


@dataclass
class Priority:
    mark: object
    value: Node
    end: int


@dataclass
class Global:
    name: object
    properties: list
    # after the first class
    late: bool = False


@dataclass
class Skip:
    """What is skipped or dropped beside globals and classes."""

    what: str
    line: int
    start: int
    end: int


@dataclass
class File:
    text: str
    globals: list = field(default_factory=list)
    classes: list = field(default_factory=list)
    skips: list = field(default_factory=list)
    # some class could not be read at all
    is_broken: bool = False
