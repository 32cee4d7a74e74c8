"""The table of what a user types and what comes back, tools/help/table.txt."""
import os
from dataclasses import dataclass, field

HERE = os.path.dirname(os.path.realpath(__file__))
# How many fields a line of each kind has after its kind.
FIELDS = {"verb": 4, "more": 2, "example": 2, "operand": 2, "option": 6, "script": 2, "variable": 2, "status": 2, "tool": 2, "document": 2}


@dataclass
class Option:
    name: str
    value: str
    least: str
    most: str
    default: str
    does: str

    def form(self):
        """The option as it is typed."""
        return f"{self.name} {self.value}" if self.value else self.name

    def sentence(self):
        """What the option does, with its range and what holds without it."""
        return f"{self.does}, {self.least} to {self.most}; {self.default} by default" if self.value else self.does


@dataclass
class Verb:
    name: str
    operands: list
    options: list
    prints: str
    more: list = field(default_factory=list)
    examples: list = field(default_factory=list)

    def form(self, options):
        """The command as it is typed, with its options."""
        return " ".join([self.name, *self.operands, *(f"[{options[it].form()}]" for it in self.options)])


class Table:
    """The table. Each part is in the order of the lines; `options` is by name."""

    def __init__(self, path=os.path.join(HERE, "table.txt")):
        lines = list(lines_of(path))
        self.verbs = [Verb(name, operands.split(), options.split(), prints) for name, operands, options, prints in of_kind(lines, "verb")]
        for verb in self.verbs:
            verb.more = [text for name, text in of_kind(lines, "more") if name == verb.name]
            verb.examples = [text for name, text in of_kind(lines, "example") if name == verb.name]
        self.options = {it[0]: Option(*it) for it in of_kind(lines, "option")}
        self.operands = dict(of_kind(lines, "operand"))
        self.script, self.variables = of_kind(lines, "script"), of_kind(lines, "variable")
        self.statuses, self.tools, self.documents = of_kind(lines, "status"), of_kind(lines, "tool"), of_kind(lines, "document")

    def verb(self, name):
        return next((it for it in self.verbs if it.name == name), None)

    def verbs_with(self, option):
        """The names of the verbs that have an option."""
        return [it.name for it in self.verbs if option in it.options]


def lines_of(path):
    """The lines of the table, each as its kind and its fields."""
    with open(path, encoding="utf-8") as file:
        for number, line in enumerate(file, 1):
            if not line.strip() or line.startswith("#"):
                continue
            kind, *fields = (part.strip() for part in line.split("|"))
            if FIELDS.get(kind) != len(fields):
                raise ValueError(f"{path}:{number}: this is no line of the table")
            yield kind, fields


def of_kind(lines, kind):
    return [tuple(fields) for it, fields in lines if it == kind]
