"""The text of a JDF as tokens, and an outline of its classes: enough to find the line that a refusal speaks of.

Nothing is evaluated here, and what is no JDF gets as much of an outline as there is."""
import re
from dataclasses import dataclass, field

# docs/language.md, 'The text of JDF', has the kinds of tokens.
TOKEN = re.compile(
    rb"(?P<blank>[ \t\r\n]+|//[^\n]*|/\*.*?\*/)"
    rb"|(?P<option>%option(?![A-Za-z0-9_])[^\n]*)|(?P<raw>%\{.*?%\})"
    rb'|(?P<quoted>"(?:\\.|[^"\\])*")'
    rb'|(?P<open>/\*|"|%\{)'
    rb"|(?P<name>[A-Za-z_][A-Za-z0-9_]*)|(?P<number>[0-9][A-Za-z0-9_]*)"
    rb"|(?P<mark>\.\.|<-|->|==|!=|<=|>=|&&|\|\||[()\[\]{},;:?=+\-*/%<>&|!])|(?P<other>.)",
    re.S,
)
RESERVED = {"extern", "BODY", "END", "READ", "WRITE", "RW", "CTL", "NEW", "NULL"}
KINDS = {"READ", "WRITE", "RW", "CTL"}
# A JDF has no more tokens; of a longer text these are read.
MOST_TOKENS = 1_000_000


@dataclass
class Token:
    kind: str
    text: str
    line: int
    column: int
    start: int
    end: int

    def at(self):
        return self.line, self.column


@dataclass
class Dependence:
    arrow: Token
    tokens: list = field(default_factory=list)

    def inward(self):
        return self.arrow.text == "<-"

    def names_tasks(self):
        return any(is_task_target(self.tokens, at) for at in range(len(self.tokens)))

    def names_elements(self):
        return any(is_element_target(self.tokens, at) for at in range(len(self.tokens)))


@dataclass
class Flow:
    kind: Token
    name: Token
    dependences: list = field(default_factory=list)


@dataclass
class Class:
    name: Token
    params: list = field(default_factory=list)
    # the name of each definition, and the tokens of what it is defined as
    definitions: list = field(default_factory=list)
    values: list = field(default_factory=list)
    affinity: Token = None
    # the tokens of the affinity, from the collection's name
    place: list = field(default_factory=list)
    flows: list = field(default_factory=list)
    # the `;` of the priority, and the tokens of its expression
    priority: Token = None
    urgency: list = field(default_factory=list)
    begin: Token = None
    body: list = field(default_factory=list)
    end: Token = None


@dataclass
class Outline:
    tokens: list
    globals: list = field(default_factory=list)
    classes: list = field(default_factory=list)

    def class_named(self, name):
        return next((it for it in self.classes if it.name.text == name), None)

    def class_at(self, place):
        """The class that a place, a line and a column, stands in."""
        return next((it for it in reversed(self.classes) if it.name.at() <= place), None)

    def index_at(self, place):
        """The number of the token at a place."""
        return next((at for at, it in enumerate(self.tokens) if it.at() == place), None)


def tokens_of(text):
    """The tokens of a text, up to a comment, a quoted text or a raw block without its end."""
    found, line, start_of_line = [], 1, 0
    for it in TOKEN.finditer(text):
        kind = it.lastgroup
        if kind == "open" or len(found) > MOST_TOKENS:
            break
        if kind != "blank":
            found.append(Token(kind, it[0].decode("utf-8", "replace"), line, it.start() - start_of_line + 1, it.start(), it.end()))
        newlines = it[0].count(b"\n")
        if newlines:
            line += newlines
            start_of_line = it.start() + it[0].rindex(b"\n") + 1
    return found


def spelled(tokens, most=60):
    """Tokens as they stand in the text, with one space for blanks and comments between them."""
    text = ""
    for last, token in zip([None] + tokens, tokens):
        text += (" " if last and last.end < token.start else "") + token.text
        if len(text) > most:
            return text[:most] + " .."
    return text


def is_name(token):
    return token.kind == "name" and token.text not in RESERVED


def is_task_target(tokens, at):
    """Whether FLOW CLASS( stands at a token."""
    return at + 2 < len(tokens) and is_name(tokens[at]) and is_name(tokens[at + 1]) and tokens[at + 2].text == "("


def is_element_target(tokens, at):
    """Whether COLLECTION( stands at a token, and is no class of a target."""
    return at + 1 < len(tokens) and is_name(tokens[at]) and tokens[at + 1].text == "(" and not (at > 0 and is_name(tokens[at - 1]))


class Walk:
    """A walk over tokens from the first to the last."""

    def __init__(self, tokens):
        self.tokens, self.at = tokens, 0

    def now(self, ahead=0):
        at = self.at + ahead
        return self.tokens[at] if at < len(self.tokens) else Token("end", "", 0, 0, 0, 0)

    def is_over(self):
        return self.at >= len(self.tokens)

    def take(self):
        self.at += 1
        return self.tokens[self.at - 1]

    def skip_properties(self):
        if self.now().text == "[":
            while not self.is_over() and self.take().text != "]":
                pass

    def skip_to(self, texts, names=()):
        """Takes tokens up to one of these texts outside parentheses and brackets. The `:` of a `? :` is none of them."""
        taken, depth, choices = [], 0, 0
        while not self.is_over():
            text = self.now().text
            if depth == 0 and choices and text == ":":
                choices -= 1
            elif depth == 0 and (text in texts or (self.now().kind == "name" and text in names)):
                break
            choices += depth == 0 and text == "?"
            depth += (text in "([") - (text in ")]") if len(text) == 1 else 0
            taken.append(self.take())
        return taken

    def skip_body(self):
        taken = []
        while not self.is_over() and self.now().text != "END":
            taken.append(self.take())
        return taken


def outline_of(text):
    """The outline of a text: its globals and its classes."""
    walk = Walk(tokens_of(text))
    found = Outline(walk.tokens)
    while not walk.is_over():
        if is_name(walk.now()) and walk.now(1).text == "(":
            found.classes.append(class_of(walk))
        elif is_name(walk.now()):
            found.globals.append(walk.take())
            walk.skip_properties()
        else:
            walk.take()
    return found


def class_of(walk):
    it = Class(walk.take())
    it.params = params_of(walk)
    walk.skip_properties()
    define(it, walk)
    if walk.now().text == ":":
        walk.take()
        it.place = walk.skip_to([";"], KINDS | {"BODY"})
        it.affinity = it.place[0] if it.place else None
    while walk.now().text in KINDS:
        it.flows.append(flow_of(walk))
    if walk.now().text == ";":
        it.priority = walk.take()
        it.urgency = walk.skip_to([], {"BODY"})
    if walk.now().text == "BODY":
        it.begin = walk.take()
        walk.skip_properties()
        it.body = walk.skip_body()
        it.end = None if walk.is_over() else walk.take()
    return it


def params_of(walk):
    """The parameters of a class, from its `(` to its `)`; what is no list of names ends before a definition."""
    walk.take()
    found = []
    while not walk.is_over() and walk.now().text not in ("=", ":", "[", "BODY") and walk.now().text not in KINDS:
        token = walk.take()
        if token.text == ")":
            break
        found += [token] if is_name(token) else []
    return found


def define(it, walk):
    """Reads the definitions of a class."""
    while True:
        taken = walk.skip_to(["=", ":"], KINDS | {"BODY"})
        is_next = walk.now().text == "=" and taken
        if it.definitions:
            it.values.append(taken[:-1] if is_next else taken)
        if not is_next:
            return
        it.definitions.append(taken[-1])
        walk.take()


def flow_of(walk):
    it = Flow(walk.take(), walk.now() if walk.is_over() else walk.take())
    while walk.now().text in ("<-", "->"):
        dependence = Dependence(walk.take())
        dependence.tokens = walk.skip_to(["<-", "->", ";"], KINDS | {"BODY"})
        it.dependences.append(dependence)
    return it
