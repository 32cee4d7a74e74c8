"""Expressions of PaRSEC's JDF as expressions of `ptg`'s: what changes is noted, and what has no translation is refused."""
from parsec import numbers, rendering, signs
from parsec.names import name_of_access, text_of_access
from parsec.notes import Fault
from parsec.tree import Argument, Node, Target

NARROW = frozenset("short char float double bool _Bool void struct int8_t int16_t".split())
COMPARED = frozenset("== != < <= > >= && ||".split())
MOST_TERMS, MOST_TOKENS = 128, 512


class Translator:
    """Translates the expressions of one class. `scope` has each definition so far, and whether it can't be negative."""

    def __init__(self, names, values, notes, scope, later=(), is_own=False):
        self.names, self.values, self.notes, self.scope, self.later = names, values, notes, scope, frozenset(later)
        self.is_own, self.of_c = is_own, False

    def outermost(self, node):
        """An outermost expression; refused where it is too long for `ptg`. A 0 stands for one that is refused."""
        try:
            new = self.node(node)
        except Fault as fault:
            self.notes.refuse_fault(fault)
            return Node("number", "0", node.line, node.start, node.end)
        text = rendering.shown(new)
        if terms_of(new) > MOST_TERMS or rendering.token_count(text) > MOST_TOKENS:
            self.notes.refuse(
                node.line,
                f"This expression has more than {MOST_TERMS} names, numbers and operators, which is the limit of `ptg`.",
                "Split it by definitions.",
            )
        return new

    def argument(self, argument):
        parts = [self.outermost(it) for it in argument.parts]
        if all(new is old for new, old in zip(parts, argument.parts)):
            return argument
        return Argument(parts, argument.line, argument.start, argument.end)

    def target(self, target):
        arguments = [self.argument(it) for it in target.arguments]
        return Target(target.kind, target.flow, target.name, arguments, target.line, target.start, target.end, target.properties)

    def node(self, node):
        return getattr(self, f"of_{node.kind}")(node)

    def with_parts(self, node, parts):
        if all(new is old for new, old in zip(parts, node.parts)):
            return node
        return Node(node.kind, node.text, node.line, node.start, node.end, parts)

    def of_number(self, node):
        text, said = numbers.decimal(node.text, node.line)
        if said:
            self.notes.changed(node.line, said)
        return node if text == node.text else Node("number", text, node.line, node.start, node.end)

    def of_name(self, node):
        name = node.text
        if name in self.scope:
            return node
        if name in self.later:
            raise Fault(node.line, f"`{name}` is used before its definition.", f"Move the definition of `{name}` up.")
        if not self.names.is_known(name):
            if self.is_own:
                raise Fault(node.line, f"`{name}` is declared nowhere in this file.", f"Write `{name}` in a line before the first class.")
            self.names.undeclared[name] = node.line
            self.names.taken.add(name)
            self.notes.decide(node.line, f"`{name}` is declared nowhere in this file: it is a global now.")
        self.names.numbers.setdefault(name, node.line)
        return node

    def of_paren(self, node):
        return self.with_parts(node, [self.node(node.parts[0])])

    def of_choice(self, node):
        return self.with_parts(node, [self.node(it) for it in node.parts])

    def of_unary(self, node):
        if node.text in ("~", "&", "*"):
            what = "works on bits" if node.text == "~" else "is an operator of C on memory"
            raise Fault(
                node.line,
                f"`{node.text}` before an expression {what}: it has no translation.",
                "Write other operators, or give the value as a global.",
            )
        inner = self.node(node.parts[0])
        if node.text == "+":
            self.notes.dropped(node.line, "`+` before an expression.")
            return inner
        return self.with_parts(node, [inner])

    def of_binary(self, node):
        if node.text == "^":
            raise Fault(node.line, "`^` works on bits: it has no translation.", "Write other operators, or give the value as a global.")
        if node.text in ("<<", ">>"):
            return self.shift(node)
        left, right = self.node(node.parts[0]), self.node(node.parts[1])
        if node.text in ("&", "|") and not self.is_own:
            return self.of_bits(node, left, right)
        return self.with_parts(node, [left, right])

    def of_bits(self, node, left, right):
        double = node.text * 2
        if is_truth(left) and is_truth(right):
            self.notes.changed(node.line, f"`{node.text}` between conditions is `{double}`.")
        elif self.of_c:
            raise Fault(node.line, f"`{node.text}` in C works on bits: it has no translation.", f"Write `{double}` where a condition is meant.")
        else:
            self.notes.decide(node.line, f"`{node.text}` is `{double}`, 0 or 1; it does not work on bits.")
        return Node("binary", double, node.line, node.start, node.end, [left, right])

    def shift(self, node):
        left, right = self.node(node.parts[0]), self.node(node.parts[1])
        amount = signs.constant(right)
        if amount is None or not 0 <= amount <= 62:
            raise Fault(
                node.line,
                f"`{node.text}` by what is no number from 0 to 62 has no translation.",
                "Write a product or a quotient, or give the value as a global.",
            )
        sign = "*" if node.text == "<<" else "/"
        if sign == "/" and not signs.cannot_be_negative(left, self.scope, self.values):
            names = ", ".join(f"`{it}`" for it in sorted(signs.names_in(left) - set(self.scope)))
            advice = f" With values of {names} by --set the sign may be known." if names else ""
            raise Fault(
                node.line,
                "The left side of `>>` may be negative, and then a quotient is another number.",
                f"Write a quotient if it can't be.{advice}",
            )
        for name in sorted(signs.names_in(left) - set(self.scope)) if sign == "/" else []:
            self.notes.decide(node.line, f"`>>` is a quotient since `{name}` is {self.values.get(name)}: it must not be negative in any data.")
        new = Node("binary", sign, node.line, node.start, node.end, [left, Node("number", str(2**amount), right.line, right.start, right.end)])
        self.notes.changed(node.line, f"`{node.text} {amount}` is `{sign} {2**amount}`.")
        return Node("paren", "(", node.line, node.start, node.end, [new])

    def of_cast(self, node):
        words = node.text.split()
        if "*" in words or "unsigned" in words or any(it in NARROW or it.startswith("u") or it == "size_t" for it in words):
            raise Fault(
                node.line,
                f"A cast to `{node.text}` can change a value: it has no translation.",
                "Write the expression without it, if the value fits.",
            )
        if not all(it in ("int", "long", "signed", "const", "ssize_t", "ptrdiff_t", "intptr_t", "int32_t", "int64_t") for it in words):
            raise Fault(
                node.line,
                f"`({node.text})` before an expression would be a cast to a type that is not known here.",
                "Write the expression without it.",
            )
        self.notes.dropped(node.line, f"The cast `({node.text})`: numbers have 64 bits, and nothing is cut.")
        return self.node(node.parts[0])

    def of_inline(self, node):
        if node.fault:
            raise node.fault
        self.of_c, before = True, self.of_c
        try:
            inner = self.node(node.parts[0])
        finally:
            self.of_c = before
        self.notes.changed(node.line, f"Inline C is the expression `{rendering.shown(inner)}`.")
        return Node("paren", "(", node.line, node.start, node.end, [inner]) if rendering.level_of(inner) < rendering.PRIMARY else inner

    def of_access(self, node):
        base = node.parts[0].text
        if base in self.scope or base in self.later:
            raise Fault(node.line, f"`{base}` is a definition of this class and has no members, elements or calls.", "Write an expression of JDF.")
        steps = [(mark, self.step(mark, what)) for mark, what in node.steps]
        inner = [part for mark, what in steps if mark in "[(" for part in (what if mark == "(" else [what])]
        text = text_of_access(base, steps)
        own = sorted(set().union(*[signs.names_in(it) for it in inner]) & (set(self.scope) | self.later)) if inner else []
        if own:
            what = "An array of C" if node.steps[-1][0] == "[" else "A call of C"
            raise Fault(
                node.line,
                f"{what}, `{text}`, has a value for each `{own[0]}`: it has no translation.",
                "Write what it computes as an expression of JDF.",
            )
        name = self.names.global_for(text, name_of_access(base, steps))
        self.names.numbers.setdefault(name, node.line)
        self.notes.changed(node.line, f"`{text}` is the global `{name}`.")
        return Node("name", name, node.line, node.start, node.end)

    def step(self, mark, what):
        if mark == "[":
            return self.node(what)
        return [self.node(it) for it in what] if mark == "(" else what


def is_truth(node):
    """Whether an expression is 0 or 1."""
    if node.kind == "paren":
        return is_truth(node.parts[0])
    if node.kind == "number":
        return node.text in ("0", "1")
    return (node.kind == "binary" and node.text in COMPARED) or (node.kind == "unary" and node.text == "!")


def terms_of(node):
    """The names, numbers and operators of an expression."""
    return sum(terms_of(it) for it in node.parts) + (node.kind != "paren")
