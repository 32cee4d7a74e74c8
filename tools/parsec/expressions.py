"""Expressions of JDF and of C as trees: operators, members, calls, casts, inline C."""
from parsec.notes import Fault
from parsec.scanner import Scanner
from parsec.tree import Argument, Node
from parsec.walk import Walk

# The operators of JDF, those that bind least first; in JDF `|` is `||` and `&` is `&&`. In C they are operators on bits.
OF_JDF = [("||", "|"), ("^",), ("&&", "&"), ("==", "!="), ("<", "<=", ">", ">="), ("<<", ">>"), ("+", "-"), ("*", "/", "%")]
OF_C = [("||",), ("&&",), ("|",), ("^",), ("&",), ("==", "!="), ("<", "<=", ">", ">="), ("<<", ">>"), ("+", "-"), ("*", "/", "%")]
TYPE_WORDS = frozenset(
    "int long short char unsigned signed float double bool _Bool void const struct size_t ssize_t ptrdiff_t intptr_t uintptr_t "
    "int8_t int16_t int32_t int64_t uint8_t uint16_t uint32_t uint64_t".split()
)
MOST_TOKENS = 512
# The tokens of a cast, parentheses among them.
MOST_OF_CAST = 7


class Reader:
    """Reads expressions from a walk over tokens."""

    def __init__(self, walk, text, of_c=False, has_casts=True):
        self.walk, self.text, self.of_c, self.has_casts = walk, text, of_c, has_casts
        self.levels = OF_C if of_c else OF_JDF
        self.first = None

    def outermost(self, read):
        """Reads an outermost expression, which has so many tokens at most."""
        self.first = self.walk.at
        node = read()
        self.first = None
        return node

    def expression(self):
        return self.outermost(self.choice)

    def guard(self):
        return self.outermost(lambda: self.level(0))

    def argument(self):
        """An expression or a range."""
        parts = [self.expression()]
        while self.walk.sees("..") and len(parts) < 3:
            self.walk.take()
            parts.append(self.expression())
        return Argument(parts, parts[0].line, parts[0].start, parts[-1].end)

    def arguments(self):
        """Arguments and the parenthesis that closes them."""
        found = []
        if not self.walk.sees(")"):
            found.append(self.argument())
            while self.walk.sees(","):
                self.walk.take()
                found.append(self.argument())
        self.walk.take_mark(")", "after arguments")
        return found

    def choice(self):
        condition = self.level(0)
        if not self.walk.sees("?"):
            return condition
        self.walk.take()
        yes = self.choice()
        self.walk.take_mark(":", "in a choice")
        no = self.choice()
        return Node("choice", "?", condition.line, condition.start, no.end, [condition, yes, no])

    def level(self, number):
        if number == len(self.levels):
            return self.unary()
        left = self.level(number + 1)
        while self.walk.now().kind == "mark" and self.walk.now().text in self.levels[number]:
            operator = self.walk.take()
            right = self.level(number + 1)
            left = Node("binary", operator.text, operator.line, left.start, right.end, [left, right])
        return left

    def unary(self):
        token = self.walk.now()
        if self.first is not None and self.walk.at - self.first >= MOST_TOKENS:
            raise Fault(token.line, f"This expression has more than {MOST_TOKENS} tokens, which is the limit of `ptg`.", "Split it by definitions.")
        if self.walk.sees("-", "!", "+", "~", "&", "*"):
            self.walk.take()
            inner = self.unary()
            return Node("unary", token.text, token.line, token.start, inner.end, [inner])
        if self.is_cast():
            return self.cast()
        return self.postfix(self.primary())

    def is_cast(self):
        """Whether a type stands here in parentheses."""
        if not self.walk.sees("(") or not self.has_casts:
            return False
        close = self.walk.closing(0, MOST_OF_CAST)
        if close is None or close == 1:
            return False
        inner = [self.walk.now(ahead) for ahead in range(1, close)]
        stars = sum(it.text == "*" for it in inner)
        names = inner[: len(inner) - stars]
        if not names or any(it.kind != "name" for it in names) or any(it.text != "*" for it in inner[len(names) :]):
            return False
        after = self.walk.now(close + 1)
        operand = after.kind in ("number", "raw") or after.is_name() or after.text == "("
        if all(it.text in TYPE_WORDS for it in names) or stars or len(names) > 1:
            return True
        # (a name in parentheses and a name behind it: the next definition, or a cast to a type that is not known)
        begins_next = after.is_name() and self.walk.now(close + 2).text in ("=", "(", "<-", "->", "[")
        return operand and not begins_next and after.line == inner[0].line and after.text != "(" and not after.kind == "raw"

    def cast(self):
        begin = self.walk.take()
        words = []
        while not self.walk.sees(")"):
            words.append(self.walk.take().text)
        self.walk.take()
        inner = self.unary()
        return Node("cast", " ".join(words), begin.line, begin.start, inner.end, [inner])

    def primary(self):
        token = self.walk.now()
        if token.kind == "raw" or (token.text == "inline_c" and self.walk.now(1).kind == "raw"):
            return self.inline()
        if token.kind == "number":
            self.walk.take()
            self.refuse_fraction(token)
            return Node("number", token.text, token.line, token.start, token.end)
        if token.is_name():
            self.walk.take()
            return Node("name", token.text, token.line, token.start, token.end)
        if self.walk.sees("("):
            self.walk.take()
            inner = self.choice()
            close = self.walk.take_mark(")", "in an expression")
            return Node("paren", "(", token.line, token.start, close.end, [inner])
        raise Fault(token.line, f"{token.shown()} stands where an expression is expected.", ADVICE.get(token.kind, ADVICE.get(token.text, "")))

    def refuse_fraction(self, token):
        if self.walk.sees(".") and self.walk.now().start == token.end:
            raise Fault(token.line, f"`{token.text}.` begins a number with a fraction; `ptg` has whole numbers alone.", "Write a whole number.")

    def postfix(self, node):
        """Members, elements and calls behind a name."""
        steps = []
        while node.kind == "name":
            if self.walk.sees("->", ".") and self.walk.now(1).kind == "name" and self.is_member():
                mark = self.walk.take()
                steps.append((mark.text, self.walk.take()))
            elif self.walk.sees("[") and self.is_element(steps):
                self.walk.take()
                steps.append(("[", self.choice()))
                self.walk.take_mark("]", "after the index of an array")
            elif self.walk.sees("("):
                self.walk.take()
                steps.append(("(", self.call()))
            else:
                break
        if not steps:
            return node
        return Node("access", "", node.line, node.start, self.walk.last().end, [node], steps)

    def is_member(self):
        """Whether `->` here leads to a member: it is an arrow where a target or a guard follows it that is no member."""
        return self.of_c or self.walk.sees(".") or self.walk.now(1).text not in ("NEW", "NULL")

    def is_element(self, steps):
        """Whether a `[` here has an index in it, and does not begin properties."""
        if self.of_c:
            return True
        first, second = self.walk.now(1), self.walk.now(2)
        return first.text != "]" and not (first.kind == "name" and second.text == "=")

    def call(self):
        found = []
        if not self.walk.sees(")"):
            found.append(self.choice())
            while self.walk.sees(","):
                self.walk.take()
                found.append(self.choice())
        self.walk.take_mark(")", "after the arguments of a call")
        return found

    def inline(self):
        """`%{ return EXPRESSION; %}`."""
        begin = self.walk.now()
        if begin.text == "inline_c":
            self.walk.take()
        token = self.walk.take()
        node = Node("inline", token.text, token.line, begin.start, token.end)
        try:
            node.parts = [returned(self.text, token)]
        except Fault as fault:
            node.fault = fault
        return node


def returned(text, token):
    """The expression that inline C returns."""
    walk = Walk(Scanner(text, token.start + 2, token.end - 2, token.line, of_c=True).scan())
    if not walk.sees("return"):
        raise Fault(token.line, "This inline C does more than return an expression.", "Write an expression of JDF, or give the value as a global.")
    walk.take()
    node = Reader(walk, text, of_c=True).expression()
    if walk.sees(";"):
        walk.take()
    if not walk.is_over():
        raise Fault(
            walk.now().line,
            f"{walk.now().shown()} stands behind the expression of this inline C.",
            "Write one expression, or give the value as a global.",
        )
    return node


ADVICE = {
    "quoted": "There are no strings in expressions.",
    "hash": "Remove the line of the preprocessor.",
    ".": "Numbers are whole.",
    "{": "A block of C stands between `%{` and `%}`.",
}
