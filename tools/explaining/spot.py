"""A token that a text is refused at, and what stands around it."""
from jdf_text import spelled

FUNCTIONS = {
    "max": "{0} > {1} ? {0} : {1}",
    "min": "{0} < {1} ? {0} : {1}",
    "abs": "{0} < 0 ? -({0}) : {0}",
    "mod": "({0}) % ({1})",
}
# `?`, `:` and the like of an expression, after which an expression stands.
OPERATORS = ["=", "..", "(", ",", "+", "-", "*", "/", "%", "==", "!=", "<", "<=", ">", ">=", "&&", "||", "&", "|", "!", "?"]
EXPRESSION = "an expression: a number, a name, `(`, `-` or `!`"
LOGIC = {"and": "&&", "or": "||", "not": "!"}


class Spot:
    """A token by its number, with the class that it is in. Others are named by how far before or after it they stand."""

    def __init__(self, outline, at, collections=()):
        self.outline, self.tokens, self.at, self.collections = outline, outline.tokens, at, collections
        self.token = self.tokens[at]
        self.text = self.token.text
        self.cls = outline.class_at(self.token.at())

    def beside(self, far):
        at = self.at + far
        return self.tokens[at] if 0 <= at < len(self.tokens) else None

    def at_text(self, far):
        it = self.beside(far)
        return it.text if it else ""

    def at_kind(self, far):
        it = self.beside(far)
        return it.kind if it else ""

    def begins_line(self, far=0):
        """Whether a token is the first one of its line."""
        it, last = self.beside(far), self.beside(far - 1)
        return bool(it) and (last is None or last.line < it.line)

    def touches(self):
        """Whether the token stands right after the one before it."""
        return self.at > 0 and self.tokens[self.at - 1].end == self.token.start

    def back_to(self, texts):
        """The tokens before this one, from the last that has one of these texts."""
        at = self.at - 1
        while at >= 0 and self.tokens[at].text not in texts:
            at -= 1
        return self.tokens[at : self.at] if at >= 0 else []

    def of_line(self):
        """The tokens of the line of the token."""
        first = self.at
        while first > 0 and self.tokens[first - 1].line == self.token.line:
            first -= 1
        last = self.at
        while last < len(self.tokens) and self.tokens[last].line == self.token.line:
            last += 1
        return self.tokens[first:last]

    def within(self, far=0):
        """The tokens between the mark at a place and the one that closes it."""
        at, depth, found = self.at + far + 1, 1, []
        while at < len(self.tokens):
            text = self.tokens[at].text
            depth += (text in ("(", "[")) - (text in (")", "]"))
            if depth == 0:
                break
            found.append(self.tokens[at])
            at += 1
        return found

    def before_parentheses(self):
        """What stands before the parenthesis that the `)` before the token closes."""
        at, depth = self.at - 1, 0
        while at >= 0:
            depth += (self.tokens[at].text == ")") - (self.tokens[at].text == "(")
            if depth == 0:
                break
            at -= 1
        return self.tokens[at - 1].text if at > 0 else ""

    def is_in_parentheses(self):
        """Whether a parenthesis that is open at the token was opened in this line."""
        before = [it.text for it in self.of_line() if it.start < self.token.start]
        return before.count("(") > before.count(")")


def parts_of(tokens):
    """Tokens between commas, each as it is spelled."""
    found, depth = [[]], 0
    for it in tokens:
        depth += (it.text in ("(", "[")) - (it.text in (")", "]"))
        if it.text == "," and depth == 0:
            found.append([])
        else:
            found[-1].append(it)
    return [spelled(it) for it in found]


def call(spot, where):
    """What to write in place of a call of a function."""
    name = spot.at_text(-1)
    form, given = FUNCTIONS.get(name), parts_of(spot.within())
    advice = "Write what it computes, or give its value as an integer of the data."
    if form and len(given) == (1 if name == "abs" else 2):
        advice = f"Write `({form.format(*given)})`."
    return f"`{name}` is called like a function, and {where} has none.", advice


def shift(spot, otherwise):
    """What to write in place of a shift."""
    left, by = spot.at_text(-2), spot.at_text(1)
    is_power = by.isdigit() and len(by) < 3 and int(by) < 63 and spot.at_text(2) not in ("[", "(")
    if not is_power or left in (")", "]"):
        return f"There is no shift `{spot.text * 2}`.", otherwise
    if left.isdigit() and len(left) < 3:
        return f"There is no shift `{spot.text * 2}`.", f"Write `{int(left) << int(by) if spot.text == '<' else int(left) >> int(by)}`."
    return f"There is no shift `{spot.text * 2}`.", f"Write `{left} {'*' if spot.text == '<' else '/'} {1 << int(by)}`."


def preprocessor(spot):
    """What to say of `#`."""
    word = spot.at_text(1)
    if word == "define":
        name = spot.at_text(2)
        return "`#define` is not read: there is no preprocessor.", f"Declare `{name}` on a line of its own at the top, and give `int,{name},..` in the data."
    if word in ("include", "if", "ifdef", "ifndef", "else", "elif", "endif", "undef", "pragma"):
        return f"`#{word}` is not read: there is no preprocessor.", "Remove the line."
    return "`#` does not begin a comment.", "Write `// ..` for the rest of a line, or `/* .. */`."


def expected(last, known):
    """What has to stand after a token, where the token alone shows it."""
    what = known.get(last) or ("a word" if last == "trap" else EXPRESSION if last in OPERATORS else "")
    return (f"After `{last}` there has to be {what}.", "Look at this token and the one before it.") if what else (None, None)


def first_of(mistakes, differing, spot, after):
    """What is wrong at a place, what to write, and whether the table of differences from PaRSEC's JDF has it."""
    for mistake in mistakes:
        found = mistake(spot)
        if found:
            return (*found, mistake in differing)
    return (*expected(spot.at_text(-1), after), False)
