"""Whether an expression is one of `ptg`'s own, within its limits."""
from parsec.own_tokens import RESERVED, NotOwn

LEVELS = (("||", "|"), ("&&", "&"), ("==", "!="), ("<", "<=", ">", ">="), ("+", "-"), ("*", "/", "%"))
MOST_TOKENS, MOST_TERMS, LARGEST = 512, 128, 2**63 - 1


class OwnWalk:
    """A walk over own tokens. `names` are called for the names of expressions; elements stand in bodies alone."""

    def __init__(self, tokens, reserved=RESERVED):
        self.tokens, self.at, self.reserved = tokens, 0, reserved
        self.on_name = self.on_element = None
        self.begun = self.terms = None

    def now(self, ahead=0):
        return self.tokens[min(self.at + ahead, len(self.tokens) - 1)]

    def sees(self, *texts):
        return self.now().kind in ("mark", "name") and self.now().text in texts

    def is_name(self, ahead=0):
        return self.now(ahead).kind == "name" and self.now(ahead).text not in self.reserved

    def take(self):
        self.at += 1
        if self.begun is not None and self.at - self.begun > MOST_TOKENS:
            raise NotOwn
        return self.tokens[self.at - 1]

    def take_text(self, *texts):
        if not self.sees(*texts):
            raise NotOwn
        return self.take()

    def take_name(self):
        if not self.is_name():
            raise NotOwn
        return self.take()

    def outermost(self, read):
        self.begun, self.terms = self.at, 0
        read()
        self.begun = None

    def expression(self):
        self.outermost(self.choice)

    def guard(self):
        self.outermost(lambda: self.level(0))

    def term(self):
        self.terms += 1
        if self.terms > MOST_TERMS:
            raise NotOwn
        return self.take()

    def choice(self):
        self.level(0)
        if self.sees("?"):
            self.term()
            self.choice()
            self.take_text(":")
            self.choice()

    def level(self, number):
        if number == len(LEVELS):
            self.unary()
            return
        self.level(number + 1)
        while self.now().kind == "mark" and self.now().text in LEVELS[number]:
            self.term()
            self.level(number + 1)

    def unary(self):
        if self.now().kind == "mark" and self.now().text in ("-", "!"):
            self.term()
            self.unary()
        elif self.now().kind == "number":
            text = self.term().text
            if not text.isdigit() or (text[0] == "0" and text != "0") or int(text) > LARGEST:
                raise NotOwn
        elif self.sees("("):
            self.take()
            self.choice()
            self.take_text(")")
        else:
            self.name()

    def name(self):
        if not self.is_name():
            raise NotOwn
        name = self.term().text
        if self.on_element and self.sees("["):
            self.take()
            begin = self.at
            self.choice()
            self.take_text("]")
            self.on_element(name, self.tokens[begin : self.at - 1], False)
        elif self.on_name:
            self.on_name(name)

    def argument(self):
        """An expression or a range; whether it is a range."""
        self.expression()
        if not self.sees(".."):
            return False
        self.take()
        self.expression()
        if self.sees(".."):
            self.take()
            self.expression()
        return True
