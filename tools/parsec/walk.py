"""A walk over tokens, from the first to the last."""
from parsec.notes import Fault

# More tokens than the arguments of a target can have.
MOST_AHEAD = 20_000


class Walk:
    def __init__(self, tokens):
        self.tokens, self.at = tokens, 0

    def now(self, ahead=0):
        return self.tokens[min(self.at + ahead, len(self.tokens) - 1)]

    def last(self):
        return self.tokens[max(self.at - 1, 0)]

    def is_over(self):
        return self.now().kind == "end"

    def take(self):
        token = self.now()
        if token.kind != "end":
            self.at += 1
        return token

    def sees(self, *texts):
        return self.now().kind in ("mark", "name") and self.now().text in texts

    def take_mark(self, text, where, advice=""):
        if not self.sees(text):
            raise Fault(self.now().line, f"{self.now().shown()} stands where `{text}` is expected {where}.", advice)
        return self.take()

    def take_name(self, what):
        if not self.now().is_name():
            raise Fault(self.now().line, f"{self.now().shown()} stands where {what} is expected.")
        return self.take()

    def closing(self, ahead, most=MOST_AHEAD):
        """How far ahead the parenthesis is closed that opens `ahead` tokens on; None where it is not, or not within so many tokens."""
        depth = 0
        for at in range(self.at + ahead, min(self.at + ahead + most, len(self.tokens))):
            token = self.tokens[at]
            if token.kind == "mark" and token.text in "([":
                depth += 1
            elif token.kind == "mark" and token.text in ")]":
                depth -= 1
                if depth == 0:
                    return at - self.at
            elif token.kind == "body":
                break
        return None
