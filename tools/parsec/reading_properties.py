"""What all parts of the reader share: its walk, what it refuses, and properties in brackets."""
from parsec import expressions
from parsec.notes import Fault
from parsec.tree import File, Properties, Property
from parsec.walk import Walk


class PropertyReader:
    """`is_cut` says that the text could not be scanned to its end: then nothing is said of that end."""

    def __init__(self, tokens, text, notes, is_own, is_cut):
        self.walk = Walk([it for it in tokens if it.kind != "hash"])
        self.text, self.notes, self.is_own, self.is_cut = text, notes, is_own, is_cut
        self.expressions = expressions.Reader(self.walk, text, has_casts=not is_own)
        self.file = File(text)
        for token in tokens:
            if token.kind == "hash":
                self.read_hash(token)

    def refuse(self, fault):
        if not (self.is_cut and self.walk.is_over()):
            self.notes.refuse_fault(fault)

    def begins_line(self, token):
        return token.start == 0 or self.text[token.start - 1] == "\n"

    def read_properties(self):
        """All groups of properties that stand here."""
        found = []
        while self.walk.sees("["):
            found.append(self.read_group())
        return found

    def read_group(self):
        begin, items, depth = self.walk.take(), [], 1
        tokens = []
        while depth:
            token = self.walk.now()
            if token.kind in ("end", "body") or (token.text in ("BODY", "END") and not self.is_own):
                raise Fault(begin.line, "Properties begin here and have no end.", "Close them by `]`.")
            self.walk.take()
            tokens.append(token)
            if token.kind == "mark" and token.text == "]":
                # (in `ptg`'s own text the first `]` ends properties)
                depth = 0 if self.is_own else depth - 1
            elif token.kind == "mark" and token.text == "[":
                depth += 1
        tokens.pop()
        for at, token in enumerate(tokens):
            if token.kind == "name" and at + 1 < len(tokens) and tokens[at + 1].text == "=":
                items.append(Property(token.text, [], token.line))
            elif token.text in (",", ";") or (items and token.text == "=" and tokens[at - 1].text == items[-1].key):
                continue
            elif items:
                items[-1].tokens.append(token)
            else:
                # (a word alone is a property without a value)
                items.append(Property(token.text, [], token.line))
        return Properties(items, begin.line, begin.start, self.walk.last().end)
