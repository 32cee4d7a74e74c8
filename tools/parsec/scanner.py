"""The text of PaRSEC's JDF as tokens with their spots. Bodies are scanned as C: up to the END that stands in no string and no comment."""
import re
from dataclasses import dataclass

from parsec.notes import Fault

BLANKS = " \t\r\n"
WORD, RUN_OF_BLANKS, PLAIN_C = re.compile(r"[A-Za-z0-9_]*"), re.compile(r"[ \t\r\n]*"), re.compile(r"[^A-Za-z0-9_/\"']+")
LETTERS = frozenset("ABCDEFGHIJKLMNOPQRSTUVWXYZabcdefghijklmnopqrstuvwxyz_")
DIGITS = frozenset("0123456789")
MARKS = frozenset(["...", "..", "<<", ">>", "<-", "->", "==", "!=", "<=", ">=", "&&", "||"] + list("()[]{},;:?=+-*/%<>&|!.^~"))
ACCESS = ("READ", "WRITE", "RW", "CTL")
RESERVED = frozenset(("extern", "BODY", "END", "NEW", "NULL") + ACCESS)


@dataclass
class Token:
    kind: str
    text: str
    line: int
    start: int
    end: int

    def is_name(self):
        return self.kind == "name" and self.text not in RESERVED

    def shown(self):
        """The token as it is quoted in a message."""
        if self.kind == "end":
            return "the end of the file"
        text = self.text if len(self.text) <= 40 else self.text[:37] + ".."
        return f"`{' '.join(text.split())}`"


class Scanner:
    """Scans a text, or a part of it that is C."""

    def __init__(self, text, start=0, end=None, line=1, of_c=False, is_own=False):
        self.text, self.at, self.end, self.line = text, start, len(text) if end is None else end, line
        self.of_c, self.is_own, self.tokens = of_c, is_own, []
        # no token was found in this line yet
        self.is_line_new = True

    def scan(self):
        """All tokens, the last one of the kind `end`. An open comment, string or block is a Fault."""
        while self.skip_blanks():
            token = self.take_next()
            if token.kind == "name" and token.text == "BODY" and not self.of_c:
                self.take_body(token)
        self.add("end", self.end)
        return self.tokens

    def add(self, kind, end):
        token = Token(kind, self.text[self.at : end], self.line, self.at, end)
        self.tokens.append(token)
        self.is_line_new = False
        self.line += token.text.count("\n")
        self.at = end
        return token

    def starts(self, piece):
        return self.text.startswith(piece, self.at, self.end)

    def find(self, piece, start, what):
        """The place after the next `piece`."""
        found = self.text.find(piece, start, self.end)
        if found < 0:
            raise Fault(self.line, f"{what} begins here and has no end.", f"Close it by `{piece}`.")
        return found + len(piece)

    def skip_to(self, end):
        newlines = self.text.count("\n", self.at, end)
        self.is_line_new = self.is_line_new or newlines > 0
        self.line += newlines
        self.at = end

    def end_of_line(self):
        found = self.text.find("\n", self.at, self.end)
        return self.end if found < 0 else found

    def skip_blanks(self):
        """Skips blanks and comments; whether something follows."""
        while self.at < self.end:
            first = self.text[self.at]
            if first in BLANKS:
                self.skip_to(RUN_OF_BLANKS.match(self.text, self.at, self.end).end())
            elif first == "/" and self.starts("//"):
                self.skip_to(self.end_of_line())
            elif first == "/" and self.starts("/*"):
                self.skip_to(self.find("*/", self.at + 2, "A comment"))
            else:
                return True
        return False

    def word_end(self, start):
        return WORD.match(self.text, start, self.end).end()

    def quoted_end(self):
        at = self.at + 1
        while at < self.end and self.text[at] != '"':
            at += 2 if self.text[at] == "\\" else 1
        if at >= self.end:
            raise Fault(self.line, "A string begins here and has no end.", 'Close it by `"`.')
        return at + 1

    def take_next(self):
        first = self.text[self.at]
        if first in LETTERS:
            return self.add("name", self.word_end(self.at))
        if first in DIGITS:
            return self.add("number", self.word_end(self.at))
        if first == '"':
            return self.add("quoted", self.quoted_end())
        if first == "%" and self.starts("%{"):
            return self.add("raw", self.find("%}", self.at + 2, "A block `%{`"))
        if first == "%" and self.starts("%option") and self.word_end(self.at + 1) == self.at + 7:
            return self.add("option", self.end_of_line())
        if first == "#" and self.is_line_new:
            return self.add("hash", self.hash_end())
        for size in (3, 2, 1):
            mark = self.text[self.at : min(self.at + size, self.end)]
            if mark in MARKS and not (self.of_c and mark == "<-"):
                return self.add("mark", self.at + len(mark))
        return self.add("other", self.at + 1)

    def hash_end(self):
        """The end of a line of the preprocessor, with the lines that a backslash adds."""
        end = self.end_of_line()
        while end < self.end and self.text[self.at : end].rstrip("\r").endswith("\\"):
            found = self.text.find("\n", end + 1, self.end)
            end = self.end if found < 0 else found
        return end

    def take_body(self, begin):
        """Takes the properties behind BODY, the body as one token, and END."""
        if self.has_properties():
            depth = 0
            while self.skip_blanks():
                token = self.take_next()
                depth += {"[": 1, "]": -1}.get(token.text, 0)
                if depth == 0 or (token.text == "]" and self.is_own):
                    break
        end = self.end_of_body()
        if end is None:
            raise Fault(begin.line, "This BODY has no END.", "Write `END` after it, in a line of its own.")
        self.add("body", end)
        self.add("name", end + 3)

    def has_properties(self):
        """Whether a `[` stands behind BODY. C does not begin with one."""
        at, line = self.at, self.line
        found = self.skip_blanks() and self.text[self.at] == "["
        self.at, self.line = at, line
        return found

    def end_of_body(self):
        """The place of the END that ends a body, or None."""
        at = self.at
        while at < self.end:
            first = self.text[at]
            if first in LETTERS or first in DIGITS:
                end = self.word_end(at)
                if self.text[at:end] == "END":
                    return at
                at = end
            else:
                plain = PLAIN_C.match(self.text, at, self.end)
                at = plain.end() if plain else self.after_piece_of_c(at)
        return None

    def after_piece_of_c(self, at):
        """The place after a comment, a string or one other character of C. What is not closed is one character."""
        if self.text.startswith("/*", at, self.end):
            found = self.text.find("*/", at + 2, self.end)
            return at + 1 if found < 0 else found + 2
        if self.text.startswith("//", at, self.end):
            found = self.text.find("\n", at, self.end)
            return self.end if found < 0 else found
        if self.text[at] in "\"'":
            return self.after_string_of_c(at)
        return at + 1

    def after_string_of_c(self, at):
        mark, end = self.text[at], at + 1
        while end < self.end and self.text[end] not in (mark, "\n"):
            end += 2 if self.text[end] == "\\" else 1
        return end + 1 if end < self.end and self.text[end] == mark else at + 1
