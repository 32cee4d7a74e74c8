"""The tokens of `ptg`'s own JDF, exactly as docs/language.md has them."""
import re
from dataclasses import dataclass

BLANKS, WORD = re.compile(r"[ \t\r\n]+"), re.compile(r"[A-Za-z0-9_]*")
LETTERS = frozenset("ABCDEFGHIJKLMNOPQRSTUVWXYZabcdefghijklmnopqrstuvwxyz_")
DIGITS = frozenset("0123456789")
MARKS = frozenset(["..", "<-", "->", "==", "!=", "<=", ">=", "&&", "||"] + list("()[]{},;:?=+-*/%<>&|!"))
RESERVED = frozenset(("extern", "BODY", "END", "READ", "WRITE", "RW", "CTL", "NEW", "NULL"))
MOST_TOKENS = 1_000_000


class NotOwn(Exception):
    """The text is not `ptg`'s own."""


@dataclass
class OwnToken:
    kind: str
    text: str


def end_of_word(text, at):
    return WORD.match(text, at).end()


def after(text, piece, start):
    found = text.find(piece, start)
    if found < 0:
        raise NotOwn
    return found + len(piece)


def end_of_quoted(text, at):
    at += 1
    while at < len(text) and text[at] != '"':
        at += 2 if text[at] == "\\" else 1
    if at >= len(text):
        raise NotOwn
    return at + 1


def end_of_line(text, at):
    found = text.find("\n", at)
    return len(text) if found < 0 else found


def next_token(text, at):
    """The kind of what begins at a place, and where it ends."""
    first = text[at]
    if first in " \t\r\n":
        return None, BLANKS.match(text, at).end()
    if first == "/" and text.startswith("//", at):
        return None, end_of_line(text, at)
    if first == "/" and text.startswith("/*", at):
        return None, after(text, "*/", at + 2)
    if first in LETTERS:
        return "name", end_of_word(text, at)
    if first in DIGITS:
        return "number", end_of_word(text, at)
    if first == '"':
        return "quoted", end_of_quoted(text, at)
    if first == "%" and text.startswith("%{", at):
        return "raw", after(text, "%}", at + 2)
    if first == "%" and text.startswith("%option", at) and end_of_word(text, at + 1) == at + 7:
        return "option", end_of_line(text, at)
    return next((("mark", at + size) for size in (2, 1) if text[at : at + size] in MARKS), ("other", at + 1))


def own_tokens(text):
    """All tokens, the last one of the kind `end`; NotOwn where the text is none."""
    found, at = [], 0
    while at < len(text):
        kind, end = next_token(text, at)
        if kind:
            found.append(OwnToken(kind, text[at:end]))
        at = end
    if len(found) > MOST_TOKENS:
        raise NotOwn
    return found + [OwnToken("end", "")]
