"""What a Syntax refusal is about, by the token that it names and those beside it."""
import lookalikes
import syntax_body
import syntax_graph
from spot import Spot

TABLE = "docs/language.md, 'Differences from PaRSEC's JDF'"


def in_body(outline, token):
    it = outline.class_at(token.at())
    return it if it and it.begin and it.begin.at() < token.at() and (it.end is None or token.at() <= it.end.at()) else None


def swallowed(cls):
    """A BODY that stands in a body: the END of the body is missing."""
    return next((it for it in cls.body if it.text == "BODY"), None)


def no_end(cls, token):
    other = swallowed(cls)
    end = cls.end.line if cls.end else token.line
    wrong = f"The body of {cls.name.text}, from line {cls.begin.line}, goes on to line {end} over a second BODY in line {other.line}."
    return wrong, "An END is missing before this line."


def reason(text, outline, place, collections=()):
    """What is wrong at a place, and what to write; or two times nothing."""
    if text.startswith(b"\xef\xbb\xbf") and place == (1, 1):
        return "The file begins with a byte order mark, which is not part of JDF.", f"Save it as UTF-8 without the mark. ({TABLE})"
    if text.lstrip().startswith((b"elems,", b"elems ,")):
        return "This file looks like data, and a JDF is expected here.", "The JDF comes first: `run JDF DATA`."
    at = outline.index_at(place)
    if at is None:
        return None, None
    token = outline.tokens[at]
    if token.kind == "other" and not token.text.isascii():
        return lookalikes.reason(text, token.start)
    cls = in_body(outline, token)
    if cls and swallowed(cls):
        return no_end(cls, token)
    spot = Spot(outline, at, collections)
    wrong, advice, differs = (syntax_body if cls else syntax_graph).reason(spot)
    return wrong, f"{advice} ({TABLE})" if differs else advice


def encoding(text):
    """What a text is that is not UTF-8, where its first bytes show it."""
    if text.startswith((b"\xff\xfe", b"\xfe\xff")):
        return "This file is UTF-16, and a JDF is UTF-8.", "Save it as UTF-8 without a byte order mark."
    return None, None


def truncated(outline):
    """What is missing at the end of a text."""
    last = outline.classes[-1] if outline.classes else None
    if last and last.begin and last.end is None:
        return f"The body of {last.name.text}, from line {last.begin.line}, has no END.", "Add `END` after its statements."
    if last and not last.begin:
        return f"The class {last.name.text}, from line {last.name.line}, has no BODY.", "Add `BODY`, its statements and `END`."
    if outline.tokens and outline.tokens[-1] in outline.globals:
        name = outline.tokens[-1].text
        return f"No class follows `{name}`.", f"Put all globals before the first class. ({TABLE})"
    return None, None
