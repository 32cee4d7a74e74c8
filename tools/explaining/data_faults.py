"""The field of a data file that a refusal of it is about, and the mistake in it."""
import re

from data_text import whole
from names import collections, integers, listed, nearest

NAME = re.compile(r"[A-Za-z_][A-Za-z0-9_]*")
WORDS = ["elems", "int", "coll", "collof", "tile"]
NUMERALS = ["zero", "one", "two", "three", "four", "five", "six", "seven", "eight", "nine", "ten"]


def number_of(field):
    return whole(field.spelled())


def is_number(field):
    return number_of(field) is not None


def name_field(record):
    return 2 if record.word() == "collof" else 1


def first_bad(record, numbers, is_good):
    """The number of the first of these fields that is not as it should be."""
    return next((at for at in numbers if at < len(record.fields) and not is_good(record.fields[at])), 0)


def field_of(code, record, earlier):
    """The number of the field that a code is about."""
    last = len(record.fields) - 1
    return {
        "BadElems": last,
        "BadName": first_bad(record, [1, 2] if record.word() == "collof" else [1], lambda it: NAME.fullmatch(it.spelled())),
        "NameTwice": name_field(record),
        "TypeTwice": 1,
        "TooManyTypes": 1,
        "UnknownType": 1,
        "UnknownColl": 1,
        "FieldCount": last,
        "TileCount": last,
        "TooManyTiles": first_bad(record, range(name_field(record) + 1, last + 1), lambda it: (number_of(it) or 0) >= 1) or last,
        "TooManyElements": name_field(record),
        "BadIndex": index_field(record, earlier),
        "TileTwice": 2,
        "BadNumber": first_bad(record, range(2, last + 1), is_number),
    }.get(code, 0)


def sizes_of(record, earlier):
    """The sizes of the collection that a tile names."""
    for it in earlier:
        at = name_field(it)
        if it.word() in ("coll", "collof") and len(it.fields) > at + 1 and len(record.fields) > 1 and it.fields[at].spelled() == record.fields[1].spelled():
            return [number_of(field) for field in it.fields[at + 1 :] if is_number(field)]
    return []


def index_field(record, earlier):
    """The first index of a tile that is outside its collection."""
    for at, size in enumerate(sizes_of(record, earlier), 2):
        if at < len(record.fields) and is_number(record.fields[at]) and not 0 <= number_of(record.fields[at]) < size:
            return at
    return 2


def earlier_line(code, record, earlier):
    """A sentence about the earlier record that a refusal is about."""
    if code == "NameTwice":
        name = record.at(name_field(record)).spelled()
        same = [it for it in earlier if it.word() in ("int", "coll", "collof") and it.at(name_field(it)).spelled() == name]
    elif code == "TileTwice":
        count = len(sizes_of(record, earlier))
        index = [field.spelled() for field in record.fields[: 2 + count]]
        same = [it for it in earlier if [field.spelled() for field in it.fields[: 2 + count]] == index]
    else:
        return ""
    return f"The earlier one is line {same[0].fields[0].line}. " if same else ""


def hint(code, record, earlier):
    """What more can be said of a fault than its sentence."""
    if code == "UnknownRow":
        return nearest(record.word(), WORDS)
    if code == "UnknownColl" and len(record.fields) > 1:
        known = list(collections(earlier))
        return f"{nearest(record.fields[1].spelled(), known)}Collections before this line: {listed(known)}. "
    if code == "BadIndex":
        sizes = sizes_of(record, earlier)
        return f"Indices go from 0 to {' and '.join(str(it - 1) for it in sizes)}. " if sizes else "Indices begin at 0. "
    return earlier_line(code, record, earlier)


def open_quote(record, _code, _field, _earlier):
    """A quote that nothing closes takes all that follows into its field."""
    found = next((it for it in record.fields if it.is_open), None)
    if not found:
        return None
    return found, 'A quote `"` opens here, and none closes it: the rest of the file is one field.', "Remove it: no field needs quotes."


def comment(record, code, field, _earlier):
    if record.word().startswith(("#", "//", "/*", "%")):
        return record.fields[0], "A data file has no comments.", "Remove the line, or put the comment into the JDF."
    mark = next((it for it in ("#", "//", "/*") if code != "UnknownRow" and it in field.spelled()), None)
    if mark:
        return field, f"`{mark}` does not begin a comment: a data file has none.", f"Remove all from `{mark}` on."
    return None


def other_separators(record, code, field, _earlier):
    """Fields that are joined by `;` or by blanks."""
    text = ",".join(it.spelled() for it in record.fields)
    for mark, pattern, name in ((";", r"\s*;\s*", "`;`"), ("", r"[ \t]+", "blanks")):
        parts = re.split(pattern, text.strip())
        is_so = len(parts) > 1 and (mark == ";" or (parts[0].split(",")[0] in WORDS and not (record.word() == "int" and len(record.fields) == 3)))
        if is_so and code in ("UnknownRow", "NoElems", "FieldCount", "BadNumber", "BadElems", "BadName", "TileCount"):
            return field, f"Fields are separated by commas, not by {name}.", f"Write `{','.join(it for it in parts if it)[:60]}`."
    return None


def no_number(record, code, field, earlier):
    """What a field has in place of a whole number."""
    text = field.spelled()
    if code not in ("BadNumber", "BadElems") or is_number(field):
        return None
    shown = text[:40] + (" .." if len(text) > 40 else "")
    if not text:
        return field, "There is no number in this field.", "Write one between the two commas; 0 is a number too."
    if re.fullmatch(r"[+-]?[0-9]+", text):
        return field, "This number does not fit 64 bits.", "The least is -9223372036854775808, the greatest 9223372036854775807."
    if re.fullmatch(r"[+-]?[0-9]*\.[0-9]*([eE][+-]?[0-9]+)?|[+-]?[0-9]+[eE][+-]?[0-9]+", text):
        return field, f"`{shown}` is not a whole number.", "All numbers are integers: scale the values, for example by 1000."
    if re.fullmatch(r"0[xX][0-9a-fA-F]+|0[bo][0-7]+", text):
        return field, f"`{shown}` is not decimal.", f"Write `{int(text, 0)}`." if len(text) < 18 else "Write it in decimal digits."
    if re.fullmatch(r"[+-]?[0-9]+([ _'][0-9]+)+", text):
        return field, f"`{shown}` has something between its digits.", f"Write `{re.sub('[ _]', '', text)}`." if "'" not in text else "Write the digits alone."
    if text.lower() in NUMERALS:
        return field, f"`{shown}` is a word, and a whole number is expected here.", f"Write `{NUMERALS.index(text.lower())}`."
    if text in integers(earlier):
        line = integers(earlier)[text].line
        return field, f"`{shown}` is a name, and a whole number is expected here.", f"Write its value, from line {line}: a data file computes nothing."
    if NAME.fullmatch(text):
        return field, f"`{shown}` is a word, and a whole number is expected here.", "Write it in digits; a data file computes nothing."
    return None


def thousands(record, code, field, _earlier):
    texts = [it.spelled() for it in record.fields]
    if code != "FieldCount" or texts[0] != "int" or len(texts) < 4 or not all(re.fullmatch("[0-9]{3}", it) for it in texts[3:]):
        return None
    return field, "A comma separates fields, so a number has none.", f"Write `{','.join(texts[:2])},{''.join(texts[2:])[:60]}`."


MISTAKES = [open_quote, comment, other_separators, thousands, no_number]


def mistake(code, record, earlier):
    """The field, what is wrong with it and what to write, where a known mistake is found; or nothing."""
    field = record.at(field_of(code, record, earlier))
    if code in ("TooManyTiles", "TooManyElements", "BadIndex", "TileTwice", "NameTwice", "UnknownColl") and not any(it.is_open for it in record.fields):
        return None
    return next((found for found in (it(record, code, field, earlier) for it in MISTAKES) if found), None)
