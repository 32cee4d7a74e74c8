"""The data of a sweep: the integers and the collections that a data file has, and its text with other ones."""
from data_text import records_of

# where the name of a record stands, and where its number or its first size does
PLACES = {"int": (1, 2), "coll": (1, 2), "collof": (2, 3)}


def integers_of(records):
    """The integers of the data by their names, those that have a value."""
    found = {}
    for record in records:
        if record.word() == "int" and len(record.fields) == 3:
            try:
                found.setdefault(record.fields[1].spelled(), int(record.fields[2].spelled()))
            except ValueError:
                pass
    return found


def collections_of(records):
    """The collections of the data by their names, each with its number of indices."""
    found = {}
    for record in records:
        if record.word() in ("coll", "collof"):
            name, first = PLACES[record.word()]
            if len(record.fields) > first:
                found.setdefault(record.fields[name].spelled(), len(record.fields) - first)
    return {name: count for name, count in found.items() if count in (1, 2)}


def spelled(fields):
    """The line of a record."""
    special = (b",", b'"', b"\r", b"\n")
    return b",".join(b'"' + it.replace(b'"', b'""') + b'"' if any(mark in it for mark in special) else it for it in fields)


def is_outside(record, values):
    """Whether a record is a tile outside of a collection whose sizes are given."""
    fields = [it.spelled() for it in record.fields]
    sizes = values.get(fields[1]) if fields[0] == "tile" and len(fields) > 1 else None
    if not isinstance(sizes, tuple):
        return False
    try:
        return any(int(index) >= size for index, size in zip(fields[2:], sizes))
    except ValueError:
        return False


def line_of(record, values):
    """The line of a record with the values that are given."""
    fields = [it.text for it in record.fields]
    if record.word() in PLACES:
        name, first = PLACES[record.word()]
        given = values.get(record.fields[name].spelled()) if len(fields) > first else None
        if given is not None:
            fields[first:] = [str(it).encode() for it in (given if isinstance(given, tuple) else (given,))]
    return spelled(fields)


def text_of(records, values):
    """The data with other values; each record stands in its own line. Tiles that the collections have no more are left out."""
    lines = []
    for record in records:
        lines += [b""] * (record.fields[0].line - 1 - len(lines))
        lines.append(b"" if is_outside(record, values) else line_of(record, values))
    return b"\n".join(lines) + b"\n"


def read(name):
    with open(name, "rb") as file:
        return records_of(file.read())
