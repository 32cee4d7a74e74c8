"""What shows an edit of more-edits/: the line `shown:` of its file, which CONTRIBUTING.md describes.

    shown: PROGRAM FILE: ROW              a row in a file of the program's data
    shown: PROGRAM: its stored output     what the program prints when the gate runs it
    shown: the tests: NAME                a test of the edit's own crate
"""
import glob
import os
import re
from dataclasses import dataclass

TOP = os.path.dirname(os.path.dirname(os.path.dirname(os.path.realpath(__file__))))
START = "shown:"
LINE = re.compile(r"shown: (?:the tests: (?P<test>\w+)|(?P<output>\w+): its stored output|(?P<program>\w+) (?P<file>[\w.]+): (?P<row>\S.*))$")


@dataclass(frozen=True)
class Shown:
    crate: str
    # the program; none: the tests of the crate
    program: str
    # the program's file of rows; none: what it prints when the gate runs it
    rows: str
    # the row or the test
    name: str


def read(*parts):
    with open(os.path.join(TOP, "crates", *parts), encoding="utf-8") as file:
        return file.read()


def lines():
    """The lines `shown:` of all edits, each after its crate and the name of its edit."""
    for path in sorted(glob.glob(os.path.join(TOP, "crates", "*", "more-edits", "*.edit"))):
        crate, edit = path.split(os.sep)[-3], os.path.basename(path).removesuffix(".edit")
        yield from ((crate, edit, line) for line in read(path).split("\n") if line.startswith(START))


def parsed(crate, line):
    """What a line says; none, if it has another form."""
    at = LINE.match(line)
    if not at:
        return None
    return Shown(crate, at["program"] or at["output"], at["file"], at["row"] or at["test"])


def edits():
    """The edits that something shows, by `CRATE/EDIT`."""
    found = {f"{crate}/{edit}": parsed(crate, line) for crate, edit, line in lines()}
    return {name: it for name, it in found.items() if it}


def is_there(it):
    """Whether the row, the stored output or the test exists."""
    if not it.program:
        return any(f"fn {it.name}(" in read(path) for path in glob.glob(os.path.join(TOP, "crates", it.crate, "src", "*.rt")))
    if not it.rows:
        return os.path.isfile(os.path.join(TOP, "crates", it.program, "stdout"))
    if not os.path.isfile(os.path.join(TOP, "crates", it.program, "data", it.rows)):
        return False
    rows = [line.split()[1:] for line in read(it.program, "data", it.rows).split("\n") if line.startswith("row ")]
    return it.name.split() in rows


def complaints():
    """The lines in another form, the second ones of an edit, and those whose row or test is not there."""
    seen = set()
    for crate, edit, line in lines():
        where, it = f"crates/{crate}/more-edits/{edit}.edit", parsed(crate, line)
        if where in seen:
            yield f"{where}: it has a second line shown:"
        seen.add(where)
        if not it:
            yield f"{where}: this line has none of the forms of tools/developing/shown.py: {line}"
        elif not is_there(it):
            yield f"{where}: there is no such row, output or test: {line.removeprefix(START).strip()}"
