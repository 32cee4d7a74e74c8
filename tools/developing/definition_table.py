"""The tables of docs/definitions.md, from the comments in the specs/ folders of the crates.

A comment over a file or over a definition ends with the line `-- Carried by: ..`, and then `-- Tested by: ..` if something tests it. Each of
the two may go on in further lines; its names are in backquotes. A call of another crate has the name of that crate before it; names in
parentheses are parts of the contract of the call before them.
"""
import functools
import glob
import os
import re

import crate_table
from crate_table import NoTable, TOP, read, row

PAGE = "docs/definitions.md"
PART = re.compile(r"(<!-- definitions: [^\n]* -->\n)(.*?)(<!-- end of definitions -->\n)", re.S)
HEAD = ("What is defined", "File", "Carried by", "Tested by")
CARRIED, TESTED = "Carried by: ", "Tested by: "
DEFINITION = re.compile(r"(?:abbrev |unfoldable )?pub (?:record |data )?(\S+)")
DECLARED = re.compile(r"\b(?:fn|struct|enum|trait|ghost|requires|ensures) (\w+)")
SENTENCE = re.compile(r".*?\.(?= [A-Z`]|$)")
CODE = re.compile(r"`([^`]+)`|([()])")
WORD = re.compile(r"\w+")
COMMENT = re.compile(r"(?:^|\s)(?:--(?: .*)?|//.*)$", re.M)
# The crates whose data are files of rows.
ROWS = ("ptg_rows", "part_rows")


def specs_of(crate):
    """The specs files of a crate, by their paths from the top. Lib.antt only lists the others."""
    found = glob.glob(os.path.join(TOP, "crates", crate, "specs", "*.antt"))
    return [os.path.relpath(it, TOP) for it in sorted(found) if os.path.basename(it) != "Lib.antt"]


def blocks(lines):
    """The comments that begin their lines, each with the number of its first line and with the line after it."""
    block = []
    for number, line in enumerate(lines + [""]):
        if line.startswith("--"):
            block.append(line[2:].strip())
        elif block:
            yield number - len(block), block, line
            block = []


def fields(path, block):
    """What a comment says first, and what follows its two marks."""
    parts = {"": []}
    at = ""
    for line in block:
        mark = next((it for it in (CARRIED, TESTED) if line.startswith(it)), None)
        if mark in parts or mark == TESTED and CARRIED not in parts:
            raise NoTable(f"{path}: `{mark.strip()}` is twice in one comment, or not in its place")
        at = mark or at
        parts.setdefault(at, []).append(line.removeprefix(mark or ""))
    found = {key: " ".join(it) for key, it in parts.items()}
    if not found[""] or any(not it.endswith(".") for key, it in found.items() if key):
        raise NoTable(f"{path}: `{CARRIED.strip()}` or `{TESTED.strip()}` has nothing before it, or no full stop at its end")
    return found


def said(text):
    """The first sentence of a comment, or its only phrase, as the table has it."""
    first = SENTENCE.match(text)
    text = (first[0] if first else text).removesuffix(".")
    return text[:1].upper() + text[1:]


def entries(path):
    """What the table has of a file: for the file, and for each of its definitions with own lines, the four cells."""
    lines, short = read(path).split("\n"), path.removeprefix("crates/")
    for number, block, after in blocks(lines):
        found = fields(path, block)
        if CARRIED in found:
            name = DEFINITION.match(after)
            if number and not name:
                raise NoTable(f"{path}:{number + 1}: `{CARRIED.strip()}` is neither at the head of the file nor over a definition")
            where = f"`{short}`, `{name[1]}`" if number else f"`{short}`"
            yield said(found[""]), where, found[CARRIED].removesuffix("."), found.get(TESTED, "").removesuffix(".")


@functools.lru_cache(maxsize=None)
def names_in(crate):
    """The words in the sources and the definitions of a crate, without its comments; and those of them that are declared there."""
    words, declared = set(), set()
    for ending, names in (("src/**/*.rt", DECLARED), ("specs/**/*.antt", DEFINITION)):
        for path in glob.glob(os.path.join(TOP, "crates", crate, ending), recursive=True):
            text = COMMENT.sub("", read(path))
            words.update(WORD.findall(text))
            declared.update(names.findall(text))
    return words, declared


def wrong_names(path, crates, carried, tested):
    """The names of two cells that nothing has."""
    own = called = path.split("/")[1]
    inside = False
    for code, sign in CODE.findall(carried):
        if sign:
            inside = sign == "("
            continue
        first = code.split("::")[0]
        called = called if inside else first if first in crates else own
        words, declared = names_in(called)
        named = WORD.findall(code)
        if code not in crates and not (named[-1] in declared and words | {called} >= set(named)):
            yield f"{path}: {called} has no {code}"
    verbs = re.findall(r"^verb \| (\w+)", read("tools/help/table.txt"), re.M)
    for code in re.findall(r"`([^`]+)`", tested):
        there = code in crates or code in verbs
        if not there and not any(os.path.isfile(os.path.join(TOP, "crates", it, "data", code)) for it in ROWS):
            yield f"{path}: there is no test {code}"


def sections():
    """The stages of crates.txt, each with the entries of its crates, and what is wrong in them."""
    stages, wrong = crate_table.stages(), []
    crates = {name for _, uses in stages for name in uses}
    found = []
    for comment, uses in stages:
        rows = []
        for path in (it for crate in uses for it in specs_of(crate)):
            if not read(path).startswith("--"):
                wrong.append(f"{path}: it does not begin with a comment that says what it defines")
            for entry in entries(path):
                rows.append(entry)
                wrong += wrong_names(path, crates, *entry[2:])
        if rows:
            found.append((comment.rstrip(".").partition(": ")[0], rows))
    return found, wrong


def tables():
    """The lines of the tables, and what is wrong in the comments that they are made from."""
    found, wrong = sections()
    lines = []
    for title, rows in found:
        lines += [f"## {title}", "", row(*HEAD), "|---|---|---|---|"]
        lines += [row(*(it.replace("|", "\\|") for it in entry)) for entry in rows]
        lines.append("")
    return lines, wrong


def with_tables(text):
    """The page with the tables made anew, and what is wrong in the comments."""
    lines, wrong = tables()
    made = "\n" + "\n".join(lines) + "\n"
    found, count = PART.subn(lambda at: f"{at[1]}{made}{at[3]}", text)
    if count != 1:
        raise NoTable(f"{PAGE}: there is not one part between `<!-- definitions: .. -->` and `<!-- end of definitions -->`")
    return found, wrong


def complaints():
    try:
        text = read(PAGE)
        made, wrong = with_tables(text)
        yield from wrong
        if made != text:
            yield f"{PAGE}: its tables are not what `tools/dev definitions` writes"
    except NoTable as why:
        yield str(why)


def write():
    """Writes the tables. Returns the status: 1 if they can't be made, or if a comment names what is not there."""
    try:
        text, wrong = with_tables(read(PAGE))
    except NoTable as why:
        print(f"dev definitions: {why}")
        return 1
    with open(os.path.join(TOP, PAGE), "w", encoding="utf-8") as file:
        file.write(text)
    print("".join(f"dev definitions: {it}\n" for it in wrong), end="")
    return 1 if wrong else 0
