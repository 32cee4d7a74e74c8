"""The table of crates in docs/architecture.md, from crates.txt and the first paragraph of comments of each crate's root file."""
import os
import re

TOP = os.path.dirname(os.path.dirname(os.path.dirname(os.path.realpath(__file__))))
PAGE = "docs/architecture.md"
PART = re.compile(r"(<!-- crates: [^\n]* -->\n)(.*?)(<!-- end of crates -->\n)", re.S)
ROOTS = ("lib.rt", "main.rt")
HEAD = ("Crate", "Stands on", "What it is")
# Most crates stand on it, so the table leaves it out.
LEMMAS = "list_lemmas"


class NoTable(Exception):
    """Why there is no table."""


def read(path):
    with open(os.path.join(TOP, path), encoding="utf-8") as file:
        return file.read()


def stages():
    """The stages of crates.txt, each with its comment and its crates, and what each of these stands on."""
    found = []
    for block in re.split(r"\n\s*\n", read("crates.txt")):
        lines = block.strip().split("\n")
        comment = " ".join(it.lstrip("#").strip() for it in lines if it.startswith("#"))
        crates = [it.partition("#")[0].partition(":") for it in lines if not it.startswith("#")]
        if crates:
            found.append((comment, {name.split()[0]: uses.split() for name, _, uses in crates if name.strip()}))
    return found


def first_paragraph(crate):
    """The first paragraph of the `//!` lines of a crate's root file."""
    roots = [path for path in (os.path.join("crates", crate, "src", it) for it in ROOTS) if os.path.isfile(os.path.join(TOP, path))]
    if len(roots) != 1:
        raise NoTable(f"crates/{crate}/src: there is not one root file of {' and '.join(ROOTS)}")
    lines = []
    for line in read(roots[0]).split("\n"):
        text = line.removeprefix("//!").strip()
        if not line.startswith("//!") or not text:
            break
        lines.append(text)
    if not lines:
        raise NoTable(f"{roots[0]}: it does not begin with a line //!")
    return " ".join(lines)


def reached(crate, uses):
    """A crate and all that it stands on, directly or not."""
    found = [crate]
    for it in found:
        found += [below for below in uses.get(it, []) if below not in found]
    return set(found)


def nearest(crate, uses):
    """What a crate stands on, without what another of these stands on already: crates of the repository, and then those of the kit."""
    own = [it for it in uses[crate] if it in uses and it != LEMMAS]
    kit = [it for it in uses[crate] if it not in uses]
    return [it for it in own if not any(it in reached(other, uses) for other in own if other != it)] + kit


def row(*cells):
    return "|" + "|".join(f" {it} " if it else " " for it in cells) + "|"


def table():
    """The lines of the table."""
    found, lines = stages(), [row(*HEAD), "|---|---|---|"]
    uses = {name: below for _, crates in found for name, below in crates.items()}
    for comment, crates in found:
        title, _, rest = comment.rstrip(".").partition(": ")
        lines.append(row(f"**{title}**", "", rest and f"{rest[0].upper()}{rest[1:]}."))
        for name in crates:
            lines.append(row(name, ", ".join(nearest(name, uses)), first_paragraph(name).replace("|", "\\|")))
    return lines


def with_table(text):
    """The page with the table made anew."""
    made = "\n" + "\n".join(table()) + "\n\n"
    found, count = PART.subn(lambda at: f"{at[1]}{made}{at[3]}", text)
    if count != 1:
        raise NoTable(f"{PAGE}: there is not one part between `<!-- crates: .. -->` and `<!-- end of crates -->`")
    return found


def complaints():
    try:
        text = read(PAGE)
        if with_table(text) != text:
            yield f"{PAGE}: its table of crates is not what `tools/dev crates` writes"
    except NoTable as why:
        yield str(why)


def write():
    """Writes the table. Returns the status: 1 if it can't be made."""
    try:
        text = with_table(read(PAGE))
    except NoTable as why:
        print(f"dev crates: {why}")
        return 1
    with open(os.path.join(TOP, PAGE), "w", encoding="utf-8") as file:
        file.write(text)
    return 0
