"""Compares the table of the help with the manual page, README.md, docs/language.md and tools/explaining/words.py."""
import os
import re
import sys

HERE = os.path.dirname(os.path.realpath(__file__))
TOP = os.path.dirname(os.path.dirname(HERE))
sys.path[:0] = [HERE, os.path.dirname(HERE), os.path.join(TOP, "tools", "explaining")]
import manual
import words
from table import Table

# The status that the script alone has.
OF_THE_SCRIPT = "70"


def read(*parts):
    with open(os.path.join(TOP, *parts), encoding="utf-8") as file:
        return file.read()


def cells_of(text):
    """The cells of each row of a document's tables."""
    return [[cell.strip() for cell in line.split("|")[1:-1]] for line in text.split("\n") if line.startswith("|")]


def wrong_manual(table):
    if read("tools", "help", "ptg.1") != "\n".join(manual.page(table)) + "\n":
        yield "tools/help/ptg.1: it is not what `tools/help/say --man` prints"


def wrong_readme(table):
    text = read("README.md")
    rows = cells_of(text)
    verbs = [tuple(row[:2]) for row in rows if row[0].startswith("`./ptg ")]
    wanted = [(f"`./ptg {' '.join([it.name, *it.operands])}`", it.prints) for it in table.verbs]
    yield from differing("README.md: verbs", verbs, wanted)
    options = [tuple(row) for row in rows if row[0].startswith("`--")]
    wanted = [(f"`{it.form()}`", ", ".join(table.verbs_with(it.name)), it.sentence()) for it in table.options.values()]
    yield from differing("README.md: options", options, wanted)
    statuses = [(row[at], row[at + 1]) for row in rows if len(row) == 4 for at in (0, 2) if row[at].isdigit()]
    yield from differing("README.md: statuses", sorted(statuses), sorted(table.statuses))
    for form, _ in table.script:
        if f"`{form.split()[0]}" not in text:
            yield f"README.md: the script's word {form} is not there"
    for name, _ in table.variables:
        if name not in text and name != "PTG_JOB_GRAPH":
            yield f"README.md: the variable {name} is not there"


def differing(what, found, wanted):
    for it in found:
        if it not in wanted:
            yield f"{what}: tools/help/table.txt has no {' | '.join(it)}"
    for it in wanted:
        if it not in found:
            yield f"{what}: there is no {' | '.join(it)}"


def wrong_language(table):
    text = read("docs", "language.md")
    forms = {row[0] for row in cells_of(text)}
    for verb in table.verbs:
        if f"`{verb.form(table.options)}`" not in forms:
            yield f"docs/language.md: no row of the command line is {verb.form(table.options)}"
    for option in table.options.values():
        if option.value and f"{option.value} is {option.least} to {option.most} ({option.default}" not in text:
            yield f"docs/language.md: {option.name} has another range, or another number where it is not given"
    printed = text.split("## What is printed")[1].split("\n## ")[0]
    statuses = {it for row in cells_of(printed) for it in re.findall(r"\d+", row[-2])}
    wanted = {number for number, _ in table.statuses} - {OF_THE_SCRIPT}
    for it in sorted(statuses ^ wanted):
        yield f"docs/language.md: the status {it} is not in both, 'What is printed' and tools/help/table.txt"


def wrong_words(table):
    """What the explanations know otherwise of the words of a command."""
    known = {name: (list(verb.operands), {it: most for it, most in verb.numbers}, list(verb.flags)) for name, verb in words.VERBS.items()}
    wanted = {}
    for verb in table.verbs:
        options = [table.options[it] for it in verb.options]
        wanted[verb.name] = (verb.operands, {it.name: int(it.most) for it in options if it.value}, [it.name for it in options if not it.value])
    for name in sorted(set(known) | set(wanted)):
        if known.get(name) != wanted.get(name):
            yield f"tools/explaining/words.py: it knows another verb {name} than tools/help/table.txt"


def wrong_documents(table):
    paths = [it for it, _ in table.documents] + [os.path.join("tools", form.split()[0]) for form, _ in table.tools]
    for path in paths:
        if not os.path.exists(os.path.join(TOP, path)):
            yield f"tools/help/table.txt: there is no {path}"
    examples = [word for verb in table.verbs for it in verb.examples for word in it.split() if "/" in word]
    for path in examples:
        if not os.path.exists(os.path.join(TOP, path)):
            yield f"tools/help/table.txt: there is no {path}"


def complaints():
    table = Table()
    for compare in (wrong_manual, wrong_readme, wrong_language, wrong_words, wrong_documents):
        yield from compare(table)
