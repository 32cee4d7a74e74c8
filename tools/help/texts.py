"""The help as text: all of it, that of one verb, and the short one."""
import os
import textwrap

import built

WIDTH = 79
SENTENCE = "ptg checks and runs task graphs in PaRSEC's JDF notation."


def plain(text):
    """A text without the marks round what is typed."""
    return text.replace("`", "")


def paragraph(text, indent=""):
    return textwrap.wrap(plain(text), WIDTH, initial_indent=indent, subsequent_indent=indent, break_long_words=False, break_on_hyphens=False)


def rows(pairs, indent="  ", widest=24):
    """Lines in two columns. What is too wide for the first one stands on a line of its own."""
    pairs = [(plain(left), plain(right)) for left, right in pairs]
    column = min(max(len(left) for left, _ in pairs), widest) + len(indent) + 2
    lines = []
    for left, right in pairs:
        wrapped = textwrap.wrap(right, WIDTH - column, break_long_words=False, break_on_hyphens=False)
        first = f"{indent}{left}"
        if len(first) > column - 2:
            lines.append(first)
            first = ""
        lines += [first.ljust(column) + wrapped[0]] + [" " * column + it for it in wrapped[1:]]
    return lines


def processors():
    """What is said of this machine's processors, where the number of workers can be chosen."""
    count = len(os.sched_getaffinity(0))
    return paragraph(f"This machine has {count} processor{'s' if count != 1 else ''} for ptg. More workers than processors only waste time.", "  ")


def options(table, names, verbs_too):
    """The lines of some options, with the verbs that have them."""
    pairs = []
    for name in names:
        option = table.options[name]
        verbs = f" ({', '.join(table.verbs_with(name))})" if verbs_too else ""
        pairs.append((option.form(), option.sentence() + verbs))
    return rows(pairs)


def command(form, top):
    """A tool as it is typed: its path in a checkout, its command where it is installed."""
    name, _, words = form.partition(" ")
    path = f"ptg-{name.replace('_', '-')}" if built.is_installed(top) else os.path.join(top, "tools", name)
    return f"{path} {words}"


def whole(table, top):
    """The help."""
    lines = [SENTENCE, "", "usage: ptg VERB ..", "", "Verbs, and what they print:"]
    lines += rows([(" ".join([it.name, *it.operands]), it.prints) for it in table.verbs])
    lines += ["", "Options, which may stand anywhere after the verb:"] + options(table, table.options, verbs_too=True) + processors()
    lines += ["", "Operands:"] + rows(table.operands.items())
    lines += ["", "Answered by the script ptg, without a build:"] + rows(table.script[:-1])
    lines += ["", "Without a proof:"] + rows(table.script[-1:])
    lines += ["", "Variables of the environment:"] + rows(table.variables)
    lines += ["", "Exit statuses:"] + rows(table.statuses)
    lines += ["", "Tools:"] + rows([(command(form, top), what) for form, what in table.tools])
    lines += ["", "Documents:"] + rows([(os.path.join(top, path), what) for path, what in table.documents], widest=60)
    return lines + ["", "ptg help VERB says more of a verb."]


def of_verb(table, verb, top):
    """The help of one verb."""
    lines = [f"usage: ptg {verb.form(table.options)}", "", *paragraph(f"Prints {verb.prints}.")]
    for text in verb.more:
        lines += ["", *paragraph(text)]
    lines += [""] + rows([(it, table.operands[it]) for it in verb.operands])
    if verb.options:
        lines += ["", "Options:"] + options(table, verb.options, verbs_too=False)
        lines += processors() if "--workers" in verb.options else []
    lines += ["", "Examples:" if len(verb.examples) > 1 else "Example:"]
    examples = os.path.join(top, "examples")
    lines += ["  " + it.replace(" examples/", f" {examples}/") for it in verb.examples]
    return lines + ["", f"{os.path.join(top, 'docs', 'language.md')} has all rules, ptg help the exit statuses."]


def short(table):
    """What is said where there are no arguments."""
    lines = [SENTENCE, "", "usage:"]
    lines += [f"  ptg {it.form(table.options)}" for it in table.verbs]
    return lines + ["", "ptg help [VERB] says more; ptg --version says whether the program is proved."]
