"""The manual page ptg(1), made from the table in the form of man(7)."""
import re

NAME = "check and run task graphs in JDF"
WHAT = (
    "`ptg` checks and runs task graphs in PaRSEC's JDF notation. It finds edges whose two ends disagree. Its scheduler is proved by machine"
    " never to lose or misorder data. Bodies are small programs over 64-bit integers, not C, and a job runs in one process."
)
WORKERS = "More workers than processors only waste time."


def spelled(text):
    """A text as roff has it, with what is typed in bold."""
    text = text.replace("\\", "\\e").replace("-", "\\-")
    text = re.sub(r"`([^`]*)`", r"\\fB\1\\fR", text)
    return "\\&" + text if text.startswith((".", "'")) else text


def form(verb, options):
    """The command of a verb: what is typed as it stands in bold, and what is replaced in italics."""
    words = [f"\\fBptg {verb.name}\\fR"] + [f"\\fI{it}\\fR" for it in verb.operands]
    for name in verb.options:
        option = options[name]
        value = f" \\fI{option.value}\\fR" if option.value else ""
        words.append(f"[\\fB{spelled(name)}\\fR{value}]")
    return " ".join(words)


def entry(left, right):
    """A term and what is said of it."""
    return [".TP", f"\\fB{spelled(left)}\\fR", spelled(right)]


def verbs(table):
    lines = []
    for verb in table.verbs:
        lines += [".TP", form(verb, table.options), spelled(f"Prints {verb.prints}.")]
        lines += [spelled(it) for it in verb.more]
    return lines


def options(table):
    lines = []
    for option in table.options.values():
        lines += entry(option.form(), f"{option.sentence()} ({', '.join(table.verbs_with(option.name))}).")
    return lines + [".PP", WORKERS]


def examples(table):
    lines = [".EX"]
    for verb in table.verbs:
        lines += [spelled(it) for it in verb.examples]
    return lines + [".EE"]


def tools(table):
    lines = []
    for typed, what in table.tools:
        name, _, words = typed.partition(" ")
        lines += entry(f"ptg-{name.replace('_', '-')} {words}", what)
    return lines


def page(table):
    """The lines of the page."""
    lines = ['.\\" Made by tools/help/say --man from tools/help/table.txt.', '.TH PTG 1 "" "" "User commands"']
    lines += [".SH NAME", f"ptg \\- {NAME}", ".SH SYNOPSIS"]
    for number, verb in enumerate(table.verbs):
        lines += [".br"] * (number > 0) + [form(verb, table.options)]
    lines += [".SH DESCRIPTION", spelled(WHAT), ".SH VERBS"] + verbs(table)
    lines += [".SH OPERANDS"] + [it for pair in table.operands.items() for it in entry(*pair)]
    lines += [".SH OPTIONS", "They may stand anywhere after the verb."] + options(table)
    lines += [".SH WORDS OF THE SCRIPT"] + [it for pair in table.script for it in entry(*pair)]
    lines += [".SH ENVIRONMENT"] + [it for pair in table.variables for it in entry(*pair)]
    lines += [".SH EXIT STATUS"] + [it for pair in table.statuses for it in entry(*pair)]
    lines += [".SH EXAMPLES", "In the folder of ptg, which \\fBptg help\\fR names with its documents:", ".PP"] + examples(table)
    lines += [".SH TOOLS", "Installed beside \\fBptg\\fR:"] + tools(table)
    return lines + [".SH SEE ALSO", "\\fBptg help\\fR, which says where the documents are."]
