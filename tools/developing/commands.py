"""The tools for developers: the one table from which `tools/dev --help` is made, and with which tools/README.md is compared."""
import os
import re
from dataclasses import dataclass

TOOLS = os.path.dirname(os.path.dirname(os.path.realpath(__file__)))
README = os.path.join(TOOLS, "README.md")


@dataclass(frozen=True)
class Command:
    verb: str
    help: str
    # the file in tools/; none for what tools/dev does itself
    file: str = None

    def path(self):
        return os.path.join(TOOLS, self.file)

    def row(self):
        """Its row in tools/README.md."""
        return f"| `{self.file or f'dev {self.verb}'}` | {self.help} |"


def tool(verb, text, file=None):
    return Command(verb, text, file or verb)


# The sections of tools/README.md, each with its commands.
SECTIONS = {
    "For a landing": (
        Command("check", "runs `check_docs` and the tests of the tools; with `--program` also those that need a built program"),
        Command("crates", "writes the table of crates in `docs/architecture.md`"),
        Command("definitions", "writes the tables of `docs/definitions.md`"),
        tool("check_docs", "checks what documents say about files, and their words; runs `shellcheck` and `pyflakes3` if they are installed"),
        tool("sentences", "lists sentences of documents that have more than 30 words"),
        tool("build", "proves and builds a program; `./ptg` calls it"),
        tool("more-edits", "tries the edits that must fail and that the gate leaves out"),
        tool("shown_edits", "tries whether a row or a test fails with an edit of `more-edits/` that names one"),
        tool("clauses", "lists what contracts say about refusals"),
        tool("model", "searches a model of how workers sleep and are woken for hangs; with `--quick` only small jobs and teams"),
    ),
    "Tests of tools": (
        tool("explained", "tests the explanations of a built program; with `--damage` on randomly damaged files"),
        tool("pictured", "tests the pictures of a built program: their nodes, edges and bold links"),
        tool("answer_tests", "tests `answer`"),
        tool("parsec_tests", "tests `from_parsec` on each form of `examples/parsec/forms`, and on randomly damaged files"),
        tool("parsec_faults", "tests `from_parsec` and the explanations on the files of `examples/parsec`, as they are and with five faults each"),
        tool("parsec_page", "tests that the commands of `docs/parsec.md` print what the page has"),
        tool("sweep_tests", "tests `sweep`"),
        tool("try_script", "tests `./ptg`, `build`, `unproved` and `install` with stand-ins for the kit and the program"),
        tool("wrong_programs", "tests the tools that try a built program, on programs that are wrong on purpose"),
    ),
    "On a built program": (
        tool("rows", "runs the rows of `crates/ptg_rows`; with `--failing` those in which calls fail"),
        tool("replays", "replays what `trace` prints"),
        tool("orders", "prints the tasks of the Cholesky job in other orders, for a replay"),
        tool("seeds", "runs jobs by ranks with many seeds"),
        tool("settings", "runs jobs with many numbers of workers and shards"),
        tool("fail_alloc", "makes each allocation fail in turn"),
        tool("devices", "runs a program with real devices in place of its files and its output"),
        tool("damage", "runs a program on randomly damaged files"),
        tool("stack", "finds the least stack for texts that nest as deeply as the limits allow"),
    ),
    "To measure, and to make files": (
        tool("measure", "times one part by the program `ptg_measure`, or a run: `measure ./ptg run ..`"),
        tool("proof_times", "shows how long the check of a crate takes for each function"),
        tool("made_job", "makes large jobs of known shapes"),
        tool("made_data", "makes rows of data files, to compare readers"),
        tool("long_jdf", "makes a JDF of a given number of tokens", "long_jdf.py"),
        tool("colliding", "makes the rows of names and tasks that collide"),
    ),
}
COMMANDS = {it.verb: it for section in SECTIONS.values() for it in section}


def complaints():
    """What tools/README.md has otherwise: its sections have the rows of this table, in this order."""
    with open(README, encoding="utf-8") as file:
        text = file.read()
    for name, section in SECTIONS.items():
        _, there, rest = text.partition(f"\n### {name}\n")
        if not there:
            yield f"tools/README.md: there is no section {name}"
            continue
        rows = [line for line in re.split(r"\n#+ ", rest)[0].split("\n") if line.startswith("| `")]
        wanted = [it.row() for it in section]
        yield from (f"tools/README.md: {name}: tools/developing/commands.py has no row {it}" for it in rows if it not in wanted)
        yield from (f"tools/README.md: {name}: there is no row {it}" for it in wanted if it not in rows)
        if sorted(rows) == sorted(wanted) and rows != wanted:
            yield f"tools/README.md: {name}: the rows have another order than in tools/developing/commands.py"
    for it in COMMANDS.values():
        if it.file and not os.access(it.path(), os.X_OK):
            yield f"tools/developing/commands.py: there is no tool tools/{it.file}"
