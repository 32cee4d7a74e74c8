"""The words of the command line: which rule of docs/language.md, 'The command line', they break, and the files that they name."""
import difflib
from dataclasses import dataclass, field

WORKERS, SHARDS = ("--workers", 64), ("--shards", 256)


@dataclass
class Verb:
    """A verb: what it does, the names of its operands, with the range of each that is a number, and its options."""

    does: str
    operands: dict
    numbers: tuple = ()
    flags: tuple = ()

    def options(self):
        return [name for name, _ in self.numbers] + list(self.flags)

    def words(self):
        numbers = [f"[{name} 1..{most}]" for name, most in self.numbers]
        return " ".join(list(self.operands) + numbers + [f"[{it}]" for it in self.flags])


FILE = None
VERBS = {
    "run": Verb("runs a job on its data", {"JDF": FILE, "DATA": FILE}, (WORKERS, SHARDS), ("--preload",)),
    "check": Verb("checks that a job is consistent, and counts its tasks, edges and write-backs", {"JDF": FILE, "DATA": FILE}),
    "show": Verb("prints the canonical spelling of a JDF", {"JDF": FILE}),
    "demo": Verb("runs a made job of N rows of tiles, N from 1 to 96", {"N": (1, 96)}),
    "trace": Verb("runs a job and prints its trace", {"JDF": FILE, "DATA": FILE}, (WORKERS, SHARDS)),
    "replay": Verb("runs a job in the order of a trace", {"JDF": FILE, "DATA": FILE, "TRACE": FILE}),
    "certify": Verb("runs a job, and prints a heaviest chain of its tasks, or a cycle", {"JDF": FILE, "DATA": FILE}),
    "ranks": Verb("runs a job on R ranks that send each other messages, R from 1 to 64", {"JDF": FILE, "DATA": FILE, "R": (1, 64), "SEED": (0, 2**64 - 1)}),
}


@dataclass
class Command:
    verb: str
    operands: list = field(default_factory=list)
    # each option with its value, in the order of the words
    options: list = field(default_factory=list)
    # what is wrong with the words, one by one
    wrong: list = field(default_factory=list)

    def files(self):
        """The operands that are names of files."""
        kinds = VERBS[self.verb].operands.values() if self.verb in VERBS else []
        return [name for name, kind in zip(self.operands, kinds) if kind is FILE]

    def jdf(self):
        return next(iter(self.files()), None)

    def data(self):
        return next(iter(self.files()[1:]), None)

    def trace(self):
        return next(iter(self.files()[2:]), None)


def is_number(text, least, most):
    return text.isascii() and text.isdigit() and len(text) <= 20 and least <= int(text) <= most


def command_of(words):
    """The command that words form, with what is wrong with it."""
    it = Command(words[0] if words else "")
    if not words:
        it.wrong.append("no command is given")
    elif it.verb not in VERBS:
        it.wrong.append(f"`{shown(it.verb)}` is not a command{alike(it.verb)}")
    else:
        read(it, VERBS[it.verb], list(words[1:]))
        judge(it, VERBS[it.verb])
    return it


def read(it, verb, rest):
    """Reads the words after the verb."""
    while rest:
        word = rest.pop(0)
        name, equals, value = word.partition("=")
        if is_improper(word):
            it.wrong.append(improper(word))
        elif name in dict(verb.numbers):
            if not equals:
                value = rest.pop(0) if rest and not rest[0].startswith("-") else None
            it.options.append((name, value))
        elif word in verb.flags:
            it.options.append((word, ""))
        elif word.startswith("-"):
            known = f"it has {', '.join(verb.options())}" if verb.options() else "it has none"
            it.wrong.append(f"`{shown(word)}` is not an option of `{it.verb}`: {known}")
        else:
            it.operands.append(word)


def judge(it, verb):
    """Looks at what was read of the words after the verb."""
    for at, (name, value) in enumerate(it.options):
        most = dict(verb.numbers).get(name)
        if value is None:
            it.wrong.append(f"`{name}` has no number after it")
        elif most and not is_number(value, 1, most):
            it.wrong.append(f"`{shown(value)}` is not a number from 1 to {most}, which `{name}` needs")
        if name in [other for other, _ in it.options[:at]]:
            it.wrong.append(f"`{name}` is given twice")
    if len(it.operands) != len(verb.operands):
        words, given = len(verb.operands), len(it.operands)
        it.wrong.append(f"`{it.verb}` takes {words} {'argument' if words == 1 else 'arguments'} besides options, and {given} {'is' if given == 1 else 'are'} given")
    else:
        wanted = zip(it.operands, verb.operands.values())
        it.wrong += [f"`{shown(text)}` is not a number from {kind[0]} to {kind[1]}" for text, kind in wanted if kind is not FILE and not is_number(text, *kind)]


def alike(verb):
    """A question about the verb that is spelled most like this one."""
    found = [it for it in VERBS if it == verb.lower()] or difflib.get_close_matches(verb[:20].lower(), VERBS, 1, 0.5)
    return f". Did you mean `{found[0]}`?" if found else ""


def is_improper(word):
    return word in ("", "-", "--") or any("\udc80" <= c <= "\udcff" for c in word)


def improper(word):
    """Why a word can't be one of a command."""
    if word == "-":
        return "`-` does not name a file: to read standard input write `/dev/stdin`"
    if word == "--":
        return "`--` is not used: a file whose name begins with `-` is written `./-..`"
    return "a word is empty" if word == "" else f"`{shown(word)}` is not UTF-8"


def shown(word):
    """A word as a terminal can show it."""
    return "".join(c if c.isprintable() else "\ufffd" for c in word[:80])


def form(name):
    """The words of a verb, and what it does."""
    return f"ptg {name} {VERBS[name].words()}: {VERBS[name].does}"


def explanation(words):
    """The lines for words that form no command."""
    it = command_of(words)
    forms = [it.verb] if it.verb in VERBS else list(VERBS)
    return [f"ptg: error: usage: {it.wrong[0] if it.wrong else 'this is not a command'}"] + ["    " + form(name) for name in forms]
