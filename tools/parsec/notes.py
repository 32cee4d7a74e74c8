"""What is said of a file: each change, drop, decision and refusal with its line."""
from dataclasses import dataclass, field

KINDS = ("changed", "dropped", "decide", "kept", "refused")


class Fault(Exception):
    """A form that can't be read, or has no translation: its line, what is wrong, and what to write."""

    def __init__(self, line, wrong, advice=""):
        super().__init__(wrong)
        self.line, self.wrong, self.advice = line, wrong, advice


@dataclass
class Notes:
    """The lines for standard error. Notes of the same text in several lines are one note that lists them."""

    said: dict = field(default_factory=dict)

    def say(self, kind, line, text):
        # (a dictionary keeps the order, and has each line once)
        self.said.setdefault((kind, text), {})[line] = True

    def changed(self, line, text):
        self.say("changed", line, text)

    def dropped(self, line, text):
        self.say("dropped", line, text)

    def decide(self, line, text):
        self.say("decide", line, text)

    def kept(self, line, text):
        self.say("kept", line, text)

    def refuse(self, line, wrong, advice=""):
        self.say("refused", line, f"{wrong} {advice}".rstrip())

    def refuse_fault(self, fault):
        self.refuse(fault.line, fault.wrong, fault.advice)

    def take(self, other):
        """Takes over the notes of another."""
        for (kind, text), lines in other.said.items():
            for line in lines:
                self.say(kind, line, text)

    def asked(self):
        """The names of which it is said that they have no value."""
        return [text.split("`")[1] for kind, text in self.said if kind == "decide" and "has no value: --set" in text]

    def refusals(self):
        return sum(kind == "refused" for kind, _ in self.said)

    def lines(self, name):
        """All notes, by their first line; refusals come after all else, so that they are seen."""
        notes = [(min(lines), sorted(lines), kind, text) for (kind, text), lines in self.said.items()]
        notes.sort(key=lambda it: (it[2] == "refused", it[0]))
        return [f"{name}:{first}: {kind}: {text}{also(lines)}" for first, lines, kind, text in notes]


MOST_LINES = 12


def also(lines):
    if len(lines) == 1:
        return ""
    others = [str(it) for it in lines[1 : 1 + MOST_LINES]] + ([".."] if len(lines) > 1 + MOST_LINES else [])
    return f" (also in line{'s' if len(others) > 1 else ''} {', '.join(others)})"
