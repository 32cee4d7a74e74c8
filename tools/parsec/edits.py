"""Changes of a text that leave each line where it was."""
from parsec.notes import Fault


class Edits:
    def __init__(self, text):
        self.text, self.found = text, []

    def replace(self, start, end, new):
        """Puts a text without line ends in the place of a span; the line ends of the span stay behind it."""
        word = lambda it: it.isalnum() or it == "_"
        if new and start and word(self.text[start - 1]) and word(new[0]):
            new = " " + new
        if new and end < len(self.text) and word(self.text[end]) and word(new[-1]):
            new += " "
        self.found.append((start, end, new + line_ends(self.text[start:end])))

    def replace_lines(self, start, end, lines):
        """Puts lines in the place of a span that has as many line ends as there are lines, less one."""
        ends = line_ends(self.text[start:end]).splitlines(keepends=True)
        pieces = [line + (ends[at] if at < len(ends) else "") for at, line in enumerate(lines)] + ends[len(lines) :]
        self.found.append((start, end, "".join(pieces)))

    def blank(self, start, end):
        """Leaves blanks where a span was."""
        self.found.append((start, end, "".join(it if it in "\r\n\t" else " " for it in self.text[start:end])))

    def comment(self, start, end):
        """Makes comments of the lines of a span, or blanks where something follows in its last line."""
        stop = self.text.find("\n", end)
        rest = self.text[end : len(self.text) if stop < 0 else stop].strip()
        if rest and not rest.startswith("//"):
            self.blank(start, end)
            return
        lines = self.text[start:end].split("\n")
        self.found.append((start, end, "\n".join(f"// {it}".rstrip(" ") if it.strip() else it for it in lines)))

    def applied(self):
        """The new text. Blanks at the ends of changed lines are removed."""
        pieces, at = [], 0
        for start, end, new in sorted(self.found, key=lambda it: (it[0], it[1])):
            if start < at:
                raise Fault(
                    1 + self.text.count("\n", 0, start),
                    "Two changes meet here: this is a fault of the converter.",
                    "Please report the file.",
                )
            pieces += [self.text[at:start], new]
            at = end
        lines, new = self.text.split("\n"), ("".join(pieces) + self.text[at:]).split("\n")
        if len(new) != len(lines):
            raise Fault(1, "Lines would be lost: this is a fault of the converter.", "Please report the file.")
        return "\n".join(trimmed(old, it) for old, it in zip(lines, new))


def trimmed(old, new):
    if old == new:
        return new
    return new.rstrip(" \t\r") + ("\r" if new.endswith("\r") else "")


def line_ends(text):
    """The line ends of a text, in their order."""
    return "".join("\r\n" if at and text[at - 1] == "\r" else "\n" for at, it in enumerate(text) if it == "\n")
