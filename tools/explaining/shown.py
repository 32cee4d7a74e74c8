"""Bytes of a file as a terminal can show them, with a place marked."""
import unicodedata

# A line of the file is shown up to this many bytes on either side of the place.
AROUND = 60


def width(char):
    """How many columns of a terminal a character takes."""
    if unicodedata.combining(char):
        return 0
    return 2 if unicodedata.east_asian_width(char) in "WF" else 1


def shown(text):
    """Bytes as text that a terminal can show: tabs stay, other control characters become a mark."""
    return "".join(c if c == "\t" or c.isprintable() else "\ufffd" for c in text.decode("utf-8", "replace"))


def start_of(line, index):
    """Where the character that this byte belongs to begins, which is at most three bytes earlier."""
    for start in range(index, max(index - 4, -1), -1):
        if start >= len(line) or line[start] & 0xC0 != 0x80:
            return start
    return index


def marked(text, number, column):
    """A line of a text, and the line that marks its byte in this column."""
    lines = text.split(b"\n")
    if number > len(lines) or (number == len(lines) and not lines[-1] and number > 1):
        return ["    (after the last line)"]
    line = lines[number - 1].rstrip(b"\r")
    at = min(column - 1, len(line))
    first = start_of(line, at - AROUND) if at > AROUND else 0
    last = start_of(line, at + AROUND) if at + AROUND < len(line) else len(line)
    before, after = shown(line[first:at]), shown(line[at:last])
    before = ("... " if first > 0 else "") + before
    after += " ..." if last < len(line) else ""
    blanks = "".join("\t" if c == "\t" else " " * width(c) for c in before)
    return ["    " + before + after, "    " + blanks + "^"]
