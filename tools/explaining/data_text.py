"""The records of a data file, each with its line and its fields, read as docs/language.md says under 'The data file'."""
import re
from dataclasses import dataclass

END_OF_FIELD = re.compile(rb"[,\r\n]")
END_OF_LINE = re.compile(rb"[\r\n]")
NUMBER = re.compile(r"[+-]?[0-9]+")


def whole(text):
    """The number that digits with or without a sign spell, or None where they are none or it does not fit 64 bits."""
    if not NUMBER.fullmatch(text):
        return None
    digits = text.lstrip("+-").lstrip("0")
    if len(digits) > 19:
        return None
    number = int(digits or "0") * (-1 if text[0] == "-" else 1)
    return number if -(2**63) <= number < 2**63 else None


@dataclass
class Field:
    text: bytes
    line: int
    column: int
    # whether a quote opens the field and none closes it
    is_open: bool = False

    def spelled(self):
        return self.text.decode("utf-8", "replace")


class Record:
    """A record: a line without quotes, whose fields are taken apart when they are asked for, or fields that were quoted."""

    def __init__(self, line, number, column, fields=None):
        self.line, self.number, self.column, self.taken = line, number, column, fields

    @property
    def fields(self):
        if self.taken is None:
            self.taken, column = [], self.column
            for piece in self.line.split(b","):
                self.taken.append(Field(piece.strip(b" \t"), self.number, column))
                column += len(piece) + 1
        return self.taken

    def word(self):
        if self.taken is None:
            return self.line.split(b",", 1)[0].strip(b" \t").decode("utf-8", "replace")
        return self.fields[0].spelled()

    def at(self, number):
        """The field with this number, or the last one."""
        return self.fields[min(number, len(self.fields) - 1)]


class Reading:
    """A reading of bytes, with the line and the column that it has come to."""

    def __init__(self, text):
        self.text, self.at, self.line, self.start_of_line = text, 0, 1, 0
        if text.startswith(b"\xef\xbb\xbf"):
            self.at = 3

    def byte(self):
        return self.text[self.at : self.at + 1]

    def end_line(self):
        """Goes past the end of a line, LF, CR or CRLF."""
        self.at += 2 if self.text[self.at : self.at + 2] == b"\r\n" else 1
        self.line += 1
        self.start_of_line = self.at

    def quoted(self):
        """The bytes of a quoted field after its opening quote, and whether it is closed; one that is not runs to the end."""
        pieces = []
        while True:
            end = self.text.find(b'"', self.at)
            piece = self.text[self.at : end if end >= 0 else len(self.text)]
            pieces.append(piece)
            self.pass_lines(piece)
            self.at += len(piece) + (end >= 0)
            if end < 0 or self.byte() != b'"':
                return b'"'.join(pieces), end >= 0
            self.at += 1

    def pass_lines(self, piece):
        """Counts the lines of a piece of a quoted field, which begins where the reading stands."""
        lines = piece.count(b"\n")
        if lines:
            self.line, self.start_of_line = self.line + lines, self.at + piece.rindex(b"\n") + 1

    def one_field(self):
        it = Field(b"", self.line, self.at - self.start_of_line + 1)
        if self.byte() == b'"':
            self.at += 1
            it.text, is_closed = self.quoted()
            it.is_open = not is_closed
        first = self.at
        end = END_OF_FIELD.search(self.text, self.at)
        self.at = end.start() if end else len(self.text)
        it.text = (it.text + self.text[first : self.at]).strip(b" \t")
        return it


def records_of(text):
    """The records of a data file; empty lines are skipped."""
    reading, found = Reading(text), []
    while reading.byte():
        if reading.byte() in (b"\r", b"\n"):
            reading.end_line()
            continue
        found.append(one_record(reading))
        if reading.byte():
            reading.end_line()
    return found


def one_record(reading):
    end = END_OF_LINE.search(reading.text, reading.at)
    line = reading.text[reading.at : end.start() if end else len(reading.text)]
    column = reading.at - reading.start_of_line + 1
    if b'"' not in line:
        reading.at += len(line)
        return Record(line, reading.line, column)
    fields = [reading.one_field()]
    while reading.byte() == b",":
        reading.at += 1
        fields.append(reading.one_field())
    return Record(b"", fields[0].line, column, fields)


def names_of(records, words):
    """The names that records with these first words give, each with its field."""
    place = {"int": 1, "coll": 1, "collof": 2}
    return {it.fields[place[it.word()]].spelled(): it.fields[place[it.word()]] for it in records if it.word() in words and len(it.fields) > place[it.word()]}
