"""One conversion, from the bytes of a file to a JDF, a data file and what is said of them."""
import sys
from enum import Enum

from parsec.converting import Converter
from parsec.defaults import take_defaults
from parsec.job import Job
from parsec.notes import Fault, Notes
from parsec.own_text import MOST_BYTES, is_own_text
from parsec.reader import Reader
from parsec.scanner import Scanner

MARK = "\ufeff"
# An expression nests at most as deep as it has tokens, and each level takes some calls.
sys.setrecursionlimit(20_000)


class Outcome(Enum):
    DONE, REFUSED, ASKED = range(3)


class Conversion:
    def __init__(self, content, settings):
        self.content, self.settings, self.notes = content, settings, Notes()
        self.jdf = self.data = self.verdict = None
        self.outcome = Outcome.REFUSED
        self.is_own = False

    def run(self, program):
        self.is_own = is_own_text(self.content)
        text = self.decoded()
        tokens = self.scanned(text)
        is_cut = bool(self.notes.refusals())
        file = Reader(tokens, text, self.notes, self.is_own, is_cut).read()
        if not file.classes and not self.notes.refusals():
            self.notes.refuse(1 + text.count("\n"), "The file has no class.", "A class is `Name(parameters)` and what belongs to it.")
        take_defaults(file, self.settings, self.notes)
        try:
            self.convert(file, tokens, program)
        except Fault as fault:
            self.notes.refuse_fault(fault)
            self.jdf = self.data = None
            self.outcome = Outcome.REFUSED
        return self

    def decoded(self):
        """The text. A byte order mark goes; bytes that are no UTF-8 may stand in what is dropped and in comments."""
        text = self.content.decode("utf-8", "surrogateescape")
        if text.startswith(MARK):
            self.notes.dropped(1, "The byte order mark.")
            text = text[1:]
        return text

    def scanned(self, text):
        scanner = Scanner(text, is_own=self.is_own)
        try:
            return scanner.scan()
        except Fault as fault:
            self.notes.refuse_fault(fault)
            scanner.add("end", len(text))
            return scanner.tokens

    def convert(self, file, tokens, program):
        notes = Notes()
        converter = Converter(file, tokens, self.settings, notes, self.is_own)
        converter.convert()
        if self.is_own and notes.refusals():
            self.keep_without_data(notes)
            return
        self.notes.take(notes)
        if self.notes.refusals():
            return
        self.jdf = self.encoded(converter.writer.edits.applied())
        if len(self.jdf) > MOST_BYTES:
            raise Fault(1, f"The file would have {len(self.jdf)} bytes; `ptg` takes at most {MOST_BYTES}.", "Remove comments, or make two files.")
        if self.jdf == self.content:
            self.notes.kept(1, "This file is `ptg`'s own JDF: it is written as it is.")
        job = Job(converter, self.jdf, self.settings, self.notes)
        data, self.verdict = job.make(program, converter.has_stamps)
        if self.verdict and self.verdict.status in (2, 3):
            self.notes.refuse(
                1,
                f"`ptg` refuses what would be written: {self.verdict.text}.",
                "Its line is one of this file, or its row one of the data.",
            )
        if self.notes.refusals():
            self.jdf = None
            return
        if data is not None:
            self.data = data.encode()
        self.outcome = Outcome.ASKED if job.is_asked else Outcome.DONE

    def keep_without_data(self, notes):
        """The text is `ptg`'s own, and its names mean nothing there: it is written as it is, and no data is made."""
        self.jdf, self.outcome = self.content, Outcome.ASKED
        self.settings.used |= set(self.settings.given)
        for (kind, text), lines in notes.said.items():
            for line in lines if kind == "refused" else []:
                self.notes.decide(line, f"No data is written: {text}")

    def encoded(self, text):
        """The bytes of a new text. What is no UTF-8 in comments becomes `?`."""
        lines = text.split("\n")
        for number, line in enumerate(lines, 1):
            if not line.isascii() and any(is_no_utf8(it) for it in line):
                self.notes.changed(number, "A byte that is no UTF-8 is `?` now.")
                lines[number - 1] = "".join("?" if is_no_utf8(it) else it for it in line)
        return "\n".join(lines).encode()


def is_no_utf8(character):
    """Whether a character stands for a byte that is no UTF-8."""
    return "\udc80" <= character <= "\udcff"
