"""PaRSEC's JDF as a tree, by recursive descent. A form that can't be read is refused with its line, and reading goes on behind it."""
from parsec.notes import Fault
from parsec.reading_classes import ClassReader
from parsec.tree import Global, Skip


class Reader(ClassReader):
    def read(self):
        while not self.walk.is_over():
            before = self.walk.at
            try:
                self.read_item()
            except Fault as fault:
                self.refuse(fault)
                self.recover_at_class()
            if self.walk.at == before:
                self.walk.take()
        return self.file

    def read_item(self):
        walk = self.walk
        token = walk.now()
        if token.kind == "option":
            self.skip("an option line", walk.take())
        elif token.kind == "raw":
            self.skip("a prologue of C", walk.take())
        elif token.text == "extern":
            self.read_extern()
        elif token.is_name() and walk.now(1).text == "(":
            self.read_class()
        elif token.is_name():
            self.read_global()
        elif walk.sees(";", ","):
            walk.take()
            self.notes.dropped(token.line, f"`{token.text}` between globals.")
            self.file.skips.append(Skip("", token.line, token.start, token.end))
        else:
            raise Fault(token.line, f"{token.shown()} begins neither a global nor a class.", "A class is `Name(parameters)` and what belongs to it.")

    def skip(self, what, first, last=None):
        self.file.skips.append(Skip(what, first.line, first.start, (last or first).end))

    def read_extern(self):
        first = self.walk.take()
        if self.walk.now().kind == "quoted":
            self.walk.take()
        if self.walk.now().kind != "raw":
            raise Fault(first.line, f"{self.walk.now().shown()} stands where the block of `extern` is expected.", 'Write `extern "C" %{ .. %}`.')
        self.skip("an extern block", first, self.walk.take())

    def read_hash(self, token):
        word = token.text[1:].split()[:1]
        if word and word[0] in ("if", "ifdef", "ifndef", "elif", "else", "endif"):
            self.notes.refuse(token.line, f"`#{word[0]}` chooses a part of the file.", "Keep the part that is meant, and remove these lines.")
        self.skip("a line of the preprocessor", token)

    def read_global(self):
        found = Global(self.walk.take(), [], bool(self.file.classes))
        self.file.globals.append(found)
        found.properties = self.read_properties()
        if self.walk.sees("="):
            raise Fault(
                found.name.line,
                f"`{found.name.text}` is given a value in the text.",
                f"Write `{found.name.text}` alone, and give the value by --set.",
            )

    def recover_at_class(self):
        """Goes on behind the next END, or at a name that begins a line and is followed by `(`."""
        self.file.is_broken = True
        walk = self.walk
        while not walk.is_over():
            token = walk.take()
            if token.text == "END" and token.kind == "name":
                return
            if walk.now().is_name() and walk.now(1).text == "(" and self.begins_line(walk.now()) and walk.now().line > token.line:
                return
