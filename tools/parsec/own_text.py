"""Whether a text is `ptg`'s own JDF: whether `show` accepts it. Such a text is changed only where `run` would refuse it."""
from parsec.own_expressions import OwnWalk
from parsec.own_tokens import NotOwn, own_tokens

ACCESS = ("READ", "WRITE", "RW", "CTL")
MOST_BYTES = 16 * 1024 * 1024
MOST_CLASSES, MOST_PARAMS, MOST_DEFINITIONS, MOST_FLOWS, MOST_DEPENDENCES = 64, 8, 16, 8, 16


class FileReader:
    """Reads the grammar of docs/language.md; NotOwn where the text is none of it."""

    def __init__(self, tokens):
        self.walk, self.classes = OwnWalk(tokens), 0

    def read(self):
        walk = self.walk
        while walk.now().kind != "end":
            if walk.now().kind == "option":
                walk.take()
            elif walk.sees("extern"):
                walk.take()
                if walk.take().kind != "quoted" or walk.take().kind != "raw":
                    raise NotOwn
            elif walk.is_name() and walk.now(1).text == "(":
                self.read_class()
            elif walk.is_name() and not self.classes:
                walk.take()
                self.properties()
            else:
                raise NotOwn
        if not self.classes:
            raise NotOwn

    def properties(self):
        walk = self.walk
        if walk.sees("["):
            while not (walk.now().kind == "mark" and walk.now().text == "]"):
                if walk.take().kind == "end":
                    raise NotOwn
            walk.take()

    def counted(self, count, most):
        if count > most:
            raise NotOwn
        return count

    def read_class(self):
        walk = self.walk
        self.classes = self.counted(self.classes + 1, MOST_CLASSES)
        walk.take()
        walk.take_text("(")
        self.params()
        self.properties()
        definitions = 0
        while walk.is_name():
            definitions = self.counted(definitions + 1, MOST_DEFINITIONS)
            walk.take()
            walk.take_text("=")
            walk.argument()
        walk.take_text(":")
        walk.take_name()
        self.arguments(True)
        flows = 0
        while walk.sees(*ACCESS):
            flows = self.counted(flows + 1, MOST_FLOWS)
            self.flow()
        if walk.sees(";"):
            walk.take()
            walk.expression()
        self.body()

    def params(self):
        walk, count = self.walk, 0
        while not walk.sees(")"):
            if count:
                walk.take_text(",")
            walk.take_name()
            count = self.counted(count + 1, MOST_PARAMS)
        walk.take()

    def arguments(self, is_element):
        """Arguments in parentheses. A collection of more than two indices is none of `ptg`."""
        walk, count = self.walk, 0
        walk.take_text("(")
        while not walk.sees(")"):
            if count:
                walk.take_text(",")
            walk.argument()
            count += 1
        walk.take()
        if is_element and count > 2:
            raise NotOwn

    def flow(self):
        walk, count = self.walk, 0
        walk.take()
        walk.take_name()
        while walk.sees("<-", "->"):
            count = self.counted(count + 1, MOST_DEPENDENCES)
            walk.take()
            self.dependence()

    def dependence(self):
        walk = self.walk
        if not self.begins_target():
            walk.guard()
            walk.take_text("?")
            self.target()
            if walk.sees(":"):
                walk.take()
                self.target()
        else:
            self.target()
        if walk.sees("["):
            walk.take()
            walk.take_text("type")
            walk.take_text("=")
            walk.take_name()
            walk.take_text("]")

    def begins_target(self):
        walk = self.walk
        return walk.sees("NEW", "NULL") or (walk.is_name() and (walk.is_name(1) or walk.now(1).text == "("))

    def target(self):
        walk = self.walk
        if walk.sees("NEW", "NULL"):
            walk.take()
            return
        walk.take_name()
        is_element = not walk.is_name()
        if not is_element:
            walk.take()
        self.arguments(is_element)

    def body(self):
        walk = self.walk
        walk.take_text("BODY")
        self.properties()
        while not walk.sees("END"):
            if walk.take().kind not in ("name", "number", "mark"):
                raise NotOwn
        walk.take()


def is_own_text(content):
    """Whether `show` accepts these bytes."""
    if len(content) > MOST_BYTES:
        return False
    try:
        FileReader(own_tokens(content.decode("utf-8"))).read()
    except (NotOwn, UnicodeDecodeError):
        return False
    return True
