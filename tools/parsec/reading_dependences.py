"""Reads flows and their dependences."""
from parsec.notes import Fault
from parsec.reading_properties import PropertyReader
from parsec.scanner import ACCESS
from parsec.tree import Dependence, Flow, Guarded, Index, Target

MOST_CASES = 16
OPERATORS = frozenset("? == != < <= > >= && || & | ^ + - * / % << >> .".split())


class DependenceReader(PropertyReader):
    def read_flows(self, found):
        walk = self.walk
        while True:
            token = walk.now()
            if token.kind == "name" and token.text in ACCESS:
                walk.take()
                found.flows.append(Flow(token, walk.take_name("the name of a flow")))
            elif token.is_name() and walk.now(1).text in ("<-", "->"):
                found.flows.append(Flow(None, walk.take()))
            elif walk.sees("<-", "->") and found.flows:
                pass
            elif token.kind == "mark" and token.text == ";" and walk.now(1).kind == "name" and walk.now(1).text in ACCESS:
                raise Fault(token.line, "`;` stands between flows.", "Remove it.")
            else:
                return
            self.read_dependences(found.flows[-1])

    def read_dependences(self, flow):
        while self.walk.sees("<-", "->"):
            try:
                flow.dependences.append(self.read_dependence())
            except Fault as fault:
                self.refuse(fault)
                self.recover_at_dependence()

    def recover_at_dependence(self):
        """Goes on at the next arrow with a blank before it, flow, priority or body."""
        walk = self.walk
        while not walk.is_over():
            now = walk.now()
            if now.kind == "body" or (now.kind == "name" and now.text in ACCESS + ("BODY",)) or self.begins_definition() or self.begins_class():
                return
            if now.kind == "mark" and (now.text == ";" or (now.text in ("<-", "->") and now.start > walk.last().end)):
                return
            walk.take()

    def read_dependence(self):
        arrow, indices, brackets = self.walk.take(), [], None
        if self.walk.sees("["):
            begin = self.walk.take()
            indices = self.read_indices()
            brackets = (begin.start, self.walk.last().end)
        what, properties = self.read_guarded()
        if self.walk.sees(":"):
            raise Fault(self.walk.now().line, "`:` stands behind a target without a guard.", "A guard is `condition ? target : target`.")
        return Dependence(arrow, indices, what, properties, arrow.line, arrow.start, self.walk.last().end, brackets)

    def read_indices(self):
        found = []
        while True:
            name = self.walk.take_name("an index of the dependence")
            self.walk.take_mark("=", "after an index of the dependence")
            found.append(Index(name, self.expressions.argument()))
            if not self.walk.sees(",", ";"):
                break
            self.walk.take()
        self.walk.take_mark("]", "after the indices of a dependence")
        return found

    def read_guarded(self):
        """A target, or `c ? t`, or `c ? t : u`, where t and u may be guarded too; and the properties behind it all."""
        depth = []
        while True:
            if self.begins_target():
                what, properties = self.read_target(), self.read_properties()
                break
            condition = self.expressions.guard()
            self.walk.take_mark("?", "after the guard of a dependence", "A dependence is `target`, `guard ? target` or `guard ? target : target`.")
            if not self.begins_target():
                raise Fault(
                    self.walk.now().line,
                    f"{self.walk.now().shown()} stands where a target is expected.",
                    "A guard with a `? :` of its own stands in parentheses.",
                )
            if len(depth) == MOST_CASES:
                raise Fault(self.walk.now().line, f"More than {MOST_CASES} targets stand one in another; `ptg` takes at most {MOST_CASES}.", "Write ranges.")
            yes, what, properties = self.read_target(), None, self.read_properties()
            depth.append((condition, yes))
            if not self.walk.sees(":"):
                break
            yes.properties = properties
            self.walk.take()
        for condition, yes in reversed(depth):
            what = Guarded(condition, yes, what)
        return what, properties

    def begins_target(self):
        """Whether a target stands here, and no guard."""
        walk = self.walk
        first, second = walk.now(), walk.now(1)
        if walk.sees("NEW", "NULL"):
            return True
        if not first.is_name():
            return False
        if second.is_name():
            return True
        if second.text != "(" or second.kind != "mark":
            return False
        close = walk.closing(1)
        after = walk.now((close or 0) + 1)
        return close is None or not (after.kind == "mark" and after.text in OPERATORS)

    def read_target(self):
        walk = self.walk
        first = walk.now()
        if walk.sees("NEW", "NULL"):
            walk.take()
            return Target(first.text, None, first, [], first.line, first.start, first.end)
        if first.kind == "raw":
            raise Fault(first.line, "C computes this target.", "Write `COLLECTION(indices)` or `FLOW CLASS(arguments)`.")
        walk.take_name("a target")
        flow, name = None, first
        if walk.now().is_name():
            flow, name = first, walk.take()
        walk.take_mark("(", f"after `{name.text}`", "A target is `FLOW CLASS(arguments)`, `COLLECTION(indices)`, `NEW` or `NULL`.")
        arguments = self.expressions.arguments()
        return Target("task" if flow else "element", flow, name, arguments, first.line, first.start, walk.last().end)

    def begins_definition(self):
        now = self.walk.now()
        return now.is_name() and self.walk.now(1).text in ("=", "<-") and now.line > self.walk.last().line

    def begins_class(self):
        """Whether a name in the first column is followed by `( .. )` and a line end: the next class."""
        now = self.walk.now()
        if not (now.is_name() and self.walk.now(1).text == "(" and self.begins_line(now)):
            return False
        close = self.walk.closing(1)
        return close is not None and self.walk.now(close + 1).line > self.walk.now(close).line
