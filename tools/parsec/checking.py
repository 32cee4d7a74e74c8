"""Whether targets name what exists, and what their flows may name."""


class Checker:
    """Refuses targets that `ptg` would refuse by the names and kinds of the file."""

    def __init__(self, file, names, notes, is_own):
        self.file, self.names, self.notes, self.is_own = file, names, notes, is_own
        # (of two classes or two flows of one name, the first)
        self.classes = {it.name.text: it for it in reversed(file.classes)}
        self.flows = {(it.name.text, flow.name.text): flow for it in reversed(file.classes) for flow in reversed(it.flows)}

    def collection(self, target):
        """Notes a collection with its number of indices."""
        name, count = target.name.text, len(target.arguments)
        known = self.names.collections.setdefault(name, (count, target.line))
        if name not in self.names.declared and name not in self.names.undeclared:
            if self.is_own:
                self.notes.refuse(target.line, f"`{name}` is declared nowhere in this file.", f"Write `{name}` in a line before the first class.")
            else:
                self.names.undeclared[name] = target.line
                self.notes.decide(target.line, f"`{name}` is declared nowhere in this file: it is a collection now.")
        if known[0] != count:
            self.notes.refuse(
                target.line,
                f"`{name}` has {count} indices here and {known[0]} in line {known[1]}.",
                "Write the same number of indices everywhere.",
            )
        if not count:
            self.notes.refuse(target.line, f"`{name}` has no index.", "A collection has one or two indices.")
        for argument in target.arguments:
            if argument.is_range():
                self.notes.refuse(
                    argument.line,
                    f"A range of elements of `{name}`: `ptg` takes one element in a dependence.",
                    "Write a dependence for each element.",
                )

    def check_kinds(self):
        """Refuses collections that stand as a number."""
        for name, line in self.names.numbers.items():
            if name in self.names.collections:
                self.notes.refuse(
                    line,
                    f"`{name}` is a collection in line {self.names.collections[name][1]} and stands as a number here.",
                    "Give one of them another name.",
                )

    def target(self, flow, target, inward):
        kind = flow.kind()
        if target.kind == "element":
            self.collection(target)
        elif target.kind == "task":
            self.task(flow, target, inward)
        if target.kind == "NEW" and not inward:
            self.notes.refuse(target.line, "`-> NEW` has no meaning.", "Write `NEW` after `<-`.")
        if kind == "CTL" and target.kind != "task":
            what = "an element of a collection" if target.kind == "element" else target.kind
            self.notes.refuse(target.line, f"The CTL flow `{flow.name.text}` names {what}.", "A CTL flow names CTL flows of tasks.")
        if kind == "WRITE" and inward and target.kind in ("task", "NULL"):
            self.notes.refuse(
                target.line,
                f"The WRITE flow `{flow.name.text}` takes a tile from {'a task' if target.kind == 'task' else 'NULL'}.",
                f"Write `RW {flow.name.text}`.",
            )

    def task(self, flow, target, inward):
        name, other_name = target.name.text, target.flow.text
        receiver = self.classes.get(name)
        if receiver is None and not self.file.is_broken:
            self.notes.refuse(target.line, f"There is no class `{name}`.", "Write the class, or the name of one.")
        if receiver is None:
            return
        other = self.flows.get((name, other_name))
        if other is None:
            self.notes.refuse(target.line, f"`{name}` has no flow `{other_name}`.", "Write the name of one of its flows.")
        elif (other.kind() == "CTL") != (flow.kind() == "CTL"):
            self.notes.refuse(
                target.line,
                f"`{flow.name.text}` is {flow.kind()} and `{other_name}` of `{name}` is {other.kind()}.",
                "A CTL flow and a flow with tiles do not meet.",
            )
        if len(receiver.params) != len(target.arguments):
            self.notes.refuse(
                target.line,
                f"`{name}` has {len(receiver.params)} parameters, and {len(target.arguments)} arguments stand here.",
                "Write an argument for each parameter.",
            )
        if inward and flow.kind() != "CTL" and any(it.is_range() for it in target.arguments):
            self.notes.refuse(
                target.line,
                "A data flow takes one tile: it has no range after `<-`.",
                "Write one source, or a CTL flow for the order alone.",
            )


LIMITS = (("params", 8, "parameters"), ("definitions", 16, "definitions"), ("flows", 8, "flows"))
MOST_CLASSES = 64


def check_counts(file, notes):
    """Refuses more classes, parameters, definitions and flows than `ptg` takes, and classes of one name."""
    if len(file.classes) > MOST_CLASSES:
        notes.refuse(file.classes[MOST_CLASSES].name.line, f"`ptg` takes at most {MOST_CLASSES} classes.", "Make one class of several.")
    seen = {}
    for cls in file.classes:
        name = cls.name.text
        if name in seen:
            notes.refuse(cls.name.line, f"There is a class `{name}` in line {seen[name]} already.", "Give it another name.")
        seen.setdefault(name, cls.name.line)
        for part, most, what in LIMITS:
            found = getattr(cls, part)
            if len(found) > most:
                token = found[most] if part == "params" else found[most].name
                notes.refuse(token.line, f"`{name}` has {len(found)} {what}; `ptg` takes at most {most} of a class.", "Make two classes of it.")
        check_names(cls, notes)


def check_names(cls, notes):
    """Refuses a second parameter or flow of one name."""
    for tokens, what in ((cls.params, "parameters"), ([it.name for it in cls.flows], "flows")):
        seen = set()
        for token in tokens:
            if token.text in seen:
                notes.refuse(token.line, f"`{cls.name.text}` has two {what} `{token.text}`.", "Give the second one another name.")
            seen.add(token.text)
