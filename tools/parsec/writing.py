"""What is written in the place of a file's parts, and what of them is dropped. A file that is `ptg`'s own keeps what `ptg` skips."""
from parsec import dependences, rendering
from parsec.edits import Edits
from parsec.tree import Guarded


class Writer:
    def __init__(self, text, notes, is_own):
        self.edits, self.notes, self.is_own, self.text = Edits(text), notes, is_own, text

    def drop_skip(self, skip):
        what = skip.what[:1].upper() + skip.what[1:]
        if self.is_own:
            self.notes.kept(skip.line, f"{what}: `ptg` skips it unread.")
        elif skip.what:
            self.notes.dropped(skip.line, f"{what}: nothing that it declares exists for `ptg`.")
            self.edits.comment(skip.start, skip.end)
        else:
            self.edits.blank(skip.start, skip.end)

    def drop_cost(self, cost):
        self.notes.dropped(cost.line, "SIMCOST: it has no meaning for `ptg`.")
        self.edits.comment(cost.start, cost.end)

    def drop_mark(self, mark, what):
        self.notes.dropped(mark.line, f"`{mark.text}` {what}.")
        self.edits.blank(mark.start, mark.end)

    def drop_properties(self, groups, whose):
        for group in groups:
            keys = ", ".join(f"`{it.key}`" for it in group.items) or "without a name"
            if self.is_own:
                self.notes.kept(group.line, f"Properties of {whose}: {keys}; `ptg` skips them unread.")
            else:
                self.notes.dropped(group.line, f"Properties of {whose}: {keys}.")
                self.edits.blank(group.start, group.end)

    def expression(self, old, new):
        if new is not old:
            self.edits.replace(old.start, old.end, rendering.shown(new))

    def argument(self, old, new):
        for before, after in zip(old.parts, new.parts):
            self.expression(before, after)

    def target(self, old, new):
        if len(old.arguments) != len(new.arguments):
            self.edits.replace(old.start, old.end, rendering.shown_target(new))
            return
        for before, after in zip(old.arguments, new.arguments):
            self.argument(before, after)

    def whole_dependence(self, old, rows):
        self.edits.replace(old.start, old.end, " ".join(dependences.rendered(it) for it in rows))

    def dependence_in_place(self, old, row):
        """Changes the expressions and the properties of a dependence that keeps its form."""
        what = old.what
        if isinstance(what, Guarded):
            if row.guard is not what.condition:
                self.edits.replace(what.condition.start, what.condition.end, rendering.shown_guard(row.guard))
            self.target(what.yes, row.yes)
            if what.no:
                self.target(what.no, row.no)
        else:
            self.target(what, row.yes)
        self.types(old, row.kept_type)

    def types(self, old, kept):
        """Leaves one type behind a dependence, or none."""
        groups = [it for target in old.targets() for it in target.properties] + old.properties
        for at, group in enumerate(groups):
            is_last = at == len(groups) - 1
            if is_last and kept:
                self.kept_type(group, kept)
            elif not (is_last and says_default(group)):
                self.edits.blank(group.start, group.end)

    def kept_type(self, group, kept):
        if "".join(self.text[group.start : group.end].split()) != f"[type={kept}]":
            self.edits.replace(group.start, group.end, f"[type = {kept}]")


def says_default(group):
    """Whether a group says that the type is the default one, and nothing else."""
    return len(group.items) == 1 and group.items[0].key == "type" and [it.text for it in group.items[0].tokens] == ["DEFAULT"]
