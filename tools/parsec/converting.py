"""From the tree of a file to `ptg`'s JDF: a plan of the job, and the changes of the text."""
from parsec import bodies
from parsec.checking import check_counts
from parsec.flows import Flows
from parsec.names import Names
from parsec.own_bodies import own_body
from parsec.plan import Plan, PlanClass
from parsec.products import Products
from parsec.signs import definition_cannot_be_negative
from parsec.tile_types import type_of_properties
from parsec.translating import Translator
from parsec.writing import Writer


class Converter:
    def __init__(self, file, tokens, settings, notes, is_own=False):
        self.file, self.settings, self.notes, self.is_own = file, settings, notes, is_own
        self.writer, self.plan = Writer(file.text, notes, is_own), Plan()
        self.names = Names(file, {it.text for it in tokens if it.kind == "name"})
        self.products = Products(self.names, settings, notes)
        self.has_stamps = False
        self.flows = Flows(file, self.names, settings, notes, self.writer, self.translator)

    def convert(self):
        for skip in self.file.skips:
            self.writer.drop_skip(skip)
        check_counts(self.file, self.notes)
        for cls in self.file.classes:
            self.plan.classes.append(self.of_class(cls))
        both = list(zip(self.file.classes, self.plan.classes))
        for cls, planned in both:
            self.flows.of_class(cls, planned)
        self.flows.checker.check_kinds()
        self.products.find()
        if self.settings.guard_ranges:
            self.flows.guard_ranges(self.plan)
        self.flows.check_counts(self.plan)
        self.flows.write(self.products)
        for cls, planned in both:
            self.write_affinity(cls, planned)
            self.of_bodies(cls, planned)
        self.of_globals()
        return self.plan

    def translator(self, scope, later=(), notes=None):
        return Translator(self.names, self.settings.values, notes or self.notes, scope, later, self.is_own)

    # Classes.

    def of_class(self, cls):
        planned = PlanClass(cls.name.text, cls.name.line, [it.text for it in cls.params])
        self.writer.drop_properties(cls.properties, f"the class `{cls.name.text}`")
        for cost in cls.costs:
            self.writer.drop_cost(cost)
        scope = {}
        for definition in cls.definitions:
            self.of_definition(cls, planned, definition, scope)
        for name in cls.params:
            if name.text not in scope:
                self.notes.refuse(
                    name.line,
                    f"The parameter `{name.text}` of `{cls.name.text}` has no definition.",
                    f"Write a line `{name.text} = LOW .. HIGH`.",
                )
        self.of_affinity(cls, planned, scope)
        self.of_priority(cls, scope)
        return planned

    def of_definition(self, cls, planned, definition, scope):
        name = definition.name.text
        later = {it.name.text for it in cls.definitions} - set(scope)
        if name in scope:
            self.notes.refuse(definition.name.line, f"`{name}` is defined twice in `{cls.name.text}`.", "Give the second one another name.")
        argument = self.translator(scope, later).argument(definition.argument)
        if argument.is_range() and name not in planned.params:
            self.notes.refuse(
                definition.name.line,
                f"`{name}` has a range and is no parameter of `{cls.name.text}`.",
                f"Write `{name}` among the parameters.",
            )
        self.writer.argument(definition.argument, argument)
        self.writer.drop_properties(definition.properties, f"the definition `{name}`")
        for mark in definition.semicolons:
            self.writer.drop_mark(mark, "after a definition")
        planned.definitions.append((name, argument))
        scope[name] = definition_cannot_be_negative(argument.parts, scope, self.settings.values)

    def of_affinity(self, cls, planned, scope):
        if cls.affinity is None and not cls.is_broken:
            self.notes.refuse(
                cls.name.line,
                f"`{cls.name.text}` does not say where its tasks run.",
                "Write `: COLLECTION(indices)` after its definitions.",
            )
        if cls.affinity is None:
            return
        planned.affinity = self.translator(scope).target(cls.affinity)
        self.writer.drop_properties(cls.affinity.properties, f"the place of `{cls.name.text}`")
        self.flows.checker.collection(planned.affinity)

    def write_affinity(self, cls, planned):
        if cls.affinity is not None:
            planned.affinity = self.products.folded(planned.affinity)
            self.writer.target(cls.affinity, planned.affinity)

    def of_priority(self, cls, scope):
        """A priority is a hint: one that has no translation is dropped."""
        if cls.priority is None:
            return
        trial, before = type(self.notes)(), self.names.state()
        new = self.translator(scope, notes=trial).outermost(cls.priority.value)
        if trial.refusals() and not self.is_own:
            self.names.restore(before)
            why = next(text for kind, text in trial.said if kind == "refused")
            self.notes.dropped(cls.priority.mark.line, f"The priority of `{cls.name.text}`, a hint: {why}")
            self.writer.edits.comment(cls.priority.mark.start, cls.priority.end)
            return
        self.notes.take(trial)
        self.writer.expression(cls.priority.value, new)

    # Bodies.

    def of_bodies(self, cls, planned):
        if not cls.bodies:
            return
        numbers = self.names.all() - set(self.names.collections)
        own = [own_body(it.text.text, planned, numbers) for it in cls.bodies]
        for_host = [at for at, it in enumerate(cls.bodies) if not type_of_properties(it.properties)[1]]
        chosen = next((at for at, it in enumerate(own) if it), for_host[0] if for_host else 0)
        for at, body in enumerate(cls.bodies):
            if at != chosen:
                self.notes.dropped(body.begin.line, f"A further body of `{cls.name.text}`: the one in line {cls.bodies[chosen].begin.line} is taken.")
                self.writer.edits.comment(body.begin.start, body.end.end)
                continue
            self.writer.drop_properties(body.properties, f"a body of `{cls.name.text}`")
            if self.settings.bodies is None and own[at]:
                self.notes.kept(body.begin.line, f"The body of `{cls.name.text}` is in `ptg`'s language.")
                self.settings.need_elements(own[at].elements)
            else:
                self.write_body(planned, body)

    def write_body(self, planned, body):
        statements = []
        if self.settings.bodies != "none":
            statements, left_out = bodies.statements_of_stamp(planned, self.names.taken)
            for name in left_out:
                self.notes.decide(body.begin.line, f"The stamp of `{planned.name}` leaves `{name}` out: no body can name it.")
        self.has_stamps = self.has_stamps or bool(statements)
        old = body.text
        lines = bodies.laid_out(statements, old.text.count("\n") + 1)
        if old.text.replace("\r\n", "\n") == "\n".join(lines):
            return
        what = "stamps each tile that it writes" if statements else "is empty"
        self.notes.changed(body.begin.line, f"The body of `{planned.name}` {what}.")
        self.writer.edits.replace_lines(old.start, old.end, lines)

    # Globals.

    def of_globals(self):
        added, seen = self.names.added(), {}
        for it in self.file.globals:
            name = it.name.text
            self.writer.drop_properties(it.properties, f"the global `{name}`")
            if name in seen:
                self.notes.refuse(it.name.line, f"There is a global `{name}` in line {seen[name]} already.", "Remove one.")
            elif it.late:
                self.notes.changed(it.name.line, f"The global `{name}` stands before the first class now.")
                self.writer.edits.blank(it.name.start, it.name.end)
                added.append(name)
            seen.setdefault(name, it.name.line)
        if added and self.file.classes:
            self.add_globals(added)

    def add_globals(self, added):
        """Puts names behind the last global before the first class, in its line, or else before the first class."""
        early = [it.name for it in self.file.globals if not it.late]
        where = early[-1] if early else self.file.classes[0].name
        text = " ".join(added)
        if early:
            self.writer.edits.replace(where.end, where.end, f" {text}")
        else:
            self.writer.edits.replace(where.start, where.start, f"{text} ")
        self.notes.changed(where.line, f"Globals are declared here: {', '.join(f'`{it}`' for it in added)}.")
