"""The flows of a file: their dependences are translated, joined with their types, and written."""
from parsec import dependences, guard_ranges
from parsec.checking import Checker
from parsec.dependences import MOST_DEPENDENCES, Indices
from parsec.notes import Fault
from parsec.plan import PlanFlow
from parsec.signs import definition_cannot_be_negative
from parsec.tile_types import kept_types
from parsec.tree import Guarded

NOT_ONE_TYPE = "not all dependences of its flow, and of the flows and collections that it meets, have this one type"


class Flows:
    """`translator_of(scope)` gives the translator of expressions."""

    def __init__(self, file, names, settings, notes, writer, translator_of):
        self.file, self.settings, self.notes, self.writer, self.translator_of = file, settings, notes, writer, translator_of
        self.types, self.checker = kept_types(file), Checker(file, names, notes, writer.is_own)
        # each dependence of the tree with the class, the flow and the dependences of the plan, and whether it is written as a whole
        self.found = []

    def of_class(self, cls, planned):
        scope = {}
        for name, argument in planned.definitions:
            scope[name] = definition_cannot_be_negative(argument.parts, scope, self.settings.values)
        for flow in cls.flows:
            if flow.access is None:
                self.notes.decide(flow.name.line, f"The flow `{flow.name.text}` has no access word: it is RW now.")
                self.writer.edits.replace(flow.name.start, flow.name.start, "RW ")
            new = PlanFlow(flow.kind(), flow.name.text, flow.name.line)
            planned.flows.append(new)
            for dependence in flow.dependences:
                try:
                    self.of_dependence(planned, flow, new, dependence, scope)
                except Fault as fault:
                    self.notes.refuse_fault(fault)

    def of_dependence(self, planned, flow, new_flow, dependence, scope):
        what, is_whole = self.translated_dependence(flow, dependence, scope)
        rows = dependences.planned(what, dependence.inward(), dependence.line)
        kept = self.types.get((planned.name, flow.name.text)) if flow.kind() != "CTL" else None
        for row in rows:
            row.kept_type = kept
            for target in row.targets():
                self.checker.target(flow, target, dependence.inward())
        new_flow.dependences += rows
        self.say_properties(dependence, flow, kept)
        self.found.append([dependence, planned, new_flow, rows, is_whole])

    def translated_dependence(self, flow, dependence, scope):
        """What a dependence says, without indices; and whether its form changes."""
        own_scope, indices = dict(scope), []
        for index in dependence.indices:
            argument = self.translator_of(own_scope).argument(index.argument)
            indices.append((index.name.text, argument))
            own_scope[index.name.text] = definition_cannot_be_negative(argument.parts, own_scope, self.settings.values)
        what = self.translated(dependence.what, self.translator_of(own_scope))
        if indices:
            found = Indices(indices, dependence.line)
            found.check()
            what = self.without_indices(what, found, dependence.inward(), flow.kind() == "CTL")
            self.notes.changed(
                dependence.line,
                f"The indices of the dependence are {'ranges of its target' if found.ranges else 'put into its target'}.",
            )
        is_nested = dependences.is_nested(dependence.what)
        if is_nested:
            self.notes.changed(dependence.line, "Targets that are nested are a dependence each, with joined guards.")
        return what, bool(indices) or is_nested

    def translated(self, what, translator):
        if isinstance(what, Guarded):
            no = self.translated(what.no, translator) if what.no else None
            return Guarded(translator.outermost(what.condition), self.translated(what.yes, translator), no)
        return translator.target(what)

    def without_indices(self, what, indices, inward, is_control):
        if isinstance(what, Guarded):
            no = self.without_indices(what.no, indices, inward, is_control) if what.no else None
            return Guarded(indices.in_guard(what.condition), self.without_indices(what.yes, indices, inward, is_control), no)
        return indices.in_target(what, inward, is_control)

    def say_properties(self, dependence, flow, kept):
        """Says what becomes of the properties of a dependence."""
        for group in [it for target in dependence.targets() for it in target.properties] + dependence.properties:
            for it in group.items:
                if it.key != "type":
                    self.notes.dropped(it.line, f"`[{it.key} = ..]` of a dependence: a tile is sent whole.")
            found = group.value("type")
            text = "".join(it.text for it in found.tokens) if found else "DEFAULT"
            if text == "DEFAULT":
                continue
            if flow.kind() == "CTL":
                self.notes.dropped(group.line, f"`[type = {text}]` of a CTL flow, which has no tile.")
            elif not kept:
                self.notes.changed(group.line, f"`[type = {text}]` is the default type: {NOT_ONE_TYPE}.")
            elif text.startswith('"'):
                self.notes.changed(group.line, f"`[type = {text}]` is `[type = {kept}]`.")

    def guard_ranges(self, plan):
        """Writes guards for out dependences to tasks that may not exist."""
        for it in self.found:
            dependence, planned, flow, rows, _ = it
            if dependence.inward():
                continue
            new = [row for one in rows for row in guard_ranges.guarded(plan, planned, one, self.notes)]
            if len(new) != len(rows) or any(one is not other for one, other in zip(new, rows)):
                start = next(at for at, one in enumerate(flow.dependences) if one is rows[0])
                flow.dependences[start : start + len(rows)] = new
                it[3:] = [new, True]

    def check_counts(self, plan):
        for cls in plan.classes:
            for flow in cls.flows:
                count = len(flow.dependences)
                if count > MOST_DEPENDENCES:
                    self.notes.refuse(
                        flow.line,
                        f"The flow `{flow.name}` has {count} dependences; `ptg` takes at most {MOST_DEPENDENCES}.",
                        "Write ranges, or make two flows.",
                    )

    def write(self, products):
        for old, _, _, rows, is_whole in self.found:
            for it in rows:
                it.yes, it.no = products.folded(it.yes), products.folded(it.no) if it.no else None
            if is_whole:
                self.writer.whole_dependence(old, rows)
            else:
                self.writer.dependence_in_place(old, rows[0])
