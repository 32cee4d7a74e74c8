"""Guards of out dependences that say whether the task they name exists, written on request."""
from dataclasses import replace

from parsec import rendering, signs
from parsec.dependences import joined, negated, with_names
from parsec.plan import PlanDependence
from parsec.tree import Node, Target


class NotGuarded(Exception):
    """Why no guard is written."""


def binary(operator, left, right):
    return Node("binary", operator, left.line, left.start, right.end, [left, right])


def number(value, node):
    return Node("number", str(value), node.line, node.start, node.end)


def in_parentheses(node):
    return node if node.kind in ("name", "number", "paren") else Node("paren", "(", node.line, node.start, node.end, [node])


class Space:
    """The parameters of the class that a target names, as expressions of the class that names it; and the conditions that hold already."""

    def __init__(self, sender, receiver, known):
        self.sender, self.receiver, self.known = sender, receiver, known
        self.values, self.ranged, self.conditions = {}, set(), []

    def guard_and_arguments(self, target):
        """The guard that says that the target exists, or None; and its arguments, with ranges that are cut."""
        arguments = dict(zip(self.receiver.params, target.arguments))
        for name, definition in self.receiver.definitions:
            parts = [self.seen_from_sender(it) for it in definition.parts]
            if name not in arguments:
                self.values[name] = in_parentheses(parts[0])
            elif arguments[name].is_range():
                arguments[name] = self.cut(name, arguments[name], parts)
                self.ranged.add(name)
            else:
                self.add_conditions(arguments[name].parts[0], parts)
                self.values[name] = in_parentheses(arguments[name].parts[0])
        guard = None
        for condition in self.conditions:
            if rendering.shown(condition) not in self.known:
                guard = joined(guard, condition)
        return guard, [arguments[it] for it in self.receiver.params]

    def seen_from_sender(self, node):
        names = signs.names_in(node)
        if names & self.ranged:
            raise NotGuarded(f"the range of a parameter depends on `{min(names & self.ranged)}`, which is a range here")
        hidden = (names - self.receiver.locals()) & self.sender.locals()
        if hidden:
            raise NotGuarded(f"`{min(hidden)}` is a global there and a definition here")
        return with_names(node, self.values)

    def add_conditions(self, value, parts):
        if len(parts) == 1:
            self.add("==", value, parts[0])
            return
        step = signs.constant(parts[2]) if len(parts) == 3 else 1
        if not step:
            raise NotGuarded("the step of a range is no number")
        low, high = (parts[0], parts[1]) if step > 0 else (parts[1], parts[0])
        self.add(">=", value, low)
        self.add("<=", value, high)
        if abs(step) > 1 and rendering.shown(value) != rendering.shown(parts[0]):
            self.conditions.append(binary("==", binary("%", binary("-", value, parts[0]), number(abs(step), value)), number(0, value)))

    def add(self, operator, value, bound):
        """Adds a comparison that is not plainly so."""
        if rendering.shown(value) == rendering.shown(bound) or self.is_known(operator, value, bound):
            return
        self.conditions.append(binary(operator, value, bound))

    def is_known(self, operator, value, bound):
        """Whether the value is a definition of the sender by a range with this very bound."""
        own = dict(self.sender.definitions).get(value.text) if value.kind == "name" else None
        if own is None or not own.is_range() or len(own.parts) == 3:
            return False
        return rendering.shown(own.parts[0 if operator == ">=" else 1]) == rendering.shown(bound) and operator != "=="

    def cut(self, name, argument, parts):
        """A range of an argument, cut to the range of the parameter."""
        if len(argument.parts) == 3 or len(parts) != 2:
            raise NotGuarded(f"the range for `{name}` and that of the parameter are not both upward by 1")
        low, high = argument.parts
        new_low, new_high = self.chosen("<", low, parts[0]), self.chosen(">", high, parts[1])
        return argument if (new_low, new_high) == (low, high) else replace(argument, parts=[new_low, new_high])

    def chosen(self, operator, value, bound):
        """The bound where the value is beyond it."""
        if rendering.shown(value) == rendering.shown(bound):
            return value
        condition = binary(operator, value, bound)
        choice = Node("choice", "?", value.line, value.start, value.end, [condition, bound, value])
        return Node("paren", "(", value.line, value.start, value.end, [choice])


def guarded(plan, sender, dependence, notes):
    """The dependences in the place of one out dependence, each target with its guard; the same one where none is needed."""
    found, changed = [], False
    cases = [(dependence.guard, dependence.yes)]
    if dependence.no is not None:
        cases.append((negated(dependence.guard), dependence.no))
    for condition, target in cases:
        new_guard, new_target = guard_of(plan, sender, target, dependence.line, notes, terms_of(condition))
        changed = changed or new_guard is not None or new_target is not target
        found.append(PlanDependence(False, and_also(condition, new_guard), new_target, None, dependence.line, dependence.kept_type))
    return found if changed else [dependence]


def and_also(condition, guard):
    if condition is None or guard is None:
        return condition or guard
    # (a chain of `&&` is joined from its first condition on, so that it needs no further parentheses)
    if guard.kind == "binary" and guard.text == "&&":
        return joined(and_also(condition, guard.parts[0]), guard.parts[1])
    return joined(condition, guard)


def terms_of(condition):
    """The conditions that are joined by `&&`, as texts."""
    if condition is None:
        return set()
    if condition.kind == "paren":
        return terms_of(condition.parts[0])
    if condition.kind == "binary" and condition.text == "&&":
        return terms_of(condition.parts[0]) | terms_of(condition.parts[1])
    return {rendering.shown(condition)}


def guard_of(plan, sender, target, line, notes, known):
    receiver = plan.class_named(target.name.text) if target.kind == "task" else None
    if receiver is None or len(receiver.params) != len(target.arguments):
        return None, target
    try:
        guard, arguments = Space(sender, receiver, known).guard_and_arguments(target)
    except NotGuarded as why:
        notes.decide(line, f"No guard is written for `{rendering.shown_target(target)}`: {why}.")
        return None, target
    same = all(new is old for new, old in zip(arguments, target.arguments))
    new = target if same else Target(target.kind, target.flow, target.name, arguments, target.line, target.start, target.end)
    if guard is not None:
        notes.changed(line, f"The guard `{rendering.shown(guard)}` is written for `{rendering.shown_target(target)}`, by --guard-ranges.")
    if not same:
        notes.changed(line, f"`{rendering.shown_target(target)}` is cut to `{rendering.shown_target(new)}`, by --guard-ranges.")
    return guard, new
