"""Dependences: indices become ranges, and targets that are nested become a dependence each."""
from dataclasses import replace

from parsec import rendering, signs
from parsec.notes import Fault
from parsec.plan import PlanDependence
from parsec.tree import Guarded, Node, Target

MOST_DEPENDENCES = 16


def negated(node):
    inner = node if node.kind in ("paren", "name", "number") else Node("paren", "(", node.line, node.start, node.end, [node])
    return Node("unary", "!", node.line, node.start, node.end, [inner])


def joined(left, right):
    if left is None or right is None:
        return left or right
    return Node("binary", "&&", left.line, left.start, right.end, [left, right])


def is_nested(what):
    return isinstance(what, Guarded) and isinstance(what.no, Guarded)


def cases_of(what):
    """Each target with the guard under which it is chosen."""
    found, before = [], None
    while isinstance(what, Guarded):
        found.append((joined(before, what.condition), what.yes))
        before = joined(before, negated(what.condition))
        what = what.no
    if what is not None:
        found.append((before, what))
    return found


def with_names(node, values):
    """An expression with expressions in the place of names."""
    if node.kind == "name":
        return values.get(node.text, node)
    parts = [with_names(it, values) for it in node.parts]
    if all(new is old for new, old in zip(parts, node.parts)):
        return node
    return Node(node.kind, node.text, node.line, node.start, node.end, parts, node.steps, node.fault)


def argument_with(argument, values):
    parts = [with_names(it, values) for it in argument.parts]
    return argument if all(new is old for new, old in zip(parts, argument.parts)) else replace(argument, parts=parts)


class Indices:
    """The indices of one dependence: names with their ranges, translated."""

    def __init__(self, indices, line):
        self.line, self.ranges, self.values = line, {}, {}
        for name, argument in indices:
            if argument.is_range():
                self.ranges[name] = argument
            else:
                part = argument.parts[0]
                plain = part.kind in ("name", "number", "paren")
                self.values[name] = part if plain else Node("paren", "(", part.line, part.start, part.end, [part])

    def check(self):
        """An index whose range names another one is no range of a target."""
        for name, argument in self.ranges.items():
            for other in sorted(set().union(*[signs.names_in(it) for it in argument.parts]) & set(self.ranges)):
                raise Fault(
                    self.line,
                    f"The range of the index `{name}` names the index `{other}`.",
                    "Write a dependence with ranges that do not depend on one another.",
                )

    def in_guard(self, node):
        node = with_names(node, self.values)
        for name in sorted(signs.names_in(node) & set(self.ranges)):
            raise Fault(node.line, f"The guard names the index `{name}` of the dependence.", "Write the range such that no guard on it is needed.")
        return node

    def in_target(self, target, inward, is_control):
        """A target with ranges in the place of indices."""
        if target.kind in ("NEW", "NULL"):
            return target
        used, arguments = {name: 0 for name in self.ranges}, []
        for argument in target.arguments:
            argument = argument_with(argument, self.values)
            names = [it for part in argument.parts for it in all_names(part)]
            for name in used:
                used[name] += names.count(name)
            whole = argument.parts[0].text if not argument.is_range() and argument.parts[0].kind == "name" else None
            arguments.append(replace(self.ranges[whole], start=argument.start, end=argument.end) if whole in self.ranges else argument)
            inside = sorted(set(names) & set(self.ranges)) if whole not in self.ranges else []
            if inside:
                raise Fault(
                    target.line,
                    f"The index `{inside[0]}` is a part of an argument.",
                    f"Write the range in its place: the values of `{rendering.shown_argument(argument)}`.",
                )
        self.check_use(target, used, inward, is_control)
        return Target(target.kind, target.flow, target.name, arguments, target.line, target.start, target.end, target.properties)

    def check_use(self, target, used, inward, is_control):
        for name, count in used.items():
            if count == 0:
                raise Fault(
                    target.line,
                    f"The index `{name}` stands in no argument of `{target.name.text}`: it would name one edge again and again.",
                    f"Remove `{name}`.",
                )
            if count > 1:
                raise Fault(
                    target.line,
                    f"The index `{name}` stands in {count} arguments of `{target.name.text}`: ranges would combine all their values.",
                    "Write a dependence for each value, or a class between.",
                )
        if used and target.kind == "element":
            raise Fault(
                target.line,
                f"A range of elements of `{target.name.text}`: `ptg` takes one element in a dependence.",
                "Write a dependence for each element.",
            )
        if used and inward and not is_control:
            raise Fault(
                target.line,
                "A data flow takes one tile: it has no range after `<-`.",
                "Write one source, or a CTL flow for the order alone.",
            )


def all_names(node):
    """The names of an expression, each as often as it stands there."""
    found = [node.text] if node.kind == "name" else []
    for part in node.parts:
        found += all_names(part)
    return found


def rendered(dependence):
    """A dependence of a plan as text."""
    arrow = "<-" if dependence.inward else "->"
    text = rendering.shown_target(dependence.yes)
    if dependence.guard is not None:
        text = f"{rendering.shown_guard(dependence.guard)} ? {text}"
    if dependence.no is not None:
        text += f" : {rendering.shown_target(dependence.no)}"
    return f"{arrow} {text}" + (f" [type = {dependence.kept_type}]" if dependence.kept_type else "")


def planned(what, inward, line):
    """The dependences of a plan that say what a tree says."""
    if is_nested(what):
        return [PlanDependence(inward, guard, target, None, line) for guard, target in cases_of(what)]
    if isinstance(what, Guarded):
        return [PlanDependence(inward, what.condition, what.yes, what.no, line)]
    return [PlanDependence(inward, None, what, None, line)]

