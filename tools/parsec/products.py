"""Collections of three and more indices: the last ones become one, by their sizes."""
from parsec.tree import Argument, Node, Target


def paren(node):
    return node if node.kind in ("name", "number", "paren") else Node("paren", "(", node.line, node.start, node.end, [node])


def binary(operator, left, right):
    return Node("binary", operator, left.line, left.start, right.end, [left, right])


class Products:
    """The globals that hold the sizes of the last indices, for each collection of three and more."""

    def __init__(self, names, settings, notes):
        self.names, self.settings, self.notes = names, settings, notes
        self.sizes = {}

    def find(self):
        for name, (count, line) in list(self.names.collections.items()):
            if count > 2:
                self.add(name, count, line)

    def add(self, name, count, line):
        given = self.settings.sizes.get(name)
        form = "x".join("N" * count)
        if given is not None and len(given) != count:
            self.notes.refuse(
                line,
                f"`{name}` has {count} indices, and --set gives {len(given)} sizes.",
                f"Write --set {name}={form} with {count} numbers.",
            )
            given = None
        inner = [self.names.global_for(f"size {at} of {name}", f"{name}_size_{at}") for at in range(3, count + 1)]
        self.sizes[name] = inner
        for at, it in enumerate(inner, 2):
            if given:
                self.settings.values.setdefault(it, given[at])
        self.notes.changed(
            line,
            f"`{name}` has {count} indices: the last {count - 1} are one, with the sizes {', '.join(f'`{it}`' for it in inner)}.",
        )
        missing = [it for it in inner if it not in self.settings.values]
        if missing:
            self.notes.decide(
                line,
                f"The last sizes of `{name}` are not known: --set {name}={form} gives all its sizes, or --set {missing[0]}=VALUE this one.",
            )

    def folded(self, target):
        """An element with two indices in the place of more. An index outside of its size is no place at all."""
        inner = self.sizes.get(target.name.text) if target.kind == "element" else None
        if not inner or len(target.arguments) != len(inner) + 2:
            return target
        first, *rest = [it.parts[0] for it in target.arguments]
        value, outside = paren(rest[0]), None
        for node, name in zip(rest[1:], inner):
            size = Node("name", name, node.line, node.start, node.end)
            value = binary("+", binary("*", paren(value), size), paren(node))
            low = binary("<", paren(node), Node("number", "0", node.line, node.start, node.end))
            out = binary("||", low, binary(">=", paren(node), size))
            outside = binary("||", outside, out) if outside else out
        minus = Node("unary", "-", value.line, value.start, value.end, [Node("number", "1", value.line, value.start, value.end)])
        folded = Node("choice", "?", value.line, value.start, value.end, [outside, minus, value])
        second = Argument([folded], target.arguments[1].line, target.arguments[1].start, target.arguments[-1].end)
        return Target(target.kind, target.flow, target.name, [target.arguments[0], second], target.line, target.start, target.end, target.properties)
