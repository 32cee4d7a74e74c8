"""The values of a plan's expressions, and the places that a task names."""


class NoValue(Exception):
    """An expression has no value: it overflows, divides by 0, or names what is not known."""


def value_of(node, names):
    kind, parts = node.kind, node.parts
    if kind == "number":
        return int(node.text)
    if kind == "name":
        if node.text not in names:
            raise NoValue
        return names[node.text]
    if kind == "paren":
        return value_of(parts[0], names)
    if kind == "choice":
        return value_of(parts[1] if value_of(parts[0], names) else parts[2], names)
    if kind == "unary":
        inner = value_of(parts[0], names)
        return fitting(-inner) if node.text == "-" else int(not inner)
    if kind != "binary":
        raise NoValue
    left = value_of(parts[0], names)
    if node.text in ("&&", "&"):
        return int(bool(left and value_of(parts[1], names)))
    if node.text in ("||", "|"):
        return int(bool(left or value_of(parts[1], names)))
    return of_operator(node.text, left, value_of(parts[1], names))


def fitting(value):
    if not -(2**63) <= value < 2**63:
        raise NoValue
    return value


def of_operator(operator, left, right):
    if operator in ("/", "%"):
        if right == 0:
            raise NoValue
        quotient = fitting(abs(left) // abs(right) * (1 if (left < 0) == (right < 0) else -1))
        return quotient if operator == "/" else left - quotient * right
    return {
        "+": lambda: fitting(left + right),
        "-": lambda: fitting(left - right),
        "*": lambda: fitting(left * right),
        "==": lambda: int(left == right),
        "!=": lambda: int(left != right),
        "<": lambda: int(left < right),
        "<=": lambda: int(left <= right),
        ">": lambda: int(left > right),
        ">=": lambda: int(left >= right),
    }[operator]()


def names_of_task(cls, params, values):
    """The values of all names in a task of a class."""
    names = dict(values)
    given = dict(zip(cls.params, params))
    for name, argument in cls.definitions:
        names[name] = given[name] if name in given else value_of(argument.parts[0], names)
    return names


def places_of(target, names):
    if target is None or target.kind != "element":
        return []
    return [(target.name.text, [value_of(it.parts[0], names) for it in target.arguments])]


def places_of_task(cls, params, flow_name, values):
    """The places that a task names in its affinity (flow `-`) or in the active dependences of a flow."""
    names = names_of_task(cls, params, values)
    if flow_name == "-":
        return places_of(cls.affinity, names)
    flow = next(it for it in cls.flows if it.name == flow_name)
    found = []
    inward_done = False
    for it in [one for one in flow.dependences if one.inward] + [one for one in flow.dependences if not one.inward]:
        if it.inward and inward_done:
            continue
        chosen = it.yes if it.guard is None or value_of(it.guard, names) else it.no
        if chosen is not None:
            inward_done = it.inward
            found += places_of(chosen, names)
    return found
