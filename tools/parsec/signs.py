"""Whether an expression can't be negative, by its form and the ranges of the definitions that it names."""


def cannot_be_negative(node, scope, values):
    """`scope` has the definitions that can't be negative as true, `values` what is known of the globals."""
    kind, parts = node.kind, node.parts
    if kind == "number":
        return True
    if kind == "name":
        return scope[node.text] if node.text in scope else values.get(node.text, -1) >= 0
    if kind == "paren":
        return cannot_be_negative(parts[0], scope, values)
    if kind == "choice":
        return all(cannot_be_negative(it, scope, values) for it in parts[1:])
    if kind == "unary":
        return node.text == "!"
    if kind == "binary" and node.text == "%":
        return cannot_be_negative(parts[0], scope, values)
    if kind == "binary" and node.text in ("+", "*", "/"):
        return all(cannot_be_negative(it, scope, values) for it in parts)
    return kind == "binary" and node.text != "-"


def definition_cannot_be_negative(parts, scope, values):
    """The same of a definition: an expression or a range."""
    if len(parts) == 1:
        return cannot_be_negative(parts[0], scope, values)
    step = constant(parts[2]) if len(parts) == 3 else 1
    if step is None or step == 0:
        return False
    # (an upward range has nothing less than its first part, a downward one nothing less than its second)
    return cannot_be_negative(parts[0] if step > 0 else parts[1], scope, values)


def constant(node):
    """The value of a number with or without a minus, or None."""
    if node.kind == "number" and node.text.isdigit():
        return int(node.text)
    if node.kind == "paren":
        return constant(node.parts[0])
    if node.kind == "unary" and node.text == "-":
        inner = constant(node.parts[0])
        return None if inner is None else -inner
    return None


def names_in(node):
    """All names of an expression."""
    if node.kind == "name":
        return {node.text}
    found = set()
    for part in node.parts:
        found |= names_in(part)
    for mark, what in node.steps:
        for part in what if mark == "(" else [what] if mark == "[" else []:
            found |= names_in(part)
    return found
