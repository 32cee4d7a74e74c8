"""Expressions, arguments, targets and dependences as text of `ptg`'s JDF."""
LEVELS = {"||": 1, "|": 1, "&&": 2, "&": 2, "==": 3, "!=": 3, "<": 4, "<=": 4, ">": 4, ">=": 4, "+": 5, "-": 5, "*": 6, "/": 6, "%": 6}
UNARY, PRIMARY = 7, 8


def level_of(node):
    if node.kind == "choice":
        return 0
    if node.kind == "binary":
        return LEVELS[node.text]
    return UNARY if node.kind == "unary" else PRIMARY


def shown(node, least=0):
    """An expression, in parentheses where it binds less than `least`."""
    text = plain(node)
    return f"({text})" if level_of(node) < least else text


def plain(node):
    if node.kind in ("name", "number"):
        return node.text
    if node.kind == "paren":
        return f"({shown(node.parts[0])})"
    if node.kind == "unary":
        inner = shown(node.parts[0], UNARY)
        return node.text + (f"({inner})" if inner.startswith("-") and node.text == "-" else inner)
    if node.kind == "binary":
        level = level_of(node)
        left, right = shown(node.parts[0], level), shown(node.parts[1], level + 1)
        # (`a<-1` would be an arrow, and a minus behind a minus is hard to read)
        right = f"({right})" if right.startswith("-") else right
        return f"{left} {node.text} {right}" if level < 6 else f"{left} {node.text} {right}"
    condition, yes, no = node.parts
    return f"{shown(condition, 1)} ? {shown(yes)} : {shown(no)}"


def shown_argument(argument):
    return " .. ".join(shown(it) for it in argument.parts)


def shown_target(target):
    if target.kind in ("NEW", "NULL"):
        return target.kind
    flow = f"{target.flow.text} " if target.flow else ""
    return f"{flow}{target.name.text}({', '.join(shown_argument(it) for it in target.arguments)})"


def shown_guard(node):
    """A guard in parentheses."""
    return plain(node) if node.kind == "paren" else f"({shown(node)})"


def token_count(text):
    """How many tokens a rendered expression has: marks stand apart from names by their letters."""
    count, inside = 0, False
    at = 0
    while at < len(text):
        word = text[at].isalnum() or text[at] == "_"
        if word:
            count += not inside
        elif not text[at].isspace():
            count += 1
            at += text[at : at + 2] in ("==", "!=", "<=", ">=", "&&", "||", "..")
        inside = word
        at += 1
    return count
