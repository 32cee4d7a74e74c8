"""Bodies in `ptg`'s language that touch each flow as its kind allows.

A stamp writes to element 0 of each written tile a checksum of the class, the parameters and element 0 of each tile that came in. A value is
reduced modulo MODULUS before it is multiplied, and each weight is less than MODULUS: a product is less than 2^62, and a sum of it and a value
less than 2^31 fits 64 bits, whatever the tiles and the parameters are. A flow that may have no tile is read and written only where the guards
say that its source is not NULL."""
from parsec import rendering
from parsec.scanner import RESERVED

MODULUS = 2**31 - 1
BODY_WORDS = frozenset(("int", "if", "else", "for", "trap")) | RESERVED


def weight(text):
    """A number from 1 to MODULUS - 1 for a text."""
    value = 1
    for byte in text.encode("utf-8", "replace"):
        value = (value * 131 + byte) % MODULUS
    return value or 1


def fresh(name, taken):
    while name in taken:
        name += "_"
    return name


def statements_of_stamp(cls, taken):
    """The statements of a stamp for a class of the plan, and the names that can't stand in a body. Without data flows there are none."""
    data = [it for it in cls.flows if it.kind != "CTL"]
    left_out = sorted({it.name for it in data if it.name in BODY_WORDS} | {it for it in cls.params if it in BODY_WORDS})
    data = [it for it in data if it.name not in BODY_WORDS and not unnameable(it)]
    left_out += sorted(it.name for it in cls.flows if it.kind != "CTL" and it.name not in BODY_WORDS and unnameable(it))
    if not data:
        return [], left_out
    names = taken | cls.locals() | {it.name for it in cls.flows}
    total = fresh("sum", names)
    found = [f"int {total} = {weight('class ' + cls.name)};"]
    for name in cls.params:
        if name not in BODY_WORDS:
            found.append(f"{total} = ({total} + {name} % {MODULUS} * {weight('parameter ' + name)}) % {MODULUS};")
    for flow in data:
        if flow.kind in ("READ", "RW"):
            read = f"{total} = ({total} + {flow.name}[0] % {MODULUS} * {weight('flow ' + flow.name)}) % {MODULUS};"
            found.append(where_present(flow, read))
    for flow in data:
        if flow.kind in ("WRITE", "RW"):
            found.append(where_present(flow, f"{flow.name}[0] = {total} * {weight('to ' + flow.name)} % {MODULUS};"))
    return found, left_out


def unnameable(flow):
    """Whether a guard that says if the flow has a tile names what no body can name."""
    guards = [it.guard for it in flow.dependences if it.inward and it.guard is not None]
    return can_be_absent(flow) and any(set(words(rendering.shown(it))) & BODY_WORDS for it in guards)


def words(text):
    return "".join(it if it.isalnum() or it == "_" else " " for it in text).split()


def can_be_absent(flow):
    return any(it.inward and any(target.kind == "NULL" for target in it.targets()) for it in flow.dependences)


def where_present(flow, statement):
    """A statement that is run where the flow has a tile: where the first dependence after `<-` that holds does not name NULL."""
    if not can_be_absent(flow):
        return statement
    return present(tuple(it for it in flow.dependences if it.inward), statement)


def present(sources, statement):
    if not sources:
        return ""
    first, rest = sources[0], sources[1:]
    chosen = "" if first.yes.kind == "NULL" else statement
    if first.guard is None:
        return chosen
    if first.no is not None:
        other = "" if first.no.kind == "NULL" else statement
    else:
        other = present(rest, statement)
    if not chosen and not other:
        return ""
    guard = rendering.shown(first.guard.parts[0] if first.guard.kind == "paren" else first.guard)
    return f"if ({guard}) {{ {chosen} }}".replace("{  }", "{ }") + (f" else {{ {other} }}" if other else "")


def laid_out(statements, line_count):
    """A body in a span of so many lines, the first one behind BODY and the last one before END."""
    statements = [it for it in statements if it]
    if line_count == 1:
        return [f" {{ {' '.join(statements)} }} " if statements else " { } "]
    inner = line_count - 2
    if inner == 0:
        return [f" {{ {' '.join(statements)} }}" if statements else " { }", ""]
    if not statements:
        return ["", "{ }"] + [""] * (line_count - 2)
    if inner >= len(statements) + 2:
        lines = ["{"] + ["    " + it for it in statements] + ["}"]
    else:
        lines = statements[: inner - 1] + [" ".join(statements[inner - 1 :])]
        lines[0] = "{ " + lines[0]
        lines[-1] += " }"
    return [""] + lines + [""] * (line_count - 1 - len(lines))
