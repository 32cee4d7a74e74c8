"""Sentences on the values of a job: of the names in an expression, and why an expression has none."""
from bodies import leaves_of
from evaluate import Evaluation, TaskClass, dependence_of
from expressions import Fault, Range, Unreadable, argument, Reader, value
from jdf_text import spelled

MOST_VALUES = 6


def evaluation_of(job):
    """The evaluation of a job, or None where something of it can't be read."""
    try:
        return Evaluation(job.outline, job.records)
    except (Unreadable, RecursionError, IndexError):
        return None


def where(leaves):
    """The values of names, as the end of a sentence."""
    shown = ", ".join(f"{name} = {number}" for name, number in leaves[:MOST_VALUES])
    return f", with {shown}" if leaves else ""


def arithmetic(fault, leaves):
    """Why an operation has no value."""
    text = spelled(fault.node.tokens)
    if fault.cause == "step":
        return "the step is 0" if text == "0" else f"the step `{text}` is 0{where(leaves)}"
    if fault.node.op == "minus":
        return f"`{text}` is -({fault.values[0]}), which does not fit 64 bits{where(leaves)}"
    left, right = (f"({it})" if it < 0 else str(it) for it in fault.values)
    computed = f"{left} {fault.node.op} {right}"
    if fault.cause == "overflow":
        return f"`{text}` does not fit 64 bits" if text == computed else f"`{text}` is {computed}, which does not fit 64 bits{where(leaves)}"
    return f"`{text}` divides by 0" if text == computed else f"`{text}` is {computed}, a division by 0{where(leaves)}"


def parts_of(what):
    """The expressions of an expression or a range."""
    return [it for it in (what.low, what.high, what.step) if it] if isinstance(what, Range) else [what]


def no_value(what, names, shown=None):
    """Why an expression or a range has no value, or nothing where it has one. The values of names are shown, or of these alone."""
    try:
        if isinstance(what, Range):
            what.values(names)
        else:
            value(what, names)
    except Fault as fault:
        return arithmetic(fault, [it for it in leaves_of([fault.node], names) if shown is None or it[0] in shown])
    return ""


def of_definition(job, name, number, numbers):
    """Why a definition has no value after those before it, or nothing where that is not found out."""
    evaluation = evaluation_of(job)
    try:
        definitions = evaluation.class_named(name).definitions() if evaluation else []
        names = dict(evaluation.integers) if evaluation else {}
        known = {it[0]: int(given) for it, given in zip(definitions, numbers)}
        names.update(known)
        return no_value(definitions[number][1], names, set(names) - set(known)) if number < len(definitions) else ""
    except (Unreadable, ValueError, RecursionError):
        return ""


def names_of_task(job, task):
    """The values of the names of a task, or None where that is not found out."""
    evaluation = evaluation_of(job)
    try:
        return evaluation.names((task[0], *(int(it) for it in task[1:]))) if evaluation else None
    except (Unreadable, Fault, ValueError, RecursionError):
        return None


def of_dependence(job, task, dependence):
    """Why an expression that a dependence needs has no value for a task, or nothing where that is not found out."""
    names = names_of_task(job, task)
    try:
        it = dependence_of(dependence)
        if names is None:
            return ""
        found = no_value(it.guard, names) if it.guard else ""
        if found:
            return found
        target = it.target(names)
        return next((said for said in (no_value(that, names) for that in (target.arguments if target else [])) if said), "")
    except (Unreadable, RecursionError):
        return ""


def of_hints(job, task, cls):
    """Whether the place or the priority of a task has no value, where it stands, and why; or nothing."""
    names = names_of_task(job, task)
    try:
        for what, token, tokens in (("place", cls.affinity, cls.place[2:-1]), ("priority", cls.priority, cls.urgency)):
            reader = Reader(tokens)
            while names is not None and not reader.is_over():
                why = no_value(argument(reader), names)
                if why:
                    return what, token.at(), why
                if not reader.is_over():
                    reader.take(",")
    except (Unreadable, RecursionError):
        pass
    return None


def of_guards(job, task, flow):
    """A sentence on each guard of a flow's in dependences, none of which holds for a task."""
    names = names_of_task(job, task)
    cls = job.outline.class_named(task[0])
    found = next((it for it in TaskClass(cls).outline.flows if it.name.text == flow), None) if cls else None
    lines = []
    try:
        for that in found.dependences if names is not None and found else []:
            guard = dependence_of(that).guard if that.inward() else None
            if guard and value(guard, names) == 0:
                lines.append(f"Line {that.arrow.line}: `{spelled(guard.tokens)}` does not hold{where(leaves_of([guard], names))}.")
    except (Unreadable, Fault, RecursionError):
        return []
    return lines
