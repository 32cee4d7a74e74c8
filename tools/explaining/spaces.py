"""The spaces of a job's classes: which ranges are large, and which leave no task."""
from bodies import TooLong, Work, leaves_of
from expressions import Fault, Range, Unreadable, value
from jdf_text import spelled
from values import evaluation_of, parts_of

MOST_SHOWN = 4
# This many values are gone through to find a task.
MOST_STEPS = 200_000
MOST_SECONDS = 5
# Files of more bytes are not looked at after a run that succeeded.
MOST_BYTES = 1 << 20


def plural(count, one):
    return f"{count:,} {one}" + ("" if count == 1 else "s")


def given_in(job, leaves):
    """The values of names, with the lines of the data that give them."""
    given = {it.fields[1].spelled(): it.fields[0].line for it in job.records if it.word() == "int" and len(it.fields) > 1}
    return ", ".join(f"{name} = {number}" + (f" ({job.data_name}:{given[name]})" if name in given else "") for name, number in leaves)


def constants(cls, integers):
    """The definitions of a class, each with the names that have one value for all tasks, and the number of its values where that is so too."""
    names, found = dict(integers), []
    for (name, what), token in zip(cls.definitions(), cls.outline.definitions):
        count = None
        try:
            if isinstance(what, Range):
                count = size_of(what.values(names))
            else:
                names[name] = value(what, names)
        except (Fault, Unreadable):
            names.pop(name, None)
        if isinstance(what, Range):
            names.pop(name, None)
        found.append((token, what, dict(names), count))
    return found


def size_of(values):
    """The number of values of a range, which may be more than `len` can give."""
    return (abs(values.stop - values.start) - 1) // abs(values.step) + 1 if values else 0


def ranges(job, name):
    """The ranges of a class, each with a sentence on its values; the largest one comes first in the second result."""
    evaluation = evaluation_of(job)
    if evaluation is None:
        return [], None
    try:
        found = [it for it in constants(evaluation.class_named(name), evaluation.integers) if isinstance(it[1], Range)]
    except (Unreadable, RecursionError):
        return [], None
    lines = []
    for token, what, names, count in found[:MOST_SHOWN]:
        leaves = leaves_of(parts_of(what), names)
        where = f", with {given_in(job, leaves)}" if leaves else ""
        values = plural(count, "value") if count is not None else "a number of values that depends on the task"
        lines.append(f"Line {token.line}: `{token.text} = {spelled(what.tokens)}` has {values}{where}.")
    largest = max(found, key=lambda it: it[3] or 0, default=None)
    return lines, largest[0] if largest else None


def has_task(cls, integers, work):
    """Whether a class has a task."""
    definitions = cls.definitions()

    def from_here(at, names):
        work.take(1)
        if at == len(definitions):
            return True
        name, what = definitions[at]
        if not isinstance(what, Range):
            return from_here(at + 1, {**names, name: value(what, names)})
        return any(from_here(at + 1, {**names, name: number}) for number in what.values(names))

    return from_here(0, integers)


def why_none(job, cls, integers):
    """Why a class has no task: its first range that is empty for all of them, or a plain sentence."""
    name = cls.outline.name.text
    for token, what, names, count in constants(cls, integers):
        if count == 0:
            values = what.values(names)
            low, high = values.start, values.stop - (1 if values.step > 0 else -1)
            leaves = leaves_of(parts_of(what), names)
            where = f", with {given_in(job, leaves)}" if leaves else ""
            return token.at(), f"{name} has none, since `{token.text} = {spelled(what.tokens)}` runs from {low} to {high}{where}"
    return cls.outline.name.at(), f"{name} has none, since its ranges are empty"


def notes_of_none(job):
    """The places and sentences on a job that has no task; none where it has one, or where that is not found out."""
    evaluation = evaluation_of(job) if len(job.jdf) + len(job.data) <= MOST_BYTES else None
    if evaluation is None:
        return []
    work = Work(MOST_STEPS, MOST_SECONDS)
    try:
        classes = [evaluation.class_named(it.name.text) for it in job.outline.classes]
        if any(has_task(it, evaluation.integers, work) for it in classes):
            return []
        return [why_none(job, it, evaluation.integers) for it in classes]
    except (TooLong, Unreadable, Fault, RecursionError):
        return []
