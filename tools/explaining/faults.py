"""What an inconsistency comes from: the dependence, the other end, and why. The graph says what dependences name, and the outline where they stand."""
from dataclasses import dataclass, field

import values
from data_text import whole
from graph import Tie, Unknown
from jdf_text import spelled as spelled_tokens
from jobs import task as shown_task

# This many dependences of the other end are shown.
MOST_SHOWN = 4
# What comes where the graph is not to be had, or its program prints something else.
NO_GRAPH = (Unknown, ValueError, IndexError, KeyError, AttributeError)


@dataclass
class Reason:
    at: tuple
    sentence: str
    more: list = field(default_factory=list)


class Fault:
    """An inconsistency, with what is known of the job."""

    def __init__(self, job, graph, code, name, flow):
        self.job, self.graph, self.code, self.name, self.flow = job, graph, code, name, flow
        self.task = graph.task(name)

    def who(self):
        return shown_task(self.name) + ("" if self.flow == "-" else f", flow {self.flow}")

    def reason(self, tie, sentence, more=()):
        """A reason at the dependence of a tie of the task."""
        it = dependence_of(self.job.outline, self.name[0], tie)
        text = f"`{spelled(it)}`" if it else f"the dependence in line {tie.line}"
        return Reason(place_of(self.job.outline, self.name[0], tie), f"{self.who()}: {text} {sentence}", list(more))


def dependences(outline, cls, flow):
    found = outline.class_named(cls)
    return next((it.dependences for it in found.flows if it.name.text == flow), []) if found else []


def dependence_of(outline, cls, tie):
    """The dependence of a class that a tie comes from."""
    found = dependences(outline, cls, tie.flow)
    return found[tie.number - 1] if tie.number <= len(found) else None


def place_of(outline, cls, tie):
    """Where it stands."""
    it = dependence_of(outline, cls, tie)
    return it.arrow.at() if it else (tie.line, 1)


def spelled(dependence):
    """A dependence as it stands in the text, without its comments and its line feeds."""
    return spelled_tokens([dependence.arrow] + dependence.tokens)


def place(far):
    return f"{far[0]}({', '.join(far[1:])})"


def named(tie):
    """What a tie names."""
    if tie.is_edge():
        return f"{tie.far_flow()} of {shown_task(tie.far_task())}"
    return place(tie.far) if tie.is_place() else tie.what.upper()


def why_no_task(graph, name):
    """Why a job has no such task."""
    line = graph.why_none(name)
    if line is None:
        return "which does not exist"
    word, number, local = line[:3]
    if word == "value":
        return f"but {local} is {line[3]} there (line {number})"
    if word == "faulty":
        return f"but {local} has no value there (line {number})"
    low, high, step = (int(it) for it in line[3:6])
    if low > high if step > 0 else low < high:
        return f"but {local} has no values there, from {low} to {high} (line {number})"
    return f"but {local} runs from {low} to {high}{'' if step == 1 else f' by {step}'} (line {number})"


def out_of_space(it):
    for tie in it.task.into(it.flow) + it.task.out(it.flow):
        if tie.is_edge() and it.graph.task(tie.far_task()) is None:
            return it.reason(tie, f"names {shown_task(tie.far_task())}, {why_no_task(it.graph, tie.far_task())}.")
    return None


def is_answered(it, tie, answers):
    """Whether one of these ties of the other end names this end."""
    return any(other.far_task() == it.name and other.far_flow() == tie.flow for other in answers if other.is_edge())


def answers(it, tie, inward):
    """The dependences of the other end that could name this end, each with what it names there."""
    cls, flow = tie.far[1], tie.far_flow()
    far = it.graph.task(tie.far_task())
    ties = far.into(flow) if inward else far.out(flow)
    arrow, other = ("<-", "of") if inward else ("->", "to")
    could = [(number, that) for number, that in enumerate(dependences(it.job.outline, cls, flow), 1) if that.inward() == inward and names_class(that, it.name[0])]
    if not could:
        return [f"No `{arrow}` of the flow {flow} of {cls} names {tie.flow} {other} {it.name[0]}."]
    lines = []
    if len(could) == 1 and inward and tie.kind != "CTL" and any(other.number == could[0][0] for other in ties):
        return lines  # (the sentence has it)
    for number, that in could[:MOST_SHOWN]:
        names = [named(tie) for tie in ties if tie.number == number]
        more = f", and {len(names) - MOST_SHOWN} more" if len(names) > MOST_SHOWN else ""
        what = f"names {', '.join(names[:MOST_SHOWN])}{more}" if names else "is not active, or names no task"
        lines.append(f"Line {that.arrow.line}: `{spelled(that)}` {what} in {shown_task(tie.far_task())}.")
    return lines


def names_class(dependence, cls):
    return any(it.text == cls for it in dependence.tokens)


def no_matching_out(it):
    for tie in it.task.into(it.flow):
        far = it.graph.task(tie.far_task()) if tie.is_edge() else None
        if far and not is_answered(it, tie, far.out(tie.far_flow())):
            return it.reason(tie, f"takes {named(tie)}, which does not send it here.", answers(it, tie, False))
    return None


def no_matching_in(it):
    for tie in it.task.out(it.flow):
        far = it.graph.task(tie.far_task()) if tie.is_edge() else None
        if far is None or is_answered(it, tie, far.into(tie.far_flow())):
            continue
        taken = far.into(tie.far_flow())
        if tie.kind == "CTL":
            does = "does not wait for it"
        else:
            does = f"takes its tile from {named(taken[0])} (line {taken[0].line})" if taken else "takes no tile"
        return it.reason(tie, f"sends to {named(tie)}, which {does}.", answers(it, tie, True))
    return None


def double_edge(it):
    for ties in (it.task.into(it.flow), it.task.out(it.flow)):
        seen = {}
        for tie in ties:
            if tie.is_edge() and tie.far in seen:
                return it.reason(tie, f"names {named(tie)}, as line {seen[tie.far].line} does.")
            seen.setdefault(tie.far, tie)
    return None


def double_write(it):
    writers = {}
    for name, task in it.graph.tasks().items():
        for tie in task.out():
            if not tie.is_place():
                continue
            if tie.far in writers and name == it.name and tie.flow == it.flow:
                other, earlier = writers[tie.far]
                return it.reason(tie, f"writes {place(tie.far)}, which {shown_task(other)} writes too (line {earlier.line}).")
            writers.setdefault(tie.far, (name, tie))
    return None


def bounds(job, far):
    """The indices that a collection of the data has."""
    for record in job.records:
        at = 2 if record.word() == "collof" else 1
        if record.word() in ("coll", "collof") and len(record.fields) > at and record.fields[at].spelled() == far[0]:
            sizes = [whole(it.spelled()) or 0 for it in record.fields[at + 1 :]]
            return sizes, record.fields[0].line
    return [], 0


def bad_place_of(job, far):
    """Which index of a place is outside of its collection, or None where none is."""
    sizes, line = bounds(job, far)
    for which, (index, size) in enumerate(zip(far[1:], sizes), 1):
        if not 0 <= int(index) < size:
            name = "index" if len(sizes) == 1 else ("first index", "second index")[which - 1]
            return f"names {place(far)}, but the {name} of {far[0]} goes from 0 to {size - 1} ({job.data_name}:{line})."
    return None


def bad_place(it):
    if it.flow == "-":
        said = bad_place_of(it.job, it.task.at[1:])
        cls = it.job.outline.class_named(it.name[0])
        return Reason(cls.affinity.at(), f"{it.who()}: the place of the task {said}") if said and cls and cls.affinity else None
    for tie in it.task.into(it.flow) + it.task.out(it.flow):
        said = bad_place_of(it.job, tie.far) if tie.is_place() else None
        if said:
            return it.reason(tie, said)
    return None


def null_sent(it):
    null = next((tie for tie in it.task.into(it.flow) if tie.what == "null"), None)
    sent = next((tie for tie in it.task.out(it.flow) if tie.is_edge() or tie.is_place()), None)
    return it.reason(sent, f"sends a tile, but the flow has none: `<- NULL` holds (line {null.line}).") if null and sent else None


NO_VALUE = "a result does not fit 64 bits, a divisor is 0, or the step of a range is 0"


def bad_expr(it):
    """The dependence of a task that needs an expression without a value, or the definition that has none under those before it."""
    cls = it.job.outline.class_named(it.name[0])
    numbers = it.name[1:]
    if it.task is not None and len(it.task.ill) == 3:
        tie = Tie(True, it.flow, "", int(it.task.ill[1]), int(it.task.ill[2]), "")
        dependence = dependence_of(it.job.outline, it.name[0], tie)
        why = values.of_dependence(it.job, it.name, dependence) if dependence else ""
        return it.reason(tie, f"has an expression without a value: {why or NO_VALUE}.")
    if it.task is not None or cls is None:
        return bad_expr_without_graph(it.job, it.name, it.flow)
    return bad_definition(it.job, cls, numbers)


def bad_definition(job, cls, numbers):
    if len(numbers) >= len(cls.definitions):
        return None
    token = cls.definitions[len(numbers)]
    known = ", ".join(f"{name.text} = {number}" for name, number in zip(cls.definitions, numbers))
    why = values.of_definition(job, cls.name.text, len(numbers), numbers) or NO_VALUE
    return Reason(token.at(), f"{cls.name.text}: the definition of {token.text} has no value{' where ' + known if known else ''}: {why}.")


def bad_expr_without_graph(job, name, flow):
    """The same from the text alone: the first expression of a task that is found to have no value, or the definition."""
    cls = job.outline.class_named(name[0])
    if cls is None:
        return None
    if flow == "-":
        found = values.of_hints(job, name, cls)
        if found:
            return Reason(found[1], f"{shown_task(name)}: the {found[0]} of the task has an expression without a value: {found[2]}.")
        return None if values.names_of_task(job, name) is not None else bad_definition(job, cls, name[1:])
    for that in dependences(job.outline, name[0], flow):
        why = values.of_dependence(job, name, that)
        if why:
            return Reason(that.arrow.at(), f"{shown_task(name)}, flow {flow}: `{spelled(that)}` has an expression without a value: {why}.")
    return None


def no_input(job, name, flow):
    """Why a flow has no source: its guards, none of which holds."""
    cls = job.outline.class_named(name[0])
    found = next((it for it in cls.flows if it.name.text == flow), None) if cls else None
    if not found:
        return None
    inward = [it for it in found.dependences if it.inward()]
    if not inward:
        return Reason(found.kind.at(), f"{shown_task(name)}, flow {flow}: The flow has no `<-`, so its tile comes from nowhere.")
    return Reason(inward[0].arrow.at(), f"{shown_task(name)}, flow {flow}: No `<-` of the flow holds for this task.", values.of_guards(job, name, flow))


REASONS = {
    "OutOfSpace": out_of_space,
    "NoMatchingOut": no_matching_out,
    "NoMatchingIn": no_matching_in,
    "DoubleEdge": double_edge,
    "DoubleWrite": double_write,
    "BadPlace": bad_place,
    "NullSent": null_sent,
    "BadExpr": bad_expr,
}


def reason(job, graph, code, name, flow):
    """Why a job is inconsistent, or None where that can't be told."""
    if code == "NoInput":
        return no_input(job, name, flow)
    if code not in REASONS:
        return None
    try:
        it = Fault(job, graph, code, name, flow)
        return REASONS[code](it) if it.task is not None or code == "BadExpr" else None
    except NO_GRAPH:
        return bad_expr_without_graph(job, name, flow) if code == "BadExpr" else None


def is_printed(graph):
    """Whether the program prints a graph at all."""
    try:
        lines = graph.lines(1)
        return not lines or lines[0][0] == "task"
    except NO_GRAPH:
        return False
