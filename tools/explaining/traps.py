"""Why a task traps: the part of its body, with the values that it met there; or all parts that could trap so, where they are not found out."""
from bodies import Condition, Statement, spelled_leaf
from evaluate import DEFAULT, TaskClass, how_it_traps
from expressions import Unreadable
from jdf_text import spelled
from jobs import task as shown_task
from values import arithmetic, evaluation_of, where

CAUSES = {
    "overflow": "a result does not fit 64 bits",
    "divide": "a divisor is 0",
    "index": "an index is outside its tile",
    "absent": "an element is named of a flow that has no tile, since its source is `NULL`",
    "budget": "the body takes more than 16,777,216 units, one for each statement and each turn of a loop",
}


def of_arithmetic(ended):
    return arithmetic(ended.fault, ended.run.leaves(ended.fault.node)) + "."


def element_of(node):
    """The element that a statement assigns to or an expression reads, as it is spelled, and the expression of its index."""
    if isinstance(node, Statement):
        return f"{node.target}[{spelled(node.parts[0].tokens)}]", node.parts[0]
    return spelled_leaf(node), node.parts[0]


def of_index(ended):
    flow, index, size = ended.fault.values
    text, node = element_of(ended.fault.node)
    has = f"1 element, `{flow}[0]`" if size == 1 else f"{size} elements, `{flow}[0]` to `{flow}[{size - 1}]`"
    if text == f"{flow}[{index}]":
        return f"`{text}` does not exist: a tile of {flow} has {has}."
    return f"`{text}` is `{flow}[{index}]`{where(ended.run.leaves(node))}. A tile of {flow} has {has}."


def of_absent(ended):
    flow = ended.fault.values[0]
    text = element_of(ended.fault.node)[0]
    return f"`{text}` does not exist: {flow} has no tile in this task, since `<- NULL` holds (line {ended.nulls.get(flow, 0)})."


def of_word(ended):
    word = ended.fault.values[0]
    inside = ended.run.inside[-1:]
    return f"`trap {word};` is reached" + "".join(f", since `{spelled(it.node.tokens)}` {holds(it)}{where(it.values)}" for it in inside) + "."


def holds(condition: Condition):
    return "holds" if condition.held else "does not hold"


SENTENCES = {"overflow": of_arithmetic, "divide": of_arithmetic, "index": of_index, "absent": of_absent, "word": of_word}


def fits(ended, cause):
    """Whether a task was found to end as it did."""
    if ended is None or ended.fault.cause not in SENTENCES:
        return False
    return cause in (ended.fault.cause, ended.fault.values[0] if ended.fault.cause == "word" else None)


def could_trap(node, cause, sizes, nulls):
    """Whether a part of an expression could trap so."""
    last = node.parts[-1] if node.parts else None
    is_number = last is not None and last.op == "number"
    if cause == "divide":
        return node.op in ("/", "%") and not (is_number and last.value)
    if cause == "overflow":
        if node.op in ("/", "%"):
            return not is_number
        return node.op in ("+", "-", "*", "minus") and not all(it.op == "number" for it in node.parts)
    if node.op != "element":
        return False
    return node.value in nulls if cause == "absent" else not (is_number and last.value < sizes.get(node.value, 0))


def statement_could_trap(it, cause, sizes, nulls):
    """Whether a statement could trap so, but for its expressions."""
    if it.kind == "trap":
        return it.target == cause
    if cause == "budget":
        return it.kind == "for"
    if it.kind != "put":
        return False
    if cause == "absent":
        return it.target in nulls
    is_number = it.parts[0].op == "number"
    return cause == "index" and not (is_number and it.parts[0].value < sizes.get(it.target, 0))


def could_be(cls, cause, types):
    """The tokens of all parts of a body that could trap so, in the text's order."""
    sizes = {name: types.get(type_name, 0) for name, _, type_name, _ in cls.flows()}
    nulls = [name for name, _, _, ins in cls.flows() if any("null" in (it.yes.what, it.no.what if it.no else "") for it in ins)]
    found = []
    for top in cls.statements():
        for it in top.inner():
            found += [it.token] if statement_could_trap(it, cause, sizes, nulls) else []
            found += [node.token for part in it.parts for node in part.inner() if could_trap(node, cause, sizes, nulls)]
    return sorted(found, key=lambda token: token.at())


class Traps:
    """The traps of a job."""

    def __init__(self, job):
        self.job, self.evaluation = job, evaluation_of(job)

    def exact(self, name, cause):
        """The place and the sentence of a trap, or None where they are not found out."""
        try:
            task = (name[0], *(int(it) for it in name[1:]))
        except ValueError:
            return None
        ended = how_it_traps(self.evaluation, task) if self.evaluation else None
        if not fits(ended, cause):
            return None
        return ended.fault.node.token.at(), SENTENCES[ended.fault.cause](ended)

    def possible(self, name, cause):
        """The tokens of the parts of the body that could trap so."""
        cls = self.job.outline.class_named(name[0])
        if cls is None:
            return []
        try:
            types = self.evaluation.data.types if self.evaluation else {DEFAULT: 0}
            return could_be(TaskClass(cls), cause, types)
        except (Unreadable, RecursionError):
            return []

    def of_task(self, name, cause):
        """The place of a trap, its sentence, and the places that it may be where it is not known which."""
        found = self.exact(name, cause)
        if found:
            return found[0], f"{shown_task(name)}: {found[1]}", []
        places = [it.at() for it in self.possible(name, cause)]
        cls = self.job.outline.class_named(name[0])
        begin = cls.begin.at() if cls and cls.begin else (1, 1)
        why = CAUSES.get(cause, f"its body ends with `trap {cause};`")
        if len(places) == 1:
            return places[0], f"{shown_task(name)}: {why}.", []
        return begin, f"{shown_task(name)}: {why}.", places
