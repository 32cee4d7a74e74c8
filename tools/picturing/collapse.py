"""A job by its classes: a box for each class, and for each dependence between two classes its flows, its guard, and how many edges it has.

The edges are those that `job_graph` lists; guards are spelled as the JDF has them."""
from collections import Counter
from dataclasses import dataclass

from jdf_text import outline_of
from programs import NoPicture, bytes_of
from scene import Box, Edge, Scene, set_levels
from svg import counted

LONGEST_GUARD = 44
NUMBERS = b"0123456789-,\n"


@dataclass(frozen=True)
class Ends:
    """The flows of two classes that edges join."""

    source: str
    out_flow: str
    target: str
    in_flow: str


@dataclass
class Shape:
    # tasks by class
    tasks: Counter
    # edges by their ends, with the numbers of their dependences: those that their sources name, and those that their targets name
    out: dict
    into: dict
    # what flows are read from and written to: (class, flow, whether inward, collection or word) and the number of the dependence
    data: Counter
    kinds: dict


def shape_of(job, most):
    """How many tasks and edges a job has by class and by dependence."""
    tasks, ties, of_class, lines = Counter(), {}, Counter(), 0
    for line in job.graph_lines(most):
        lines += 1
        kind = without_numbers(line)
        if kind[:5] == b"task,":
            tasks[kind[5:]] += 1
            of_class = ties.setdefault(kind[5:], Counter())
        else:
            of_class[kind] += 1
    if lines == most:
        raise NoPicture(f"{job.jdf}: its graph has more than {most:,} lines")
    if not tasks:
        raise NoPicture(f"{job.jdf}: the job has no task")
    return sorted_out(Counter({it.decode(): count for it, count in tasks.items()}), ties)


def without_numbers(line):
    """A line without the numbers at its end, which are the parameters of a task or the indices of a place."""
    end = line.find(b",", len(line.rstrip(NUMBERS)))
    return line[: end if end >= 0 else -1]


def sorted_out(tasks, ties):
    """The shape of these tasks, from the lines of ties without their last numbers, by class."""
    found = Shape(tasks, {}, {}, Counter(), {})
    rows = [(cls.decode(), *line.decode().split(","), count) for cls, lines in ties.items() for line, count in lines.items()]
    for cls, way, *fields, count in rows:
        if way not in ("in", "out"):
            continue
        flow, kind, number, _, what, *far = fields
        found.kinds[cls, flow] = kind
        if what == "flow":
            ends = Ends(far[1], far[0], cls, flow) if way == "in" else Ends(cls, flow, far[1], far[0])
            numbers = (found.into if way == "in" else found.out).setdefault(ends, Counter())
            numbers[int(number)] += count
        elif way == "in" or what == "place":
            found.data[cls, flow, way == "in", far[0] if what == "place" else what.upper(), int(number)] += count
    return found


def scene_of(job, most, with_data):
    """The scene of a job by its classes."""
    shape, text = shape_of(job, most), bytes_of(job.jdf)
    guards = Guards(text)
    scene = Scene({}, [], [it for it in shape.tasks])
    for cls, count in shape.tasks.items():
        scene.boxes["class", cls] = Box(("class", cls), cls, cls, note=counted(count, "task"), kind="class", group=cls, count=count)
    for ends in [*shape.out, *(it for it in shape.into if it not in shape.out)]:
        add_edges(scene, ends, shape, guards)
    set_levels(scene)
    if with_data:
        add_data(scene, shape, guards)
    edges = sum(sum(numbers.values()) for numbers in shape.out.values())
    scene.notes.append(f"{counted(sum(shape.tasks.values()), 'task')} of {counted(len(shape.tasks), 'class', 'classes')}, {counted(edges, 'edge')}")
    return scene


def add_edges(scene, ends, shape, guards):
    """Adds the edges between two flows: one text for each dependence, or for both ends where their numbers differ."""
    out, into = shape.out.get(ends, Counter()), shape.into.get(ends, Counter())
    is_half = sum(out.values()) != sum(into.values())
    names = ends.out_flow if ends.out_flow == ends.in_flow else f"{ends.out_flow} to {ends.in_flow}"
    kind = shape.kinds.get((ends.source, ends.out_flow)) or shape.kinds.get((ends.target, ends.in_flow))
    if is_half:
        rows = [(0, f"{sum(out.values()):,} out, {sum(into.values()):,} in", "")]
    else:
        rows = [(number, counted(count, "edge"), guards.of_task(ends, number)) for number, count in out.items()]
    for number, count, guard in rows:
        place = ("flow", *vars(ends).values(), number)
        hint = f"{ends.out_flow} of {ends.source} to {ends.in_flow} of {ends.target}: {count}" + (f", where {guard}" if guard else "")
        scene.boxes[place] = Box(place, "", f"{names}: {count}", "none" if is_half else "ran", cut(guard), kind="flow", hint=hint)
        state = "half" if is_half else "sent"
        for source, target in ((("class", ends.source), place), (place, ("class", ends.target))):
            scene.boxes.setdefault(source, none_of(ends.source))
            scene.boxes.setdefault(target, none_of(ends.target))
            scene.edges.append(Edge(source, target, hint, kind == "CTL", state))


def none_of(cls):
    """The box of a class without tasks that edges name."""
    return Box(("class", cls), cls, cls, "none", "no task", kind="class", group=cls)


def add_data(scene, shape, guards):
    """Adds what flows are read from and written to."""
    inward = any(key[2] for key in shape.data)
    for it in scene.boxes.values():
        it.level += inward
    for (cls, flow, is_in, what, number), count in shape.data.items():
        level = scene.boxes["class", cls].level + (-1 if is_in else 1)
        place = ("data", cls, flow, is_in, what, number)
        guard = guards.of_data(cls, flow, number, what)
        label = f"{what} {'to' if is_in else 'from'} {flow}: {count:,}"
        scene.boxes[place] = Box(place, "", label, level=level, kind="data", hint=f"{label} times" + (f", where {guard}" if guard else ""))
        ends = (place, ("class", cls)) if is_in else (("class", cls), place)
        scene.edges.append(Edge(*ends, scene.boxes[place].hint, False))


def cut(guard):
    return guard if len(guard) <= LONGEST_GUARD else guard[: LONGEST_GUARD - 3] + "..."


class Guards:
    """The guards of dependences as the JDF spells them."""

    def __init__(self, text):
        self.text, self.outline = text, outline_of(text)

    def of_task(self, ends, number):
        return self.guard(ends.source, ends.out_flow, number, lambda it: len(it) > 1 and (it[0].text, it[1].text) == (ends.in_flow, ends.target))

    def of_data(self, cls, flow, number, what):
        return self.guard(cls, flow, number, lambda it: bool(it) and it[0].text == what)

    def guard(self, cls, flow, number, fits):
        """The guard under which a dependence names a target that fits, or nothing where it always does."""
        found = self.outline.class_named(cls)
        flows = [it for it in found.flows if it.name and it.name.text == flow] if found else []
        if not flows or not 1 <= number <= len(flows[0].dependences):
            return ""
        condition, first, second = parts_of(flows[0].dependences[number - 1].tokens)
        if not condition or (fits(first) and fits(second)):
            return ""
        return self.spelled(condition) if fits(first) else f"!({self.spelled(condition)})"

    def spelled(self, tokens):
        """Tokens as the text has them, without the parentheses around all of them."""
        while tokens and tokens[0].text == "(" and closes(tokens) == len(tokens) - 1:
            tokens = tokens[1:-1]
        return " ".join(self.text[tokens[0].start : tokens[-1].end].decode("utf-8", "replace").split()) if tokens else ""


def closes(tokens):
    """Where the parenthesis closes that the first token opens."""
    depth = 0
    for at, it in enumerate(tokens):
        depth += (it.text == "(") - (it.text == ")")
        if depth == 0:
            return at
    return len(tokens)


def parts_of(tokens):
    """The guard of a dependence, its first target, and its second one."""
    at, depth = {}, 0
    for index, it in enumerate(tokens):
        depth += (it.text == "(") - (it.text == ")")
        if depth == 0 and it.text in ("?", ":") and it.text not in at:
            at[it.text] = index
    if "?" not in at:
        return [], tokens, []
    end = at.get(":", len(tokens))
    return tokens[: at["?"]], tokens[at["?"] + 1 : end], tokens[end + 1 :]
