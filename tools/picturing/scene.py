"""What a picture of boxes and edges shows: tasks with how they ended, and edges with whether they were sent."""
from dataclasses import dataclass, field

from circles import tasks_that_ran
from jobs import task as shown_task

# The flows of edges are shown beside them up to this many tasks.
MOST_NAMED = 60


@dataclass
class Box:
    """A task, or what only an edge names."""

    name: tuple
    cls: str
    label: str
    # ran, trapped, waits, never (nothing came to it) or none (it is no task)
    state: str = "ran"
    note: str = ""
    level: int = 0
    # task, data (what a flow is read from or written to), class, or flow (the text of an edge between classes)
    kind: str = "task"
    # what gives it its colour: its class, or its rank
    group: str = ""
    # whether it is a task of the heaviest chain
    is_bold: bool = False
    # how many tasks it stands for
    count: int = 1
    hint: str = ""


@dataclass
class Edge:
    source: tuple
    target: tuple
    label: str
    is_ctl: bool
    # sent, not (its source did not run, or trapped) or half (only one end names it)
    state: str = "sent"
    # whether it leads from a box to one of an earlier level
    is_back: bool = False
    # the flows at its ends, as they are shown beside it
    name: str = ""
    # whether it is a link of the heaviest chain
    is_link: bool = False
    # whether it leads from one rank to another; None where ranks are not shown
    is_cut: object = None


@dataclass
class Scene:
    boxes: dict
    edges: list
    # the groups that have colours, in their order
    groups: list
    # sentences below the title
    notes: list = field(default_factory=list)
    # texts below the columns, each with its column and its row, 0 or 1
    scale: list = field(default_factory=list)
    # whether the flows of edges are shown beside them
    has_names: bool = False


def scene_of(tasks, traps):
    """The scene of a graph, where these tasks trap."""
    edges = edges_of(tasks)
    ran = tasks_that_ran(tasks, traps) if all(it.state != "half" for it in edges) else set(tasks)
    boxes = {name: box_of(name, tasks, ran, traps) for name in tasks}
    for it in edges:
        for end in (it.source, it.target):
            boxes.setdefault(end, Box(end, end[0], shown_task(end), "none", "no task", group=end[0]))
        if it.state == "sent" and (it.source not in ran or it.source in traps):
            it.state = "not"
    scene = Scene(boxes, edges, list(dict.fromkeys(it.cls for it in boxes.values())), has_names=len(boxes) <= MOST_NAMED)
    set_levels(scene)
    return scene


def box_of(name, tasks, ran, traps):
    it = Box(name, name[0], shown_task(name), group=name[0])
    if name in traps:
        it.state, it.note = "trapped", f"trap {traps[name]}"
    elif name not in ran:
        ties = [tie for tie in tasks[name].into() if tie.is_edge()]
        came = [tie for tie in ties if tie.far_task() in ran and tie.far_task() not in traps]
        it.state = "waits" if came else "never"
        it.note = f"{len(came)} of {len(ties)} came"
    return it


def edges_of(tasks):
    """All edges, each once, with whether both of its ends name it."""
    ends = {}
    for name, task in tasks.items():
        for tie in task.ties:
            if tie.is_edge():
                there, here = (tie.far_task(), tie.far_flow()), (name, tie.flow)
                key = (there, here) if tie.inward else (here, there)
                ends.setdefault(key, {})[tie.inward] = tie
    found = []
    for ((source, out_flow), (target, in_flow)), ties in ends.items():
        tie = next(iter(ties.values()))
        label = f"{out_flow} of {shown_task(source)} to {in_flow} of {shown_task(target)}"
        state = "sent" if len(ties) == 2 else "half"
        name = out_flow if out_flow == in_flow else f"{out_flow} to {in_flow}"
        found.append(Edge(source, target, label, tie.kind == "CTL", state, name=name))
    return found


def set_levels(scene):
    """Gives each box the level behind all that it waits for; of a circle, the edge that closes it leads back."""
    after = {name: [] for name in scene.boxes}
    for it in scene.edges:
        after[it.source].append(it)
    order, state = [], {}
    for first in scene.boxes:
        visit(first, after, order, state)
    for name in reversed(order):
        for it in after[name]:
            if not it.is_back:
                box = scene.boxes[it.target]
                box.level = max(box.level, scene.boxes[name].level + 1)


def visit(first, after, order, state):
    """Walks from a box along edges; an edge to a box that the walk stands in leads back."""
    stack = [(first, 0)] if first not in state else []
    while stack:
        name, at = stack.pop()
        state[name] = "open"
        while at < len(after[name]):
            it = after[name][at]
            at += 1
            it.is_back = state.get(it.target) == "open"
            if it.target not in state:
                stack += [(name, at), (it.target, 0)]
                break
        else:
            state[name] = "done"
            order.append(name)
