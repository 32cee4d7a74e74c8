"""Where boxes and edges stand: columns by level, and in a column the order that crosses few edges.

An edge over several columns has a point in each of those between, so that it runs beside their boxes and not over them."""
from dataclasses import dataclass, field

from svg import LETTER, MARGIN

SIDE = 10
HEIGHT, HEIGHT_WITH_NOTE, HEIGHT_OF_DATA = 24, 40, 16
BETWEEN_BOXES, BETWEEN_POINTS = 14, 7
SMALL, NAME_LETTER = 0.78, 5.6
# The room for the texts below the columns.
LEVELS = 34
SWEEPS = 12
# With more points than these, long edges are drawn without them.
MOST_POINTS = 40000


@dataclass
class Node:
    """A box, or a point of an edge, in a column."""

    level: int
    height: float
    box: object = None
    y: float = 0.0
    before: list = field(default_factory=list)
    behind: list = field(default_factory=list)

    def room(self):
        return self.height / 2 + (BETWEEN_BOXES if self.box else BETWEEN_POINTS) / 2


@dataclass
class Layout:
    nodes: dict
    # the points of each edge, from the box of the lower level to the other one
    points: list
    left: list
    width_of: list
    width: float
    height: float


def width_of(box):
    if box.kind in ("data", "flow"):
        return SMALL * LETTER * max(len(box.label), len(box.note)) + SIDE
    return LETTER * max(len(box.label), len(box.note) * 0.85) + 2 * SIDE


def height_of(box):
    if box.kind == "data":
        return HEIGHT_OF_DATA
    return HEIGHT_WITH_NOTE if box.note else HEIGHT


def layout_of(scene):
    nodes = {name: Node(it.level, height_of(it), it) for name, it in scene.boxes.items()}
    points = [[] for _ in scene.edges]
    spans = [abs(nodes[it.source].level - nodes[it.target].level) for it in scene.edges]
    columns = [[] for _ in range(1 + max(it.level for it in nodes.values()))]
    for it in nodes.values():
        columns[it.level].append(it)
    if sum(max(span - 1, 0) for span in spans) <= MOST_POINTS:
        points = [points_of(it, nodes, columns) for it in scene.edges]
    for it, between in zip(scene.edges, points):
        chain = [lower(it, nodes)] + between + [upper(it, nodes)]
        if chain[0] is not chain[-1] and chain[0].level != chain[-1].level:
            for one, other in zip(chain, chain[1:]):
                one.behind.append(other)
                other.before.append(one)
    place(columns)
    return placed(scene, nodes, points, columns)


def lower(edge, nodes):
    return nodes[edge.target if edge.is_back else edge.source]


def upper(edge, nodes):
    return nodes[edge.source if edge.is_back else edge.target]


def points_of(edge, nodes, columns):
    """The points of an edge in the columns between its ends."""
    found = [Node(level, 2) for level in range(lower(edge, nodes).level + 1, upper(edge, nodes).level)]
    for it in found:
        columns[it.level].append(it)
    return found


def place(columns):
    """Moves the nodes of each column towards those that they are joined to."""
    for column in columns:
        spread(column, [index * 30.0 for index in range(len(column))])
    for sweep in range(SWEEPS):
        forward = sweep % 2 == 0
        for column in columns if forward else reversed(columns):
            wanted = [(mean(it.before if forward else it.behind, it.y), index) for index, it in enumerate(column)]
            order = sorted(range(len(column)), key=lambda index: wanted[index])
            column[:] = [column[index] for index in order]
            spread(column, [wanted[index][0] for index in order])
    for column in columns:
        spread(column, [mean(it.before + it.behind, it.y) for it in column])


def mean(nodes, otherwise):
    return sum(it.y for it in nodes) / len(nodes) if nodes else otherwise


def spread(column, wanted):
    """Places the nodes of a column in their order as near as may be to where they are wanted, without overlap."""
    offsets, at = [], 0.0
    for last, it in zip([None] + column, column):
        at += last.room() + it.room() if last else 0.0
        offsets.append(at)
    # (groups of nodes that touch, each with the mean of where its nodes are wanted)
    groups = []
    for want, offset in zip(wanted, offsets):
        groups.append([want - offset, 1])
        while len(groups) > 1 and groups[-2][0] > groups[-1][0]:
            (high, many), (low, few) = groups[-2], groups.pop()
            groups[-1] = [(high * many + low * few) / (many + few), many + few]
    starts = [start for start, count in groups for _ in range(count)]
    for it, start, offset in zip(column, starts, offsets):
        it.y = start + offset


def placed(scene, nodes, points, columns):
    """The layout with its left upper corner at the margin."""
    widths = [max([width_of(it.box) for it in column if it.box] + [0]) for column in columns]
    crossing = [0] * len(columns)
    for it in scene.edges:
        crossing[min(nodes[it.source].level, nodes[it.target].level)] += 1
    longest = max([len(it.name) for it in scene.edges] + [0]) if scene.has_names else 0
    left, at = [], float(MARGIN)
    for width, edges in zip(widths, crossing):
        left.append(at)
        at += width + 46 + min(100, 3 * edges) + NAME_LETTER * longest
    every = [it for column in columns for it in column]
    top = min(it.y - it.height / 2 for it in every)
    for it in every:
        it.y += MARGIN - top
    last = max(it.y + it.height / 2 for it in every) + (LEVELS if scene.scale else 0)
    return Layout(nodes, points, left, widths, left[-1] + widths[-1] + MARGIN, last + MARGIN)
