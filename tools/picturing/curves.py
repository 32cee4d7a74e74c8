"""The curves of edges: from the side of a box, past the boxes of the columns between, to the side of another one."""
from layout import width_of


def ports_of(scene, layout):
    """Where on the side of its box each end of each edge stands, from the box's middle: the ends of one side are spread over it."""
    sides = {}
    for at, it in enumerate(scene.edges):
        for is_source in (True, False):
            name = it.source if is_source else it.target
            right = is_source != it.is_back
            chain = layout.points[at]
            far = layout.nodes[it.target if is_source else it.source]
            near = (chain[0] if right else chain[-1]) if chain else far
            sides.setdefault((name, right), []).append((near.y, at, is_source))
    found = {}
    for (name, _), ends in sides.items():
        room = layout.nodes[name].height - 10
        step = min(6.0, room / max(len(ends) - 1, 1))
        for index, (_, at, is_source) in enumerate(sorted(ends)):
            found[at, is_source] = step * (index - (len(ends) - 1) / 2)
    return found


def side(node, layout, right):
    """Where the left or the right side of a box is; boxes stand in the middle of their column."""
    column = layout.left[node.level] + layout.width_of[node.level] / 2
    half = width_of(node.box) / 2 if node.box else layout.width_of[node.level] / 2
    return column + half if right else column - half


def bends_of(edge, at, layout, ports):
    """The bends of an edge, each as the point where it begins and the point where it ends; between two bends it is straight."""
    source, target = layout.nodes[edge.source], layout.nodes[edge.target]
    rightward = not edge.is_back
    x, y = side(source, layout, rightward), source.y + ports[at, True]
    found = []
    for point in layout.points[at] if rightward else layout.points[at][::-1]:
        found.append(((x, y), (side(point, layout, not rightward), point.y)))
        x, y = side(point, layout, rightward), point.y
    return found + [((x, y), (side(target, layout, not rightward), target.y + ports[at, False]))]


def path_of(edge, at, layout, ports):
    """The path of an edge."""
    source = layout.nodes[edge.source]
    if edge.source == edge.target:
        x, y = side(source, layout, True), source.y - source.height / 2
        return f"M{x - 12:.1f} {y:.1f} C{x - 8:.1f} {y - 20:.1f} {x - 40:.1f} {y - 20:.1f} {x - 36:.1f} {y:.1f}"
    path = ""
    for (x, y), (to_x, to_y) in bends_of(edge, at, layout, ports):
        middle = (x + to_x) / 2
        path += f"{'L' if path else 'M'}{x:.1f} {y:.1f} C{middle:.1f} {y:.1f} {middle:.1f} {to_y:.1f} {to_x:.1f} {to_y:.1f} "
    return path.rstrip()


def on_bend(bend, part):
    """The point of a bend at this part of its way, from 0 to 1."""
    (x, y), (to_x, to_y) = bend
    middle = (x + to_x) / 2
    rest = 1 - part
    across = rest**3 * x + 3 * rest * part * middle + part**3 * to_x
    return across, y + (to_y - y) * (3 * part**2 - 2 * part**3)
