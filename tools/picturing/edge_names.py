"""The flows of edges beside them, each where it covers no other one and no box, if there is such a place."""
from html import escape

from curves import bends_of, on_bend
from layout import NAME_LETTER, width_of

SIZE = 9
# Where a name may stand on a bend, the best place first.
PARTS = (0.5, 0.38, 0.62, 0.28, 0.72, 0.2, 0.8)


class Taken:
    """The places that are taken: rectangles by their middles and halves, kept by strips of this width."""

    STRIP = 100

    def __init__(self):
        self.strips = {}

    def reach(self, x, half):
        return range(int((x - half) // self.STRIP), int((x + half) // self.STRIP) + 1)

    def add(self, x, y, half, half_height):
        for strip in self.reach(x, half):
            self.strips.setdefault(strip, []).append((x, y, half, half_height))

    def covered(self, x, y, half, half_height):
        """How much of a rectangle is covered by those that are there."""
        near = {it for strip in self.reach(x, half) for it in self.strips.get(strip, [])}
        total = 0.0
        for other_x, other_y, other_half, other_height in near:
            across = min(half + other_half - abs(x - other_x), 2 * half)
            down = min(half_height + other_height - abs(y - other_y), 2 * half_height)
            total += max(across, 0) * max(down, 0)
        return total


def edge_names(scene, layout, ports):
    """The texts of the names of all edges."""
    taken = Taken()
    for node in layout.nodes.values():
        x = layout.left[node.level] + layout.width_of[node.level] / 2
        taken.add(x, node.y, width_of(node.box) / 2, node.height / 2)
    return [text_of(it, at, layout, ports, taken) for at, it in enumerate(scene.edges) if it.name and it.source != it.target]


def text_of(edge, at, layout, ports, taken):
    half, half_height = NAME_LETTER * len(edge.name) / 2 + 1, SIZE / 2
    bends = bends_of(edge, at, layout, ports)
    places = [on_bend(bend, part) for bend in (bends[0], bends[-1])[: len(bends)] for part in PARTS]
    x, y = min(places, key=lambda it: round(taken.covered(*it, half, half_height), 1))
    taken.add(x, y, half, half_height)
    return (
        f'<text class="flow" x="{x:.1f}" y="{y + 3:.1f}" text-anchor="middle" font-size="{SIZE}" fill="#222222" stroke="#ffffff" '
        f'stroke-width="4" paint-order="stroke">{escape(edge.name)}</text>'
    )
