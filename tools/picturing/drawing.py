"""A scene as SVG."""
from html import escape

from curves import path_of, ports_of, side
from edge_names import edge_names
from layout import HEIGHT, LEVELS, MARGIN, layout_of, width_of
from svg import FONT, colour_of, counted, document, legend, stroke, swatch

SENT, NOT_SENT, HALF, TRAP = "#454545", "#b9b9b9", "#d40000", "#d40000"
BOLD, CUT, WITHIN = "#111111", "#1d4ed8", "#8a8a8a"
STROKES = {"sent": SENT, "not": NOT_SENT, "half": HALF, "cut": CUT, "within": WITHIN, "link": BOLD}
# The number of colours of classes; ranks have one each.
CLASS_COLOURS = 8
DATA = ("#f7f7f7", "#9a9a9a")
BELOW = ("not", "within", "sent", "half", "cut", "link")


def text(scene, title, layout=None):
    """The picture of a scene."""
    layout = layout or layout_of(scene)
    above, wide, high = legend(title, scene.notes, entries_of(scene), layout.width)
    ports = ports_of(scene, layout)
    order = sorted(range(len(scene.edges)), key=lambda at: BELOW.index(look_of(scene.edges[at])))
    parts = [drawn_edge(scene.edges[at], at, layout, ports) for at in order]
    parts += edge_names(scene, layout, ports) if scene.has_names else []
    parts += [drawn_box(it, layout, *colours_of(scene, it)) for it in scene.boxes.values()]
    parts += [text_below(it, layout) for it in scene.scale]
    looks = {look_of(it) for it in scene.edges} | ({"cut", "within"} if any(it.is_cut is not None for it in scene.edges) else set())
    arrows = "".join(arrow(name, STROKES[name]) for name in STROKES if name in looks)
    return document(title, (max(layout.width, wide), layout.height), (above, high), parts, arrows)


def look_of(edge):
    """What the line of an edge looks like: a name of STROKES."""
    if edge.state != "sent":
        return edge.state
    if edge.is_cut or edge.is_link:
        return "cut" if edge.is_cut else "link"
    return "sent" if edge.is_cut is None else "within"


def colours_of(scene, box):
    if box.kind == "data":
        return DATA
    if box.kind == "flow" or box.group not in scene.groups:
        return "#ffffff", "#ffffff"
    return colour_of(scene.groups.index(box.group) % (CLASS_COLOURS if box.group == box.cls else 64))


def arrow(name, colour):
    size = 'viewBox="0 0 8 8" refX="8" refY="4" markerWidth="9" markerHeight="9" markerUnits="userSpaceOnUse" orient="auto"'
    return f'<marker id="{name}" {size}><path d="M0 1 L8 4 L0 7 Z" fill="{colour}"/></marker>'


def entries_of(scene):
    """The entries of the legend: the groups, and each look that an edge has."""
    boxes = [it for it in scene.boxes.values() if it.kind in ("task", "class") and it.state != "none"]
    counts = {group: sum(it.count for it in boxes if it.group == group) for group in scene.groups}
    some = {it.group: it for it in scene.boxes.values()}
    found = [(swatch(*colours_of(scene, some[group])), f"{group}: {counts[group]:,}") for group in scene.groups]
    found += [(swatch(*DATA), "data")] if any(it.kind == "data" for it in scene.boxes.values()) else []
    looks = [look_of(it) for it in scene.edges]
    cuts = [it.is_cut for it in scene.edges if it.is_cut is not None]
    if cuts:
        found += [(line_of("cut"), f"from rank to rank: {cuts.count(True):,}"), (line_of("within"), f"within a rank: {cuts.count(False):,}")]
    for is_ctl, name in ((False, "a tile is sent"), (True, "CTL: order alone")):
        if any(it.is_ctl == is_ctl and it.state == "sent" for it in scene.edges):
            found.append((stroke(SENT, dash="5 4" if is_ctl else "", marker="sent" if "sent" in looks else ""), name))
    found += [(line_of("not"), "never sent")] if "not" in looks else []
    found += [(line_of("half"), "only one end names it")] if "half" in looks else []
    links = [it for it in scene.edges if it.is_link]
    return found + ([(stroke(BOLD, 3.2), f"heaviest chain: {counted(len(links), 'link')}")] if links else [])


def line_of(look):
    return stroke(STROKES[look], 2 if look in ("cut", "half") else 1.4, marker=look)


def text_below(it, layout):
    column, row, name = it
    x, y = layout.left[column] + layout.width_of[column] / 2, layout.height - MARGIN - LEVELS + 18 + 16 * row
    bold = ' font-weight="bold"' if row else ' fill="#666666"'
    return f'<text class="level" x="{x:.1f}" y="{y:.1f}" text-anchor="middle"{bold}>{escape(name)}</text>'


def drawn_edge(edge, at, layout, ports):
    hint = edge.label + {"sent": "", "not": ": never sent", "half": ": only one end names it"}[edge.state]
    look = look_of(edge)
    ends = layout.nodes[edge.source].box, layout.nodes[edge.target].box
    kind = "read" if ends[0].kind == "data" else "write" if ends[1].kind == "data" else "edge"
    words = " ".join([kind] + [word for word, has in (("link", edge.is_link), ("cut", look == "cut"), ("half", look == "half")) if has])
    width = 3.2 if edge.is_link else 2 if look in ("half", "cut") else 1.2
    dash = ' stroke-dasharray="5 4"' if edge.is_ctl else ""
    # (an edge ends in a text where that stands for the edge)
    ended = "" if ends[1].kind == "flow" else f' marker-end="url(#{look})"'
    return (
        f'<path class="{words}" d="{path_of(edge, at, layout, ports)}" fill="none" stroke="{STROKES[look]}" stroke-width="{width}"{dash}'
        f"{ended}><title>{escape(hint)}</title></path>"
    )


STYLES = {
    "ran": "",
    "trapped": f' stroke="{TRAP}" stroke-width="2.5"',
    "waits": ' stroke-dasharray="4 3" stroke-width="2.5"',
    "never": ' stroke-dasharray="2 3" stroke-width="1.5"',
    "none": f' stroke="{HALF}" stroke-dasharray="2 3"',
}


def drawn_box(box, layout, fill, line):
    node = layout.nodes[box.name]
    wide, x = width_of(box), side(node, layout, False)
    own = STYLES[box.state]
    bold = ' stroke-width="3"' if box.is_bold and "stroke-width" not in own else ""
    outline = own + bold if "stroke=" in own else f' stroke="{line}"{own}{bold}'
    middle, small = x + wide / 2, box.kind in ("data", "flow")
    fill = "#ffffff" if box.state in ("none", "never") else fill
    hint = f"<title>{escape(box.hint)}</title>" if box.hint else ""
    y = node.y - node.height / 2
    parts = [f'<g class="{box.kind}">{hint}<rect x="{x:.1f}" y="{y:.1f}" width="{wide:.1f}" height="{node.height}" rx="5" fill="{fill}"{outline}/>']
    size = f' font-size="{FONT - 3}"' if small else ""
    label_y = node.y + (4 if node.height <= HEIGHT else -3)
    parts.append(f'<text x="{middle:.1f}" y="{label_y:.1f}" text-anchor="middle"{size}>{escape(box.label)}</text>')
    if box.note:
        colour = TRAP if box.state in ("trapped", "none") else "#333333"
        size = FONT - (3 if small else 2)
        parts.append(f'<text x="{middle:.1f}" y="{node.y + 12:.1f}" text-anchor="middle" font-size="{size}" fill="{colour}">{escape(box.note)}</text>')
    return "".join(parts) + "</g>"
