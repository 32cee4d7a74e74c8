"""A scene as DOT, for Graphviz."""
from drawing import STROKES, TRAP, colours_of, look_of

BOXES = {"ran": "filled,rounded", "trapped": "filled,rounded,bold", "waits": "filled,rounded,dashed", "never": "rounded,dotted", "none": "rounded,dotted"}


def quoted(text):
    return '"' + text.replace("\\", "\\\\").replace('"', '\\"').replace("\n", "\\n") + '"'


def text(scene, title):
    """The DOT text of a scene."""
    label = "\n".join([title, *scene.notes])
    lines = ["digraph job {", f"  label={quoted(label)};", "  rankdir=LR;", '  node [shape=box, fontname="sans-serif", fontsize=11];']
    number = {name: at for at, name in enumerate(scene.boxes)}
    lines += [box_line(scene, it, number[it.name]) for it in scene.boxes.values()]
    for level in sorted({it.level for it in scene.boxes.values()}):
        same = " ".join(f"n{number[it.name]};" for it in scene.boxes.values() if it.level == level)
        lines.append(f"  {{ rank=same; {same} }}")
    lines += [edge_line(scene, it, number) for it in scene.edges]
    return "\n".join(lines + ["}", ""])


def box_line(scene, it, number):
    fill, line = colours_of(scene, it)
    colour = TRAP if it.state in ("trapped", "none") else line
    label = quoted(it.label + (f"\n{it.note}" if it.note else ""))
    style = "bold," + BOXES[it.state] if it.is_bold else BOXES[it.state]
    if it.kind == "flow":
        return f"  n{number} [label={label}, shape=plain, tooltip={quoted(it.hint)}];"
    return f'  n{number} [label={label}, style="{style}", fillcolor="{fill}", color="{colour}"];'


def edge_line(scene, it, number):
    style = "dashed" if it.is_ctl else "bold" if it.is_link else "solid"
    back = ", constraint=false" if it.is_back else ""
    name = f", label={quoted(it.name)}, fontsize=9" if scene.has_names and it.name else ""
    ended = ", arrowhead=none" if scene.boxes[it.target].kind == "flow" else ""
    look = f'style="{style}", color="{STROKES[look_of(it)]}", tooltip={quoted(it.label)}'
    return f"  n{number[it.source]} -> n{number[it.target]} [{look}{name}{ended}{back}];"
