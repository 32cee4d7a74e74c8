"""What all pictures share: colours, the legend, and the SVG around them."""
import colorsys
from html import escape

FONT = 12
LETTER = 7.6
MARGIN = 24
LEGEND_LINE = 22
FILLS = ["#cfe3f7", "#d5efcf", "#fbe3c0", "#e5d7f3", "#fbd5dc", "#d0f0ee", "#f3efc0", "#e2e2e2"]
LINES = ["#3b6ea5", "#4b8b3b", "#b5802a", "#7a52a8", "#b8465c", "#2b8a85", "#8f8726", "#6b6b6b"]


def colour_of(number):
    """The fill and the line of the group with this number: the first eight by hand, further ones by their hue."""
    if number < len(FILLS):
        return FILLS[number], LINES[number]
    hue = (number * 0.381966) % 1
    return tuple("#" + "".join(f"{round(it * 255):02x}" for it in colorsys.hls_to_rgb(hue, light, full)) for light, full in ((0.86, 0.6), (0.42, 0.5)))


def counted(number, word, words=None):
    """A number with what it counts."""
    return f"{number:,} {word if number == 1 else words or word + 's'}"


def swatch(fill, line):
    """A coloured field of the legend."""
    return lambda x, y: f'<rect x="{x:.0f}" y="{y - 11:.0f}" width="20" height="14" rx="3" fill="{fill}" stroke="{line}"/>'


def stroke(colour, width=1.4, dash="", marker=""):
    """A line of the legend."""
    dashed = f' stroke-dasharray="{dash}"' if dash else ""
    ended = f' marker-end="url(#{marker})"' if marker else ""
    return lambda x, y: f'<path d="M{x:.0f} {y - 4:.0f} h20" stroke="{colour}" stroke-width="{width}" fill="none"{dashed}{ended}/>'


def legend(title, notes, entries, width):
    """The legend as wide as the picture or as its widest line, with its width and its height: the title, notes, and entries."""
    lines = [title, *notes]
    most = max([width] + [28 + LETTER * len(name) + 2 * MARGIN for _, name in entries] + [LETTER * len(line) + 2 * MARGIN for line in lines])
    parts, y = [], MARGIN + 4
    for line in lines:
        weight = ' font-weight="bold"' if line is title else ""
        parts.append(f'<text x="{MARGIN}" y="{y}"{weight}>{escape(line)}</text>')
        y += LEGEND_LINE
    x = float(MARGIN)
    for symbol, name in entries:
        wide = 28 + LETTER * len(name)
        if x > MARGIN and x + wide > most - MARGIN:
            x, y = float(MARGIN), y + LEGEND_LINE
        parts += [symbol(x, y), f'<text x="{x + 27:.0f}" y="{y}">{escape(name)}</text>']
        x += wide + 18
    return parts, most, y + 4 if entries else y - LEGEND_LINE + 4


def document(title, size, above, below, definitions=""):
    """The text of a picture: the legend above, and what is drawn below it."""
    (width, height), (legend_parts, legend_height) = size, above
    height += legend_height
    return "\n".join(
        [
            f'<svg xmlns="http://www.w3.org/2000/svg" width="{width:.0f}" height="{height:.0f}" viewBox="0 0 {width:.0f} {height:.0f}" '
            f'font-family="DejaVu Sans, Verdana, sans-serif" font-size="{FONT}">',
            f"<title>{escape(title)}</title>",
            *([f"<defs>{definitions}</defs>"] if definitions else []),
            f'<rect width="{width:.0f}" height="{height:.0f}" fill="#ffffff"/>',
            *legend_parts,
            f'<g transform="translate(0 {legend_height:.0f})">',
            *below,
            "</g>",
            "</svg>",
            "",
        ]
    )
