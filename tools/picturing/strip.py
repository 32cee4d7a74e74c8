"""A trace as a strip: a column for each claim, and a row for each class or for each place. Colours are classes.

With more claims than the picture has columns, a column stands for several claims, and what a row has of them is drawn as high as its part."""
from collections import Counter
from html import escape

from jobs import task as shown_task
from svg import LETTER, MARGIN, colour_of, counted, document, legend, swatch

WIDTH = 1400
ROW, GAP = 26, 4
# Up to this many claims each column is as wide as the longest parameters, which it shows.
MOST_WRITTEN = 60
# With more rows than these, rows are thin.
MOST_ROWS = 60


class Strip:
    """The claims of a trace in columns of this many, with the row of each."""

    def __init__(self, order, rows, row_of):
        self.order, self.rows, self.row_of = order, rows, row_of
        self.each = max(1, -(-len(order) // WIDTH))
        self.columns = max(1, -(-len(order) // self.each))
        self.is_written = len(order) <= MOST_WRITTEN
        longest = max([len(shown(it)) for it in order] + [1])
        self.wide = LETTER * longest + 8 if self.is_written else max(1, WIDTH // self.columns)
        self.high = ROW if len(rows) <= MOST_ROWS else max(3, ROW * MOST_ROWS // len(rows))
        self.gap = GAP if len(rows) <= MOST_ROWS else 1


def shown(name):
    return ", ".join(name[1:])


def places_of(job, most):
    """The place of the affinity of each task of a job."""
    found, name = {}, ()
    for line in job.graph_lines(most):
        fields = line.decode().rstrip("\n").split(",")
        if fields[0] == "task":
            name = tuple(fields[1:])
        elif fields[0] == "at":
            found[name] = tuple(fields[2:])
    return found


def text(strip, classes, title):
    """The picture of a strip."""
    colours = {cls: colour_of(at % 8) for at, cls in enumerate(classes)}
    counts = Counter(it[0] for it in strip.order)
    entries = [(swatch(*colours[cls]), f"{cls}: {counts[cls]:,}") for cls in classes]
    left = MARGIN + LETTER * max([len(it) for it in strip.rows] + [1]) + 10
    width, height = left + strip.wide * strip.columns + MARGIN, (strip.high + strip.gap) * len(strip.rows) + MARGIN + 40
    note = f"{counted(len(strip.order), 'claim')} in their order" + (f"; a column stands for {strip.each:,} claims" if strip.each > 1 else "")
    above, wide, high = legend(title, [note], entries, width)
    parts = rows_of(strip, left) + claims_of(strip, left, colours) + scale(strip, left)
    return document(title, (max(width, wide), height), (above, high), parts)


def top_of(strip, row):
    return MARGIN + row * (strip.high + strip.gap)


def rows_of(strip, left):
    """The names of the rows, with a line below each."""
    found = []
    for at, name in enumerate(strip.rows):
        y = top_of(strip, at)
        found.append(f'<path d="M{left:.1f} {y + strip.high:.1f} H{left + strip.wide * strip.columns:.1f}" stroke="#dddddd" fill="none"/>')
        if strip.high > 10 or at % -(-14 // strip.high) == 0:
            found.append(f'<text x="{left - 8:.1f}" y="{y + strip.high / 2 + 4:.1f}" text-anchor="end">{escape(name)}</text>')
    return found


def claims_of(strip, left, colours):
    """The claims, those of one column, row and class in one field."""
    row_number = {name: at for at, name in enumerate(strip.rows)}
    found = []
    for column in range(strip.columns):
        first = column * strip.each
        claims = strip.order[first : first + strip.each]
        filled = Counter()
        for (row, cls), count in Counter((strip.row_of[it], it[0]) for it in claims).items():
            part = strip.high * count / strip.each
            filled[row] += part
            y = top_of(strip, row_number[row]) + strip.high - filled[row]
            hint = f"claim {first + 1:,}: {shown_task(claims[0])}" if strip.each == 1 else f"claims from {first + 1:,}: {count} {cls}"
            found.append(field(strip, (left + column * strip.wide, y, part), colours[cls], hint, shown(claims[0])))
    return found


def field(strip, at, colours, hint, params):
    """A field of claims, with the parameters of its task where there is room."""
    (x, y, high), (fill, line) = at, colours
    outline = f' stroke="{line}"' if strip.wide >= 6 else ""
    fill = fill if strip.wide >= 6 else line
    rect = f'<rect class="claim" x="{x:.1f}" y="{y:.1f}" width="{strip.wide:.1f}" height="{high:.2f}" fill="{fill}"{outline}><title>{escape(hint)}</title></rect>'
    if not strip.is_written:
        return rect
    return rect + f'<text x="{x + strip.wide / 2:.1f}" y="{y + high / 2 + 4:.1f}" text-anchor="middle">{escape(params)}</text>'


def scale(strip, left):
    """The numbers of claims below the strip."""
    count, y = len(strip.order), top_of(strip, len(strip.rows)) + 14
    step, room = 1, LETTER * len(f"{count:,}") + 8
    while step * strip.wide / strip.each < room:
        step = step * 5 // 2 if str(step)[0] == "2" else step * 2
    found = []
    for claim in range(step, count + 1, step):
        x = left + ((claim - 1) // strip.each + 0.5) * strip.wide
        found.append(f'<text x="{x:.1f}" y="{y:.1f}" text-anchor="middle" fill="#666666">{claim:,}</text>')
    return found
