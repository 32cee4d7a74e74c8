"""The width of a graph as SVG: how many tasks stand at each level, by class.

A task stands from its level without its weight up to its level, so that of classes without weights each task stands at one level. With more
levels than the picture has columns, a column shows the mean of its levels."""
from html import escape
from itertools import accumulate

from svg import LETTER, MARGIN, colour_of, counted, document, legend, stroke, swatch

WIDTH, HEIGHT = 1000, 320
WIDEST_BAR = 28
MEAN = "#b91c1c"


class Profile:
    """How many tasks of each class stand at each level, in columns of this many levels."""

    def __init__(self, certificate, weights):
        self.classes = list(dict.fromkeys(name[0] for name in certificate.levels))
        self.counts = {cls: 0 for cls in self.classes}
        self.levels = certificate.weight
        self.each = max(1, -(-self.levels // WIDTH))
        self.columns = max(1, -(-self.levels // self.each))
        heights = {cls: Steps(self.columns, self.each) for cls in self.classes}
        self.work = 0
        for name, level in certificate.levels.items():
            weight = weights.get(name[0], 1)
            self.counts[name[0]] += 1
            self.work += weight
            heights[name[0]].add(level - weight, level)
        self.heights = {cls: it.means(self.levels) for cls, it in heights.items()}
        self.totals = [sum(column) for column in zip(*self.heights.values())]

    def mean(self):
        return self.work / self.levels if self.levels else 0.0


class Steps:
    """A sum of steps of height 1, each from one level to another one, in columns."""

    def __init__(self, columns, each):
        self.each = each
        # the levels that steps cover of the columns in which they begin or end, and how many cover a column and those after it
        self.parts, self.whole = [0] * (columns + 1), [0] * (columns + 2)

    def add(self, first, last):
        begin, end = first // self.each, last // self.each
        if begin == end:
            self.parts[begin] += last - first
            return
        self.parts[begin] += (begin + 1) * self.each - first
        self.parts[end] += last - end * self.each
        self.whole[begin + 1] += 1
        self.whole[end] -= 1

    def means(self, levels):
        """The mean of each column, of which the last one may have fewer levels."""
        found = []
        for column, whole in enumerate(accumulate(self.whole[: len(self.parts) - 1])):
            room = min(self.each, levels - column * self.each)
            found.append((self.parts[column] + whole * self.each) / room if room > 0 else 0)
        return found


def text(profile, title):
    """The picture of a profile."""
    most = max(profile.totals + [1])
    left, bar = MARGIN + LETTER * len(f"{most:,.0f}"), min(WIDEST_BAR, max(1, WIDTH // profile.columns))
    right = left + bar * profile.columns
    colours = {cls: colour_of(at % 8) for at, cls in enumerate(profile.classes)}
    entries = [(swatch(*colours[cls]), f"{cls}: {profile.counts[cls]:,}") for cls in profile.classes]
    entries.append((stroke(MEAN, 1.6, "6 4"), f"mean: {profile.mean():,.2f}"))
    above, wide, high = legend(title, [note_of(profile)], entries, right + MARGIN)
    parts = grid(most, left, right) + bars(profile, left, bar, HEIGHT / most, colours) + scale(profile, left, bar)
    y = MARGIN + HEIGHT - profile.mean() * HEIGHT / most
    parts.append(f'<path class="mean" d="M{left:.1f} {y:.1f} H{right:.1f}" stroke="{MEAN}" stroke-width="1.6" stroke-dasharray="6 4" fill="none"/>')
    return document(title, (max(right + MARGIN, wide), HEIGHT + 2 * MARGIN + 36), (above, high), parts)


def note_of(profile):
    widest = max(range(profile.columns), key=lambda at: profile.totals[at])
    each = f"; a column shows the mean of {profile.each:,} levels" if profile.each > 1 else ""
    return (
        f"{counted(sum(profile.counts.values()), 'task')}, {counted(profile.levels, 'level')}: widest {profile.totals[widest]:,.4g} "
        f"at level {widest * profile.each + 1:,}{each}"
    )


def bars(profile, left, bar, up, colours):
    """The bars, those of the first class at the bottom."""
    found, tops = [], [0.0] * profile.columns
    gap = 1 if bar >= 6 else 0
    for cls in profile.classes:
        fill = colours[cls][0 if bar > 8 else 1]
        for at, height in enumerate(profile.heights[cls]):
            if height:
                y = MARGIN + HEIGHT - (tops[at] + height) * up
                hint = f"level {at * profile.each + 1:,}: {height:g} {cls}" if profile.each == 1 else f"levels from {at * profile.each + 1:,}: {height:.4g} {cls}"
                found.append(
                    f'<rect class="bar" x="{left + at * bar:.1f}" y="{y:.2f}" width="{bar - gap}" height="{height * up:.2f}" fill="{fill}">'
                    f"<title>{escape(hint)}</title></rect>"
                )
                tops[at] += height
    return found


def step_of(most, wanted):
    """A round distance between marks, so that at most this many stand up to a number."""
    step = 1
    while most / step > wanted:
        step = step * 5 // 2 if str(step)[0] == "2" else step * 2
    return step


def grid(most, left, right):
    """Lines across the picture, each with its number of tasks."""
    found, step, mark = [], step_of(most, 8), 0
    while mark <= most:
        y = MARGIN + HEIGHT - mark * HEIGHT / most
        found.append(f'<path d="M{left:.1f} {y:.1f} H{right:.1f}" stroke="{"#333333" if mark == 0 else "#dddddd"}" fill="none"/>')
        found.append(f'<text x="{left - 6:.1f}" y="{y + 4:.1f}" text-anchor="end">{mark:,}</text>')
        mark += step
    return found


def scale(profile, left, bar):
    """The numbers of levels below the bars."""
    wide = LETTER * len(f"{profile.levels:,}") + 10
    step = step_of(profile.levels, max(1, bar * profile.columns / wide))
    found = []
    for level in range(step, profile.levels + 1, step):
        x = left + ((level - 1) / profile.each + 0.5) * bar
        found.append(f'<text x="{x:.1f}" y="{MARGIN + HEIGHT + 17}" text-anchor="middle">{level:,}</text>')
    return found + [f'<text x="{left + bar * profile.columns / 2:.1f}" y="{MARGIN + HEIGHT + 36}" text-anchor="middle">level</text>']
