"""The picture of a replay: a timeline with one row a stream and port."""

import os

from .axis import Axis
from .canvas import PngCanvas, SvgCanvas
from .release_records import REASONS
from .timeline import MOST_TUNINGS, OTHER_TUNINGS, POINTS, Timeline, joined, joined_losses

LEFT, RIGHT, TOP = 180, 40, 52
BAR, PITCH = 20, 36
LEGEND_LINE = 20
MARK = 8
INK, GREY, GRID, LOSS = "#222222", "#9a9a9a", "#e4e4e4", "#d00000"
TUNING_COLORS = (
    "#1f77b4", "#2ca02c", "#ff9f1c", "#9467bd", "#17becf",
    "#8c564b", "#e377c2", "#7fa51b", "#3a4cc0", "#b8a100",
)  # fmt: skip
REASON_COLORS = {
    1: "#555555", 2: "#c62828", 3: "#6a1b9a", 4: "#00695c", 5: "#37474f", 6: "#ad6b00", 7: "#a0156b",
}  # fmt: skip
assert len(TUNING_COLORS) == MOST_TUNINGS


def is_picture_name(path):
    return os.path.splitext(path)[1].lower() in (".svg", ".png")


def points_of(pairs, first, span):
    """Stretches of time as stretches of points, each at least one point long."""
    found = []
    for start, end in pairs:
        left = (start - first) * POINTS / span
        found.append((left, max(left + 1, (end - first) * POINTS / span)))
    return found


def layered(stretches):
    """Cuts stretches of points, by their look, into pieces `(left, right, looks)` with the looks that all of
    the piece has. So looks that change faster than points can show stand one above the other."""
    edges = {}
    for look, pairs in stretches.items():
        for left, right in pairs:
            edges.setdefault(left, []).append((1, look))
            edges.setdefault(right, []).append((-1, look))
    pieces, counts, since = [], dict.fromkeys(stretches, 0), None
    for place in sorted(edges):
        looks = tuple(sorted(look for look, number in counts.items() if number))
        if looks:
            if pieces and pieces[-1][1] == since and pieces[-1][2] == looks:
                pieces[-1] = (pieces[-1][0], place, looks)
            else:
                pieces.append((since, place, looks))
        for change, look in edges[place]:
            counts[look] += change
        since = place
    return pieces


class Picture:
    """Collects records and draws them."""

    def __init__(self, code="utc"):
        self.code = code
        self.timeline = Timeline()

    def add(self, record):
        self.timeline.add(record)

    def write(self, path):
        """Writes the file, as its name says in SVG or PNG."""
        height = self.height()
        width = LEFT + POINTS + RIGHT
        canvas = SvgCanvas(width, height) if path.lower().endswith(".svg") else PngCanvas(width, height)
        self.draw(canvas)
        with open(path, "wb") as file:
            file.write(canvas.bytes())

    def height(self):
        return TOP + PITCH * max(1, len(self.timeline.rows)) + 56 + LEGEND_LINE * (len(self.legend()) + 1)

    def legend(self):
        """What is drawn and what it means, one line each."""
        line = self.timeline
        lines = [(("tuning", at), tuning.text()) for at, tuning in enumerate(line.tunings)]
        if any(OTHER_TUNINGS in row.stretches for row in line.rows.values()):
            lines.append((OTHER_TUNINGS, "other tunings"))
        lines += [(("reason", reason), f"uncertain: {REASONS[reason]}") for reason in sorted(line.reasons)]
        if line.has_losses:
            lines.append((("lost", 0), "packets lost before this point"))
        return lines

    def draw(self, canvas):
        line = self.timeline
        canvas.text(LEFT, 22, "Samples released, by stream and port")
        if not line.rows:
            canvas.text(LEFT, TOP + BAR, "no samples and no packets were released")
            return
        span = max(1, line.last - line.first)
        bottom = TOP + PITCH * len(line.rows)
        self.draw_axis(canvas, Axis(line.first, line.last, self.code), span, bottom)
        for place, ((stream, port), row) in enumerate(sorted(line.rows.items())):
            top = TOP + PITCH * place
            canvas.text(LEFT - 12, top + 15, f"stream {stream:08X}, port {port}", "end")
            self.draw_row(canvas, row, span, top)
        self.draw_legend(canvas, bottom + 64)

    def draw_axis(self, canvas, axis, span, bottom):
        canvas.box(LEFT, bottom, POINTS, 1, INK)
        for tick in axis.ticks:
            x = LEFT + (tick - self.timeline.first) * POINTS / span
            canvas.box(x, TOP - MARK - 2, 1, bottom - TOP + MARK + 2, GRID)
            canvas.box(x, bottom, 1, 5, INK)
            canvas.text(x, bottom + 18, axis.label(tick), "middle")
        canvas.text(LEFT + POINTS, bottom + 38, axis.title(), "end")

    def draw_row(self, canvas, row, span, top):
        first, point = self.timeline.first, max(1, span // POINTS)
        stretches = {look: points_of(joined(pairs, point), first, span) for look, pairs in row.stretches.items()}
        for left, right, looks in layered(stretches):
            high = BAR / len(looks)
            for place, look in enumerate(looks):
                self.draw_look(canvas, look, LEFT + left, top + place * high, right - left, high)
        for moment, _number in joined_losses(row.losses, MARK * point):
            x = LEFT + (moment - first) * POINTS / span
            canvas.box(x - 0.5, top, 1, BAR, LOSS)
            canvas.mark(x, top, MARK, LOSS)

    def draw_look(self, canvas, look, x, y, width, height):
        kind, number = look
        if kind == "reason":
            canvas.hatch(x, y, width, height, REASON_COLORS[number], number)
        elif look == OTHER_TUNINGS:
            canvas.box(x, y, width, height, GREY)
        else:
            canvas.box(x, y, width, height, TUNING_COLORS[number])

    def draw_legend(self, canvas, top):
        for place, (look, words) in enumerate(self.legend()):
            y = top + LEGEND_LINE * place
            if look[0] == "lost":
                canvas.mark(LEFT + 14, y + 11, MARK, LOSS)
            else:
                self.draw_look(canvas, look, LEFT, y, 28, 13)
            canvas.text(LEFT + 38, y + 11, words)
