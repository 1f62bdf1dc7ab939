"""The picture of a script with its report, or of a job with the history of its run."""
from course import course_of
from drawing import MOST_HIGH, Drawing, cut, width_of

# How wide a chart is of few events, and of many.
FEW, NARROW, WIDE = 60, 640, 1040
# How high the foot is, with the places.
FOOT = 36
# How an attempt ended: the class of its bar, and the words of its title.
ENDS = {
    "done": ("good", "done"),
    "undone": ("far", "done, and then lost with its worker"),
    "outrun": ("hollow", "the split's other attempt was done first"),
    "failed": ("bad", "failed"),
    "withdrawn": ("hollow", "withdrawn"),
    "lost": ("hatch", "lost with its worker"),
    "runs": ("grey", "still runs"),
}


class Chart:
    """Where the history's places and the workers' rows lie."""

    def __init__(self, history, wide, top):
        workers = len(history.slots)
        self.top, self.row = top, 26 if workers <= 16 else 16 if workers <= 64 else 9
        self.row = min(self.row, (MOST_HIGH - top - FOOT) / max(workers, 1))
        self.size = 11 if workers <= 64 else 8
        self.wide = wide
        self.names = cut(history.slots, 16)
        self.left = width_of(max(map(len, self.names.values()), default=1), self.size) + 10
        self.last = max(history.place + 1, 2)
        self.rows = {name: top + at * self.row for at, name in enumerate(history.slots)}
        self.bottom = top + workers * self.row

    def x(self, place):
        return self.left + self.wide * (place - 0.5) / (self.last - 0.5)


def ending_of(history):
    """How it ended, in words."""
    keyword, number = history.ending.split(" ")
    if keyword == "index":
        return f"done, an index of {int(number):,} words"
    if number != "0":
        return f"{int(number):,} splits are open at the end"
    has_parts = any(it.kind == "part" for it in history.attempts.values())
    return "every split is mapped, and " + ("a part is not done" if has_parts else "no part is told of")


def draw_report(script, report):
    """Draws a report or a history; a Fault where it is not of the script or job."""
    history = course_of(script, report)
    counts = f"{len(history.attempts):,} attempts, {history.place:,} events"
    if script.startswith(b"script "):
        counts += f", {history.ignored:,} ignored"
    drawing = Drawing(f"{counts}; {ending_of(history)}")
    drawing.text(0, 14, f"{counts}; {ending_of(history)}", 15)
    wide = NARROW if history.place <= FEW else WIDE
    chart = Chart(history, wide, 62 + legend(drawing, history, wide))
    frame(drawing, chart, history)
    lanes = {}
    for attempt in history.attempts.values():
        bar(drawing, chart, history, lanes, attempt)
    for place, worker in history.deaths:
        cross(drawing, chart.x(place), chart.rows[worker] + chart.row / 2, chart.row / 3.2)
    for place, worker in history.returns:
        x, y, size = chart.x(place), chart.rows[worker] + chart.row / 2, chart.row / 3.2
        arrow(drawing, x, y, size)
    return drawing


def legend(drawing, history, wide):
    """The kinds of bars and marks that the picture has, in rows, and how high these are."""
    found = {it.how for it in history.attempts.values()}
    kinds = {it.kind for it in history.attempts.values()}
    bar_of = lambda kind, how: lambda x, y: shape(drawing, x, y, 22, 12, kind, how, "")
    entries = [(how, bar_of("map", how)) for how in ENDS if how in found]
    entries += [(kind, bar_of(kind, "done")) for kind in ("part", "backup") if kind in kinds]
    entries += [("death", lambda x, y: cross(drawing, x + 14, y + 6, 5))] * bool(history.deaths)
    entries += [("return", lambda x, y: arrow(drawing, x + 14, y + 6, 5))] * bool(history.returns)
    x, y = 0, 24
    for words, draw in entries:
        if x + 28 + width_of(len(words), 11) > wide:
            x, y = 0, y + 18
        draw(x, y)
        drawing.text(x + 28, y + 10, words, 11)
        x += width_of(len(words), 11) + 44
    return y - 20


def cross(drawing, x, y, size):
    drawing.path(f"M{x - size:.1f} {y - size:.1f}L{x + size:.1f} {y + size:.1f}"
                 f"M{x - size:.1f} {y + size:.1f}L{x + size:.1f} {y - size:.1f}", "mark", 2.2)


def arrow(drawing, x, y, size):
    drawing.path(f"M{x - size:.1f} {y - size:.1f}L{x + size:.1f} {y:.1f}L{x - size:.1f} {y + size:.1f}Z", "mark", 1.6)


def frame(drawing, chart, history):
    """The rows with their workers, the waves and plans ahead as ticks, and the places along the foot."""
    right = chart.left + chart.wide
    for at, (name, top) in enumerate(chart.rows.items()):
        if at % 2 == 0:
            drawing.box(chart.left, top, chart.wide, chart.row, "box", more=' stroke="none" style="stroke:none"')
        drawing.text(0, top + chart.row / 2 + chart.size / 3, chart.names[name], chart.size)
    after = -100
    for number, wave in enumerate(history.waves, 1):
        x = chart.x(wave.place)
        drawing.line(x, chart.top - 6, x, chart.bottom, "line", 1, ' stroke-dasharray="2 3"')
        words = f"{wave.keyword} {number}"
        if x > after:
            drawing.text(x, chart.top - 10, words, 10, "faint")
            after = x + width_of(len(words) + 1, 10)
    drawing.line(chart.left, chart.bottom, right, chart.bottom, "line")
    steps = (times * 10**power for power in range(7) for times in (1, 2, 5))
    step = next(step for step in steps if chart.last <= 16 * step)
    for place in range(step, history.place + 1, step):
        x = chart.x(place)
        drawing.line(x, chart.bottom, x, chart.bottom + 4, "line")
        drawing.text(x, chart.bottom + 15, f"{place:,}", 10, "faint", "middle")
    drawing.text(chart.left, chart.bottom + 30, "place in the history", 10, "faint")


def bar(drawing, chart, history, lanes, attempt):
    """An attempt in the first lane of its worker that is free."""
    free = lanes.setdefault(attempt.worker, [0] * max(history.slots[attempt.worker], 1))
    lane = next((at for at, until in enumerate(free) if until <= attempt.start), 0)
    end = attempt.end or chart.last
    free[lane] = end
    high = (chart.row - 4) / len(free)
    x, width = chart.x(attempt.start), chart.x(end) - chart.x(attempt.start)
    work = f"part {attempt.of}" if attempt.kind == "part" else f"{attempt.kind} of {attempt.of}"
    says = f"attempt {attempt.number}, {work} on {attempt.worker}: {ENDS[attempt.how][1]}"
    y = chart.rows[attempt.worker] + 2 + lane * high
    gap = 1 if high > 3 else 0
    shape(drawing, x, y, max(width - 2, 1.5), max(high - gap, 0.6), attempt.kind, attempt.how, says)
    letters = int((width - 6) / (9 * 0.62))
    if high >= 9 and letters >= min(len(attempt.of), 3):
        ink = "dark" if ENDS[attempt.how][0] not in ("hollow", "hatch") else "ink"
        words = f"part {attempt.of}" if attempt.kind == "part" and letters >= len(attempt.of) + 5 else attempt.of
        words = cut([words], letters)[words]
        if attempt.how == "lost":
            drawing.box(x + 2, y + high / 2 - 5, width_of(len(words), 9) + 2, 10, "paper")
        drawing.text(x + 3, y + high / 2 + 2.6, words, 9, ink)


def shape(drawing, x, y, width, height, kind, how, says):
    """A bar: round for a part, with a line below it for a backup, across its end for a failure, and a broken edge where
    what was done was lost, or the split's other attempt was first."""
    broken = ' stroke-dasharray="3 2"' if how in ("undone", "outrun") else ""
    edge = ' style="stroke:#111111"' if how == "undone" else ""
    drawing.box(x, y, width, height, ENDS[how][0], says, min(height, width) / 2 if kind == "part" else 0, broken + edge)
    if kind == "backup":
        drawing.line(x, y + height - 1.5, x + width, y + height - 1.5, "mark", 1.4)
    if how == "failed":
        drawing.line(x + width, y, x + width, y + height, "mark", 2.4)
    if how == "runs":
        x += width
        middle, foot = y + height / 2, y + height - 1
        drawing.path(f"M{x - 4:.1f} {y + 1:.1f}L{x:.1f} {middle:.1f}L{x - 4:.1f} {foot:.1f}", "mark", 1.4)
