#!/usr/bin/env python3
"""Draws what plan_sizes.sh told: microseconds by splits, both as logarithms, a curve for each number of workers, ours
whole and LEMON's broken.

    plot_sizes.py TITLE < TABLE > PICTURE.svg
"""
import math
import sys
from pathlib import Path

sys.dont_write_bytecode = True
sys.path.append(str(Path(__file__).resolve().parent.parent / "contrib"))
from drawing import Drawing, FILLS, width_of

WIDE, HIGH, GAP = 250, 250, 78
COLOURS = ["good", "near", "bad"]
STEPS = [times * 10**power for power in range(7) for times in (1, 2, 5)]


def read(lines):
    """The times of each shape, by workers and splits: ours and LEMON's."""
    times = {}
    for words in (line.split() for line in lines):
        if len(words) == 6 and words[1].isdigit():
            shape, splits, workers, ours, theirs = words[0], *map(int, words[1:5])
            times.setdefault(shape, {}).setdefault(workers, {})[splits] = (ours, theirs)
    return times


class Panel:
    """A chart of one shape, with logarithmic scales that all panels share."""

    def __init__(self, left, top, splits, found):
        self.left, self.top, self.splits = left, top, sorted(splits)
        self.low = max(step for step in STEPS if step <= min(found))
        self.high = min(step for step in STEPS if step >= max(found))

    def x(self, splits):
        least, most = self.splits[0], self.splits[-1]
        return self.left + WIDE * (math.log(splits / least) / math.log(most / least) if most > least else 0.5)

    def y(self, time):
        return self.top + HIGH * (1 - math.log(time / self.low) / math.log(self.high / self.low))

    def frame(self, drawing, shape):
        drawing.text(self.left, self.top - 10, shape, 13)
        for step in (step for step in STEPS if self.low <= step <= self.high):
            drawing.line(self.left, self.y(step), self.left + WIDE, self.y(step))
            drawing.text(self.left - 6, self.y(step) + 4, f"{step:,}", 11, "faint", "end")
        for splits in self.splits:
            drawing.line(self.x(splits), self.top + HIGH, self.x(splits), self.top + HIGH + 5)
            drawing.text(self.x(splits), self.top + HIGH + 18, f"{splits:,}", 11, "faint", "middle")

    def curve(self, drawing, of, colour, is_ours):
        points = [(self.x(splits), self.y(time)) for splits, time in sorted(of.items())]
        steps = "L".join(f"{x:.1f} {y:.1f}" for x, y in points)
        broken = "" if is_ours else ' stroke-dasharray="6 4"'
        drawing.path(f"M{steps}", "curve", 2.2, f' style="stroke:{FILLS[colour]};fill:none"{broken}')
        for x, y in points:
            drawing.box(x - 3, y - 3, 6, 6, colour, corner=0 if is_ours else 3)


def draw(title, times):
    drawing = Drawing(title)
    drawing.text(0, 14, title, 15)
    workers = sorted({workers for of in times.values() for workers in of})
    x = 0
    for words, colour in zip((f"{it} workers" for it in workers), COLOURS):
        drawing.box(x, 26, 12, 12, colour)
        drawing.text(x + 18, 36, words, 11)
        x += width_of(len(words), 11) + 40
    for words, broken in (("mrjob", ""), ("LEMON", ' stroke-dasharray="6 4"')):
        drawing.line(x, 32, x + 30, 32, "mark", 2, broken)
        drawing.text(x + 38, 36, words, 11)
        x += width_of(len(words), 11) + 60
    found = [time for of in times.values() for sizes in of.values() for both in sizes.values() for time in both]
    for place, (shape, of) in enumerate(times.items()):
        panel = Panel(60 + place * (WIDE + GAP), 80, {splits for sizes in of.values() for splits in sizes}, found)
        panel.frame(drawing, shape)
        for workers_, colour in zip(workers, COLOURS):
            for which, is_ours in ((1, False), (0, True)):
                sizes = {splits: both[which] for splits, both in of.get(workers_, {}).items()}
                panel.curve(drawing, sizes, colour, is_ours)
    says = "microseconds of a whole process, by splits; both scales are logarithmic"
    drawing.text(0, 80 + HIGH + 40, says, 11, "faint")
    return drawing


def main():
    if len(sys.argv) != 2:
        sys.exit(__doc__.strip())
    times = read(sys.stdin)
    if not times:
        sys.exit("plot_sizes.py: there is no table")
    sys.stdout.write(draw(sys.argv[1], times).svg())


if __name__ == "__main__":
    main()
