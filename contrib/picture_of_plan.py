"""The picture of a problem with its plan."""
import textwrap

from drawing import MOST_HIGH, MOST_WIDE, Drawing, cut, width_of
from starts_of_plan import starts

KINDS = {0: "good", 2: "near", 4: "far", 6: "bad"}
SAYS = {0: "on a holder", 2: "in its rack", 4: "to another rack", 6: "to another centre"}
ROW, GAP, HEAD, LEAST_WIDE = 16, 10, 48, 760
MOST_NAMED = 40
# How many rows a column of a rack has, tried until the whole is low enough.
COLUMNS = (48, 32, 24, 16, 12, 8)
# How many cells with a name stand in a row; a worker with more has several rows.
NAMED_CELLS = 6


class Sizes:
    """How wide names and cells are: wide cells with the split's name in a small plan, narrow ones in a large one."""

    def __init__(self, wave, named):
        self.named = named
        self.splits = cut([wave.split_names[s] for s, _ in wave.started], 12)
        self.cell = width_of(max(map(len, self.splits.values()), default=1) + 2, 10) + 8 if named else 11
        self.workers = cut(wave.worker_names, 24 if named else 12)
        self.names = width_of(max(map(len, self.workers.values()), default=1), 11) + 11
        most = max(wave.text.free, default=0)
        self.cells = max(min(most, NAMED_CELLS) if named else most, 1)
        self.column = self.names + min(most, self.cells) * self.cell + 10
        # (a rack's name stands above its workers, and fits)
        self.racks = cut(wave.text.numbers["rack"], 24)
        self.rack = max(self.column, width_of(max(map(len, self.racks.values()), default=1), 11) + 16)


def draw_plan(problem, answer):
    """Draws a plan; a Fault where the answer is no plan of the problem."""
    wave = starts(problem, answer)
    count, cost, *places = wave.figures()
    pending = [s for s in wave.splits if ("busy", wave.split_names[s]) not in wave.text.marks]
    head = f"{count:,} of {len(pending):,} pending splits start, at a byte-distance of {cost:,}"
    head += "".join(f", on places that cost {price:,}" for price in places)
    drawing = Drawing(head)
    drawing.text(0, 14, head, 15)
    legend(drawing, wave)
    notes = notes_of(wave, pending)
    racks = laid_out(wave, MOST_HIGH - HEAD - 24 - 16 * sum(1 + len(it) // 200 for it in notes))
    for centre, x, y, wide, high in racks.centres:
        drawing.box(x, y + HEAD, wide, high, "line", corner=4)
        drawing.text(x + GAP, y + HEAD + 15, centre, 12)
    for rack, (x, y) in racks.places.items():
        rack_box(drawing, wave, racks, rack, x, y + HEAD)
    wide = max(min(drawing.width, MOST_WIDE), LEAST_WIDE)
    wrap = textwrap.TextWrapper(int(wide / width_of(1, 11)), subsequent_indent="    ")
    for row, words in enumerate(line for note in notes for line in wrap.wrap(note)):
        drawing.text(0, HEAD + racks.high + 16 + 16 * row, words, 11)
    return drawing


def legend(drawing, wave):
    """What the cells mean, with how many there are of each."""
    x, y = 0, 24
    steps = [min(wave.distance(holder, w) for holder in wave.live_holders[s]) for s, w in wave.started]
    for far, kind in KINDS.items():
        if far == 6 and len(wave.text.numbers["centre"]) < 2:
            continue
        words = f"{SAYS[far]}: {steps.count(far):,}"
        cell(drawing, x, y, 12, kind, str(far))
        drawing.text(x + 17, y + 10, words, 11)
        x += width_of(len(words), 11) + 36
    drawing.box(x, y, 12, 12, "hollow")
    free = sum(free for free, lives in zip(wave.text.free, wave.lives) if lives)
    drawing.text(x + 17, y + 10, f"free: {free - len(wave.started):,}", 11)


def cell(drawing, x, y, width, kind, words, says=""):
    drawing.box(x, y, width, 12, kind, says, 2)
    drawing.text(x + width / 2, y + 9.4, words, 10, "dark", "middle")


class Racks:
    """Where the racks of a wave stand: side by side in rows, those of a centre in its box, the whole at most so wide. A
    rack has its workers in columns of at most so many."""

    def __init__(self, wave, sizes, most, wide):
        self.wave, self.sizes, self.most, self.wide = wave, sizes, most, wide
        self.workers = [[] for _ in wave.text.numbers["rack"]]
        for w, rack in enumerate(wave.text.rack_of):
            self.workers[rack].append(w)
        self.places, self.centres, self.right, self.high = {}, [], 0, 0
        names = list(wave.text.numbers["centre"])
        racks_of = [[r for r, of in enumerate(wave.text.centre_of) if of == (name,)] for name in names]
        inner = [self.rows_of(some, 2 * GAP) for some in racks_of]
        if not names:
            self.place(self.rows_of(range(len(self.workers)), 0)[0], 0, 0)
        x = y = below = 0
        for name, (places, across, high) in zip(names, inner):
            across, high = max(across, width_of(len(name), 12) + GAP) + GAP, max(high, 4) + 24
            if x and x + across > wide:
                x, y, below = 0, y + below, 0
            self.centres.append((name, x, y, across, high))
            self.place(places, x + GAP, y + 24)
            x, below = x + across + GAP, max(below, high + GAP)
            self.right, self.high = max(self.right, x - GAP), max(self.high, y + below)

    def rows(self, w):
        """How many rows a worker has."""
        return max(-(-self.wave.text.free[w] // self.sizes.cells), 1)

    def columns(self, rack):
        """The workers of a rack in each of its columns, with the row from which on each stands."""
        rows, across = sum(map(self.rows, self.workers[rack])), int((self.wide - 2 * GAP) // self.sizes.column)
        most = -(-rows // max(1, min(-(-rows // self.most), across)))
        columns, row = [[]], 0
        for w in self.workers[rack]:
            if row >= most:
                columns.append([])
                row = 0
            columns[-1].append((w, row))
            row += self.rows(w)
        return columns

    def size(self, rack):
        columns = self.columns(rack)
        rows = max((row + self.rows(w) for column in columns for w, row in column), default=0)
        return max(len(columns) * self.sizes.column, self.sizes.rack), 20 + ROW * rows

    def rows_of(self, racks, margin):
        """The places of some racks, and how wide and how high they are together."""
        places, x, y, across, high = {}, 0, 0, 0, 0
        for rack in racks:
            wide, tall = self.size(rack)
            if x and x + wide > self.wide - margin:
                x, y, high = 0, y + high, 0
            places[rack] = (x, y)
            x, high = x + wide + GAP, max(high, tall + GAP)
            across = max(across, x)
        return places, across, y + high

    def place(self, places, left, top):
        for rack, (x, y) in places.items():
            self.places[rack] = (left + x, top + y)
            wide, tall = self.size(rack)
            self.right, self.high = max(self.right, left + x + wide), max(self.high, top + y + tall + GAP)


def laid_out(wave, most_high):
    """The first way to lay the racks out that is wide and high enough: with the names of splits in their cells where
    there are few workers, about as wide as a page."""
    for named in [True, False][len(wave.workers) > MOST_NAMED :]:
        sizes = Sizes(wave, named)
        area = sizes.rack * sum(1 + wave.text.rack_of.count(r) for r in range(len(wave.text.centre_of)))
        page = min(max((1.8 * ROW * area) ** 0.5, LEAST_WIDE), MOST_WIDE)
        for most in COLUMNS:
            for wide in (page, MOST_WIDE):
                racks = Racks(wave, sizes, most, wide)
                if racks.right <= MOST_WIDE and racks.high <= most_high:
                    return racks
    return racks


def rack_box(drawing, wave, racks, rack, x, y):
    """A rack with a row for each of its workers, in columns."""
    text, sizes = wave.text, racks.sizes
    drawing.box(x, y, *racks.size(rack), "box", corner=4)
    drawing.text(x + 6, y + 13, sizes.racks[list(text.numbers["rack"])[rack]], 11, "faint")
    for at, column in enumerate(racks.columns(rack)):
        for w, row in column:
            worker(drawing, wave, racks, w, x + at * sizes.column, y + 19 + ROW * row)


def worker(drawing, wave, racks, w, x, y):
    """A worker with its slots; a dead one is crossed out."""
    sizes = racks.sizes
    drawing.text(x + 6, y + 10, sizes.workers[wave.worker_names[w]], 11)
    held = [s for s, of in wave.started if of == w]
    for place in range(wave.text.free[w]):
        left, top = x + sizes.names + place % sizes.cells * sizes.cell, y + place // sizes.cells * ROW
        if place < len(held):
            start(drawing, wave, sizes, held[place], w, left, top)
        else:
            drawing.box(left, top, sizes.cell - 2, 12, "hollow", corner=2)
    if not wave.lives[w]:
        right = x + sizes.names + min(wave.text.free[w], sizes.cells) * sizes.cell
        drawing.line(x + 4, y + 6, right, y + 6, "mark", 1.4)


def start(drawing, wave, sizes, s, w, x, y):
    """The cell of a started split."""
    far, name = min(wave.distance(holder, w) for holder in wave.live_holders[s]), wave.split_names[s]
    words = f"{sizes.splits[name]} {far}" if sizes.named else str(far)
    says = f"{name} of {wave.text.bytes[s]:,} bytes on {wave.worker_names[w]}: {far} steps"
    cell(drawing, x, y, sizes.cell - 2, KINDS[far], words, says)


def listed(names, most=12):
    """Names, as far as there is room for them."""
    some = ", ".join(names[:most])
    return some + (f", and {len(names) - most:,} more" if len(names) > most else "")


def greatest(prices, most=4):
    """The greatest prices but 0, each with its name, or where more have the same with how many."""
    names_at = {}
    for name in sorted((name for name in prices if prices[name]), key=lambda name: (-prices[name], name)):
        names_at.setdefault(prices[name], []).append(name)
    found = []
    for price, some in names_at.items():
        if len(found) + len(some) > most:
            return found + [f"{len(some):,} of {price:,} each"] if len(some) > 1 else found
        found += [f"{name} {price:,}" for name in some]
    return found


def notes_of(wave, pending):
    """What waits, and the greatest prices of splits and of slots."""
    waiting, others = [s for s in pending if wave.start[s] is None], {*wave.splits} - {*pending}
    notes = []
    for words, some in (
        ("wait for a slot", [s for s in waiting if wave.is_open[s]]),
        ("without a live holder", [s for s in waiting if not wave.is_open[s]]),
        ("not pending", sorted(others)),
    ):
        if some:
            notes.append(f"{words}, {len(some):,}: {listed([wave.split_names[s] for s in some])}")
    prices = {"split": zip(wave.split_names, wave.price), "slot": zip(wave.worker_names, wave.slot_price)}
    for words, some in prices.items():
        found = greatest(dict(some))
        if found:
            notes.append(f"greatest {words} prices: " + ", ".join(found))
    return notes
