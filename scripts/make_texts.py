#!/usr/bin/env python3
"""Makes texts for tests, the same ones for the same seed: problems, with plans and prices or without, scripts
and jobs.

    make_texts.py KIND SEED        writes one text; KIND is best, changed, faulty, placed, changed_placed,
                                   faulty_placed, problem, faulty_problem, placed_problem, faulty_placed_problem,
                                   script, faulty_script, vast_script, joined_script, job, wide_job,
                                   scattered_job, faulty_job, full or large
"""
import random
import re
import sys

sys.dont_write_bytecode = True
import crates  # (it ends a script quietly where head does)

MOST = {"centre": 8, "rack": 32, "worker": 256, "split": 1024}
# Of a problem of version 3, of a script of it, and how many workers of a job of it.
MOST_OF_3 = {"centre": 256, "rack": 4096, "worker": 32_768, "split": 131_072}
MOST_OF_SCRIPTS = {**MOST, "document": 65_536, "command": 65_536}
MOST_OF_SCRIPTS_3 = {**MOST_OF_3, "document": 1_048_576, "command": 1_048_576}
MOST_WORKERS_OF_JOBS_3 = 1024
KEYWORDS = ["problem", "script", "job", "centre", "rack", "worker", "split", "barred", "dead", "busy", "plan", "start"]
KEYWORDS += ["price", "end", "parts", "target", "silence", "doc", "begin", "wave", "done", "fail", "withdraw", "die"]
KEYWORDS += ["join", "add", "lose", "sweep", "reduce", "copies", "backup", "ahead", "places"]
# What stands for a letter before a number in names of version 3.
LONG = {"w": "10.0.0.1:", "r": "/hall/", "s": "1/blk_"}


def assign(costs):
    """A least assignment of rows to columns by the Hungarian method: the column of each row, and the duals of
    rows and columns, of which the columns' are at most 0. There are at least as many columns as rows."""
    rows, columns = len(costs), len(costs[0])
    u, v, row_of, way = [0] * (rows + 1), [0] * (columns + 1), [0] * (columns + 1), [0] * (columns + 1)
    for row in range(1, rows + 1):
        row_of[0], at = row, 0
        least, used = [float("inf")] * (columns + 1), [False] * (columns + 1)
        while row_of[at]:
            used[at], here, delta, following = True, row_of[at], float("inf"), 0
            for j in range(1, columns + 1):
                if not used[j]:
                    reduced = costs[here - 1][j - 1] - u[here] - v[j]
                    if reduced < least[j]:
                        least[j], way[j] = reduced, at
                    if least[j] < delta:
                        delta, following = least[j], j
            for j in range(columns + 1):
                if used[j]:
                    u[row_of[j]] += delta
                    v[j] -= delta
                else:
                    least[j] -= delta
            at = following
        while at:
            row_of[at] = row_of[way[at]]
            at = way[at]
    column_of = [None] * rows
    for j in range(1, columns + 1):
        if row_of[j]:
            column_of[row_of[j] - 1] = j - 1
    return column_of, u[1:], v[1:]


class Scenario:
    """A problem by numbers, with a plan and prices."""

    def __init__(self, rnd):
        racks = rnd.randint(1, 3)
        # (a text of version 1 has one centre, without a name)
        self.version, self.centres = rnd.choice([(1, 1), (1, 1), (2, 1), (2, 2), (2, 3), (3, 1), (3, 3)])
        self.centre_of = [rnd.randrange(self.centres) for _ in range(racks)]
        self.workers = rnd.choice([0, *[2, 3, 4, 5] * 3])
        if self.version == 3 and rnd.random() < 0.1:
            # (enough for the most holders of a split, and one that may become one more)
            self.workers = 18
        self.splits = rnd.choice([0, *[2, 3, 5, 8] * 3])
        w, s = range(self.workers), range(self.splits)
        self.racks = racks
        self.rack_of = [rnd.randrange(racks) for _ in w]
        self.free = [rnd.choice([0, 1, 1, 1, 2, 3, 16, *[17, 255] * (self.version == 3)]) for _ in w]
        self.live = [rnd.random() < 0.9 for _ in w]
        most = [67_108_864, 134_217_728, 8_589_934_592] if self.version == 3 else [67_108_864]
        self.bytes = [rnd.choice([0, 1, 7, 10, 20, 1000, *most]) for _ in s]
        self.pending = [rnd.random() < 0.85 for _ in s]
        # (where few workers hold all, splits compete for their slots)
        near = range(rnd.choice([min(self.workers, 2), self.workers]))
        self.holders = [rnd.sample(near, min(len(near), rnd.choice([0, 1, 1, 1, 2, 3, 8, 16]))) for _ in s]
        if self.version < 3:
            self.holders = [held[:8] for held in self.holders]
        self.barred = [(i, j) for i in s for j in w if rnd.random() < 0.1]
        self.reward = 1 + (6 if self.centres > 1 else 4) * sum(self.bytes)
        # (of a worker whose places have prices, these prices)
        self.places = {}
        self.starts, self.split_price, self.worker_price = [None] * self.splits, [0] * self.splits, [0] * self.workers

    def cost(self, s, w):
        """The cost of an admissible pair; None for any other."""
        held = [h for h in self.holders[s] if self.live[h]]
        if not (self.pending[s] and held and self.live[w]) or (s, w) in self.barred:
            return None
        return self.bytes[s] * min(self.distance(h, w) for h in held)

    def distance(self, a, b):
        if a == b:
            return 0
        one, other = self.rack_of[a], self.rack_of[b]
        return 2 if one == other else 4 if self.centre_of[one] == self.centre_of[other] else 6

    def place_price(self, w, k):
        """The price of a worker's place, counted from 0."""
        prices = self.places.get(w, [0])
        return prices[min(k, len(prices) - 1)]

    def plan(self):
        """Gives a best plan and prices that certify it: a column for each slot, and the rest for no start."""
        if not self.splits:
            return
        slots = [(w, self.place_price(w, k)) for w in range(self.workers) for k in range(self.free[w])]
        never = 10 * self.reward * (self.splits + 1)
        unstarted = [self.reward] * (self.splits + 1)
        costs = []
        for s in range(self.splits):
            row = [(self.cost(s, w), price) for w, price in slots]
            costs.append([never if cost is None else cost + price for cost, price in row] + unstarted)
        column_of, u, v = assign(costs)
        for s, column in enumerate(column_of):
            self.starts[s] = slots[column][0] if column < len(slots) else None
            self.split_price[s] = self.reward - u[s]
        # (all places that are taken have one sum of price and dual, and the places left no lower one)
        sums = [(w, price - v[column]) for column, (w, price) in enumerate(slots)]
        for w, least in sorted(sums, reverse=True):
            self.worker_price[w] = least

    def change(self, rnd):
        """Changes a price or a start, most often by little."""
        prices = rnd.choice([self.split_price, self.worker_price])
        kind = rnd.randrange(4)
        if kind == 0 and self.splits:
            start = rnd.choice([None, *range(self.workers)])
            self.starts[rnd.randrange(self.splits)] = start
        elif kind == 1 and self.splits > 1:
            a, b = rnd.sample(range(self.splits), 2)
            self.starts[a], self.starts[b] = self.starts[b], self.starts[a]
        elif prices:
            at = rnd.randrange(len(prices))
            near = [min(prices[at] + 1, 2**64 - 1), max(prices[at] - 1, 0)]
            prices[at] = rnd.choice([*near * 2, 0, self.reward, self.reward + 1, 2**64 - 1])

    def cluster(self):
        """The lines of racks and centres, of workers and of splits."""
        racks = [f"rack r{i}" for i in range(self.racks)]
        if self.version > 1:
            racks = [f"{rack} c{centre}" for rack, centre in zip(racks, self.centre_of)]
            racks = [f"centre c{i}" for i in range(self.centres)] + racks
        workers = [f"worker w{i} r{self.rack_of[i]} {self.free[i]}" for i in range(self.workers)]
        splits = []
        for s in range(self.splits):
            splits.append(" ".join([f"split s{s} {self.bytes[s]}", *(f"w{h}" for h in self.holders[s])]))
        return racks, workers, splits

    def lines(self, rnd):
        """The lines of the text; head lines stand in one of the orders that declare names before their use."""
        racks, workers, splits = self.cluster()
        marks = [f"dead w{w}" for w in range(self.workers) if not self.live[w]]
        marks += [f"busy s{s}" for s in range(self.splits) if not self.pending[s]]
        marks += [f"barred s{s} w{w}" for s, w in self.barred]
        marks += [" ".join([f"places w{w}", *map(str, prices)]) for w, prices in self.places.items()]
        rnd.shuffle(marks)
        prices = [f"price s{s} {self.split_price[s]}" for s in range(self.splits)]
        prices += [f"price w{w} {self.worker_price[w]}" for w in range(self.workers)]
        plan = [f"start s{s} w{w}" for s, w in enumerate(self.starts) if w is not None] + prices
        rnd.shuffle(plan)
        return [f"problem {self.version}", *racks, *workers, *splits, *marks, "plan", *plan, "end"]


class Placed(Scenario):
    """A problem of version 3 in which the places of most workers have prices."""

    def __init__(self, rnd):
        super().__init__(rnd)
        while self.version < 3:
            super().__init__(rnd)
        most = rnd.choice([0, 3, 40, 2000, 2**30, 2**36])
        for w in range(self.workers):
            if rnd.random() < 0.8:
                count = rnd.choice([1, 1, 2, 3, 5, max(self.free[w], 1), 255])
                self.places[w] = sorted(rnd.choice([0, most, rnd.randint(0, most)]) for _ in range(count))
        self.reward += sum(self.place_price(w, k) for w in range(self.workers) for k in range(self.free[w]))

    def change_places(self, rnd):
        """Changes one price of a place so that none falls, and most often the reward and the prices of
        started splits with it."""
        if not self.places:
            return
        w = rnd.choice([*self.places])
        prices = self.places[w]
        at = rnd.randrange(len(prices))
        before = sum(self.place_price(w, k) for k in range(self.free[w]))
        following = prices[at + 1] if at + 1 < len(prices) else 2**36
        prices[at] = rnd.choice([following, prices[at - 1] if at else 0])
        more = sum(self.place_price(w, k) for k in range(self.free[w])) - before
        if rnd.random() < 0.8:
            self.reward += more
            for s, start in enumerate(self.starts):
                if start is not None:
                    self.split_price[s] = max(0, self.split_price[s] + more)


def long_named(line):
    """A line with the names that workers, racks and splits have in version 3, and in no other one."""
    return re.sub(r"\b([wrs])(\d+)\b", lambda it: f"{LONG[it[1]]}{it[2]}", line)


def text_of(lines):
    """The text of these lines."""
    if lines and re.fullmatch(r"(problem|script|job) 3", lines[0]):
        lines = [long_named(line) for line in lines]
    return "".join(line + "\n" for line in lines).encode()


def best(rnd):
    """A text that is certified."""
    scenario = Scenario(rnd)
    scenario.plan()
    return text_of(scenario.lines(rnd))


def changed(rnd):
    """A text without a fault, whose plan or prices were changed after they were found."""
    scenario = Scenario(rnd)
    if rnd.random() < 0.8:
        scenario.plan()
    for _ in range(rnd.randint(1, 3)):
        scenario.change(rnd)
    return text_of(scenario.lines(rnd))


def placed(rnd):
    """A text that is certified, with prices of places."""
    scenario = Placed(rnd)
    scenario.plan()
    return text_of(scenario.lines(rnd))


def changed_placed(rnd):
    """A text without a fault, with prices of places, in which these, the plan or its prices were changed."""
    scenario = Placed(rnd)
    scenario.plan()
    for _ in range(rnd.randint(1, 2)):
        rnd.choice([scenario.change, scenario.change_places])(rnd)
    return text_of(scenario.lines(rnd))


def faulty_placed(rnd):
    """A text with prices of places, most with one such line more, in which any line may be spoiled."""
    scenario = Placed(rnd)
    scenario.plan()
    return spoiled_places(rnd, scenario.lines(rnd))


def spoiled_places(rnd, lines):
    """The text of lines with prices of places, most with one such line more, in which any line may be spoiled."""
    more = ["w0 1 2", "w0 2 1", "w0 1 1 0 2", "w0 1 3 2", "w1 0 0 0", "w0", "", "s0 1", "r0 1", "x 1", "w9 1"]
    more += ["w0 68719476736", "w0 68719476737", f"w0 {'9' * 20}", f"w0 1 {'9' * 5000}"]
    more += [f"w0 {' '.join(['7'] * count)}" for count in (254, 255, 256, 257)]
    more += ["w0 0 01", "w0 1 x", "w0 1 ", "w0 1 w1"]
    if rnd.random() < 0.8:
        place = rnd.choice([rnd.randint(1, len(lines)), lines.index("plan" if "plan" in lines else "end")])
        lines.insert(place, f"places {rnd.choice(more)}")
    if rnd.random() < 0.1:
        lines[0] = rnd.choice(["problem 2", "script 3", "job 3"])
    return spoiled(rnd, lines) if rnd.random() < 0.4 else text_of(lines)


def spoiled_word(rnd, word):
    if word.isdigit() and rnd.random() < 0.7:
        return rnd.choice(["0", "2", "3", "17", "255", "256", "67108865", "8589934593", str(2**64), "9" * 40, "00", "+1"])
    others = ["w0", "s0", "r0", "w9", "new", "0", "1", "17", "01", "67108865", "-1", "x" * 33, "9x", "", "a/b"]
    return rnd.choice([*others, *KEYWORDS, word + ".", word.upper(), word * 2])


def spoil_line(rnd, lines):
    at = rnd.randrange(len(lines))
    words = lines[at].split(" ")
    kind = rnd.randrange(7)
    if kind == 0:
        numbers = [i for i, word in enumerate(words) if word.isdigit()]
        place = rnd.choice(numbers) if numbers and rnd.random() < 0.5 else rnd.randrange(len(words))
        words[place] = spoiled_word(rnd, words[place])
    elif kind == 1:
        words.insert(rnd.randint(0, len(words)), spoiled_word(rnd, words[-1]))
    elif kind == 2:
        del words[rnd.randrange(len(words))]
    elif kind == 3:
        names = [f"w{w}" for w in range(rnd.choice([5, 5, 18]))] * 4
        words += rnd.choice([words[-1:], rnd.sample(names, rnd.randint(1, 17))])
    if kind < 4:
        lines[at] = " ".join(words)
    elif kind == 4:
        lines.insert(rnd.randint(0, len(lines)), lines[at])
    elif kind == 5:
        del lines[at]
    else:
        lines[at], lines[-at] = lines[-at], lines[at]


def faulty(rnd):
    """A text in which a line or a byte was spoiled; most have a fault, some more than one."""
    scenario = Scenario(rnd)
    scenario.plan()
    return spoiled(rnd, scenario.lines(rnd))


def head(rnd, kind=Scenario):
    """The lines of a problem to plan from."""
    lines = kind(rnd).lines(rnd)
    return [*lines[: lines.index("plan")], "end"]


def problem(rnd):
    """A problem to plan from."""
    return text_of(head(rnd))


def placed_problem(rnd):
    """A problem to plan from, with prices of places."""
    return text_of(head(rnd, Placed))


def faulty_placed_problem(rnd):
    """Such a problem, most with a line of prices more, in which any line may be spoiled."""
    return spoiled_places(rnd, head(rnd, Placed))


def faulty_problem(rnd):
    """A problem in which a line or a byte was spoiled."""
    return spoiled(rnd, head(rnd))


def ahead(rnd, workers):
    """A plan ahead onto places of so many workers: few, none, the most, or a mixture."""
    kinds = [lambda: rnd.randint(0, 6), lambda: 0, lambda: 255, lambda: rnd.choice([0, 1, 2, 255])]
    place = rnd.choice(kinds)
    return " ".join(["ahead", *(str(place()) for _ in range(workers))])


def faulty_ahead(rnd, workers):
    """A plan ahead with a place too many or too few, or with one past the most."""
    word, *places = ahead(rnd, workers).split(" ")
    at = rnd.randint(0, len(places))
    return " ".join([word, *places[:at], *rnd.choice([["1"], [], ["256"]]), *places[at + rnd.choice([0, 1]) :]])


def command(rnd, scenario, attempts):
    """A command that may say something, with numbers of attempts up to these."""
    w, s = lambda: f"w{rnd.randrange(scenario.workers)}", lambda: f"s{rnd.randrange(scenario.splits)}"
    names = [f"s{split}" for split in range(scenario.splits)]
    some = lambda: " ".join(rnd.sample(names, min(len(names), rnd.choice([0, 0, 1, 2]))))
    pair = lambda word: lambda: f"{word} {s()} {w()}"
    number = lambda word: lambda: f"{word} {rnd.randint(0, attempts)}"
    counts = lambda: " ".join(str(rnd.choice([0, 1, rnd.randrange(9)])) for _ in range(scenario.workers))
    kinds = [lambda: "wave", lambda: "reduce", lambda: "copies"]
    kinds += [number("done")] * 3 + [number("fail"), number("withdraw")]
    kinds += [lambda: ahead(rnd, scenario.workers)] * 3 * (scenario.version == 3)
    if scenario.workers:
        kinds += [lambda: f"die {w()}", lambda: f"sweep {counts()}", lambda: f"join {w()} {some()}".strip()] * 2
        if scenario.splits:
            kinds += [pair("add"), pair("add"), pair("lose")] + [pair("backup")] * 3 * (scenario.version > 1)
    return rnd.choice(kinds)()


def documents_of(rnd, scenario):
    words = ["cat", "dog", "the", "The", "one", "two", "two,", "x1y", "--", ""]
    documents = []
    for number in range(rnd.randint(0, 6) if scenario.splits else 0):
        text = " ".join(rnd.choice(words) for _ in range(rnd.randint(0, 5)))
        documents.append(f"doc d{number} s{rnd.randrange(scenario.splits)}{rnd.choice(['', ' ' + text, ' ' + text])}")
    return documents


def script_lines(rnd):
    """The lines of a script: commands in any order, and then, in most, such as bring the job to its end."""
    scenario = Scenario(rnd)
    scenario.splits = min(scenario.splits, 5)
    racks, workers, splits = scenario.cluster()
    settings = [(f"parts {rnd.randint(1, 4)}", 0.8), (f"target {rnd.randint(1, 8)}", 0.5), ("silence 2", 0.5)]
    settings = [line for line, share in settings if rnd.random() < share]
    documents = documents_of(rnd, scenario)
    commands, attempts = [], 4 + 2 * scenario.splits
    for _ in range(rnd.choice([0, 5, 15, 30])):
        commands.append(command(rnd, scenario, attempts))
    if rnd.random() < 0.8 and scenario.workers:
        commands += [f"join w{w}" for w in range(scenario.workers)]
        commands += [f"add s{s} w{rnd.randrange(scenario.workers)}" for s in range(scenario.splits)]
        for _ in range(rnd.randint(1, 5)):
            waves = ["wave", *[ahead(rnd, scenario.workers)] * (scenario.version == 3)]
            commands += [rnd.choice(waves), *(f"done {attempt}" for attempt in range(1, attempts))]
        for _ in range(rnd.randint(1, 8)):
            commands += ["reduce", *(f"done {attempt}" for attempt in range(1, attempts))]
            if rnd.random() < 0.3:
                commands.append(command(rnd, scenario, attempts))
    head = [*racks, *workers, *splits, *documents]
    for line in settings:
        head.insert(rnd.randint(0, len(head)), line)
    return [f"script {scenario.version}", *head, "begin", *commands, "end"]


def script(rnd):
    """A script without a fault."""
    return text_of(script_lines(rnd))


def faulty_script(rnd):
    """A script in which a line or a byte was spoiled, and which may have a faulty plan ahead in any version."""
    lines = script_lines(rnd)
    if rnd.random() < 0.15:
        workers = sum(line.startswith("worker ") for line in lines)
        lines.insert(rnd.randint(lines.index("begin") + 1, len(lines) - 1), faulty_ahead(rnd, workers))
    return spoiled(rnd, lines)


def vast_script(rnd):
    """A script of 1,500 workers in version 3, of which a few have slots and hold splits. Sweeps in which most beat
    stand between other commands, so that many workers die and some come back."""
    workers = [f"w{at}" for at in range(1500)]
    slots = dict.fromkeys(rnd.sample(workers, 6), 2)
    near = [*slots, *rnd.sample(workers, 20)]
    lines = ["script 3", "parts 2", f"silence {rnd.randint(1, 2)}", f"target {rnd.randint(1, 8)}"]
    lines += [*(f"centre c{at}" for at in range(9)), *(f"rack r{at} c{at % 9}" for at in range(40))]
    lines += [f"worker {name} r{rnd.randrange(40)} {slots.get(name, 0)}" for name in workers]
    for at in range(12):
        lines.append(" ".join([f"split s{at} {rnd.randint(1, 99)}", *rnd.sample(near, rnd.randint(0, 4))]))
        lines.append(f"doc d{at} s{at} some words")
    lines += ["begin", "wave", "copies"]
    beats = dict.fromkeys(workers, 0)
    for number in range(1, 25):
        still = {*rnd.sample(workers, rnd.choice([1, 9, 200])), *rnd.sample(near, rnd.choice([0, 0, 1, 3]))}
        beats = {name: count + (name not in still) for name, count in beats.items()}
        lines.append(" ".join(["sweep", *(str(beats[name]) for name in workers)]))
        some = " ".join(f"s{at}" for at in sorted(rnd.sample(range(12), rnd.randint(0, 3))))
        kinds = ["copies", "copies", "wave", f"done {number}", f"fail {number}", f"die {rnd.choice(near)}"]
        kinds += [f"add s{rnd.randrange(12)} {rnd.choice(workers)}", f"lose s{rnd.randrange(12)} {rnd.choice(near)}"]
        kinds += [f"join {rnd.choice([*near, *still])} {some}".strip()] * 3
        kinds.append(" ".join(["ahead", *(str(rnd.randint(0, 3) if name in slots else 0) for name in workers)]))
        lines += rnd.choices(kinds, k=4)
    return text_of([*lines, "wave", "end"])


def joined_script(rnd):
    """A script of more than 1,024 splits in version 3, in whose joins up to all of them stand, and now and then one
    twice."""
    splits, workers = [f"s{at}" for at in range(rnd.randint(1025, 1500))], ["a", "b", "c"]
    lines = ["script 3", "target 2", "centre z", "rack r z", *(f"worker {name} r 2" for name in workers)]
    for name in splits:
        lines.append(" ".join([f"split {name} {rnd.randint(1, 99)}", *rnd.sample(workers, rnd.randint(0, 2))]))
    lines.append("begin")
    for _ in range(rnd.randint(1, 6)):
        back = rnd.choice(workers)
        some = rnd.sample(splits, rnd.choice([1, 9, 64, 65, 66, 1000, len(splits)]))
        if rnd.random() < 0.15:
            some.insert(rnd.randrange(len(some) + 1), rnd.choice(some))
        ahead = " ".join(["ahead", *(str(rnd.randint(0, 3)) for _ in workers)])
        lines += [f"die {back}", " ".join([f"join {back}", *some]), rnd.choice(["wave", ahead, "copies", "done 1"])]
    return text_of([*lines, "end"])


def job_lines(rnd):
    """The lines of a job: in most, some worker has a slot, and each split a holder, so that every part can be done."""
    scenario = Scenario(rnd)
    if rnd.random() < 0.95:
        while not scenario.workers:
            scenario = Scenario(rnd)
        scenario.free[rnd.randrange(scenario.workers)] += 1
        scenario.free = [min(free, 255 if scenario.version == 3 else 16) for free in scenario.free]
        scenario.holders = [held or [rnd.randrange(scenario.workers)] for held in scenario.holders]
    racks, workers, splits = scenario.cluster()
    settings = [f"parts {rnd.randint(1, 4)}", f"target {rnd.randint(1, 8)}", "silence 3"]
    head = [*racks, *workers, *splits, *documents_of(rnd, scenario)]
    for line in settings:
        head.insert(rnd.randint(0, len(head)), line)
    return [f"job {scenario.version}", *head, "end"]


def job(rnd):
    """A job without a fault."""
    return text_of(job_lines(rnd))


def wide_job(rnd, version=1, workers=32):
    """A job of so many workers, 64 parts and 300 splits."""
    words, workers = ["one", "two", "The", "the", "x1y", "zebra"], [f"w{at}" for at in range(workers)]
    racks = ["rack r", "rack q"] if version == 1 else ["centre c", "centre e", "rack r c", "rack q e"]
    lines = [f"job {version}", "parts 64", *racks]
    lines += [f"worker {name} {rnd.choice('rq')} {rnd.choice([1, 16])}" for name in workers]
    for at in range(300):
        lines.append(" ".join([f"split s{at} {rnd.randint(0, 99)}", *rnd.sample(workers, rnd.randint(1, 8))]))
        lines.append(" ".join([f"doc d{at} s{at}", *rnd.choices(words, k=9)]))
    return text_of([*lines, "end"])


def scattered_job(rnd):
    """A job of some workers in three racks, of one or two slots. Its splits have few holders, so that each death wants
    copies."""
    workers = [f"w{at}" for at in range(rnd.randint(3, 9))]
    lines = ["job 2", "centre c", "centre e", "rack r c", "rack q c", "rack p e"]
    lines += [f"target {rnd.randint(1, 8)}", f"silence {rnd.randint(1, 2)}", f"parts {rnd.randint(1, 3)}"]
    lines += [f"worker {name} {rnd.choice('rqp')} {rnd.choice([1, 1, 2])}" for name in workers]
    for at in range(rnd.randint(4, 16)):
        held = rnd.sample(workers, rnd.randint(1, min(4, len(workers))))
        lines += [" ".join([f"split s{at} {rnd.randint(0, 99)}", *held]), f"doc d{at} s{at} one two"]
    return text_of([*lines, "end"])


def long_word(number):
    """Another word of five letters for each number below 26^5."""
    letters = []
    for _ in range(5):
        number, letter = divmod(number, 26)
        letters.append(chr(ord("a") + letter))
    return "".join(letters)


def long_job(rnd, count):
    """A job of one worker, with one split of so many words, each another one, in any order."""
    words = [long_word(number) for number in rnd.sample(range(26**5), count)]
    return text_of(["job 1", "rack r", "worker a r 1", "split s 10 a", " ".join(["doc d s", *words]), "end"])


def faulty_job(rnd):
    """A job in which a line or a byte was spoiled."""
    return spoiled(rnd, job_lines(rnd))


def spoiled(rnd, lines):
    for _ in range(rnd.choice([0, 1, 1, 1, 2, 3])):
        if lines:
            spoil_line(rnd, lines)
    text = text_of(lines)
    kind = rnd.randrange(10)
    if kind == 0:
        return text[: rnd.randint(0, len(text))]
    if kind == 1 and text:
        at = rnd.randrange(len(text))
        return text[:at] + bytes([rnd.choice([0, 9, 10, 13, 32, 47, 127, 200])]) + text[at + 1 :]
    if kind == 2:
        return text + rnd.choice([b"end\n", b"end", b"\n", b"\t\n", b"rack r9\n", b"x"])
    return text


def limit(kind, over, version=2):
    """A text with so many past the most data centres, racks, workers or splits. In version 3 splits have the longest
    names, so that the text of the most splits has more bytes than any other text may have."""
    most = MOST_OF_3 if version == 3 else MOST
    count = {"centre": 1, "rack": 1, "worker": 1, "split": 0, kind: most[kind] + over}
    lines = [f"problem {version}", *(f"centre c{i}" for i in range(count["centre"]))]
    lines += [f"rack r{i} c0" for i in range(count["rack"])]
    lines += [f"worker w{i} r0 16" for i in range(count["worker"])]
    splits = [f"{i:064d}" if version == 3 else f"s{i}" for i in range(count["split"])]
    lines += [f"split {name} 0" for name in splits] + ["plan"]
    lines += [f"price w{i} 0" for i in range(count["worker"])] + [f"price {name} 0" for name in splits]
    return text_of([*lines, "end"])


def dearest(over):
    """A text of the greatest reward: the most workers have the most slots, all places the greatest price. The
    price of the last worker is the reward, or so much more."""
    workers, most = range(MOST_OF_3["worker"]), 2**36
    reward = 1 + 4 * 2**33 + len(workers) * 255 * most
    lines = ["problem 3", "centre c0", "rack r0 c0", *(f"worker w{i} r0 255" for i in workers)]
    lines += [*(f"places w{i} {most}" for i in workers), f"split s0 {2**33}", "plan", "price s0 0"]
    lines += [f"price w{i} {most if i < len(workers) - 1 else reward + over}" for i in workers]
    return text_of([*lines, "end"])


def limit_of_scripts(kind, over, version=2):
    """A script with so many past the most of what a head declares, or past the most commands. In version 3
    documents have short names, so that a text has room for the most of them."""
    most = MOST_OF_SCRIPTS_3 if version == 3 else MOST_OF_SCRIPTS
    count = {**dict.fromkeys(most, 1), kind: most[kind] + over}
    lines = [f"script {version}", *(f"centre c{i}" for i in range(count["centre"]))]
    lines += [f"rack r{i} c0" for i in range(count["rack"])]
    lines += [f"worker w{i} r0 1" for i in range(count["worker"])]
    lines += [f"split b{i} 1 w0" for i in range(count["split"])]
    documents = (f"{i:X}" if version == 3 else f"d{i}" for i in range(count["document"]))
    lines += [*(f"doc {name} b0 w" for name in documents), "begin"]
    return text_of([*lines, *["reduce"] * count["command"], "end"])


def large(rnd):
    """A text near the greatest length: every worker, split and holder, and every pair barred, in long names."""
    worker = [f"worker-of-the-cluster-{w:03d}" for w in range(256)]
    split = [f"split-of-the-first-file-{s:04d}" for s in range(1024)]
    lines = ["problem 1", *(f"rack rack-{r}" for r in range(32))]
    lines += [f"worker {name} rack-{w % 32} 16" for w, name in enumerate(worker)]
    lines += [" ".join([f"split {name} {rnd.randrange(67108865)}", *rnd.sample(worker, 8)]) for name in split]
    lines += [f"barred {s} {w}" for s in split for w in worker]
    lines += ["plan", *(f"price {name} 0" for name in split + worker), "end"]
    return text_of(lines)


def full(rnd):
    """A script whose last wave starts more splits than the million attempts of a history leave: before each wave
    every worker falls silent and joins again."""
    workers, splits = [f"w{w}" for w in range(64)], [f"s{s}" for s in range(1024)]
    head = ["script 1", "silence 1", "rack r", *(f"worker {name} r 16" for name in workers)]
    head += [f"split {name} 1 w0" for name in splits]
    again = [f"sweep {' '.join('0' for _ in workers)}", f"join w0 {' '.join(splits)}"]
    again += [f"join {name}" for name in workers[1:]]
    waves = 10**6 // len(splits) + 1
    return text_of([*head, "begin", *["wave", *again] * (waves - 1), "wave", "end"])


KINDS = {
    "best": best,
    "changed": changed,
    "faulty": faulty,
    "placed": placed,
    "changed_placed": changed_placed,
    "faulty_placed": faulty_placed,
    "problem": problem,
    "placed_problem": placed_problem,
    "faulty_placed_problem": faulty_placed_problem,
    "script": script,
    "faulty_script": faulty_script,
    "vast_script": vast_script,
    "joined_script": joined_script,
    "job": job,
    "wide_job": wide_job,
    "scattered_job": scattered_job,
    "faulty_job": faulty_job,
    "faulty_problem": faulty_problem,
    "full": full,
    "large": large,
}


def main():
    if len(sys.argv) != 3 or sys.argv[1] not in KINDS:
        print(__doc__.strip(), file=sys.stderr)
        return 64
    sys.stdout.buffer.write(KINDS[sys.argv[1]](random.Random(int(sys.argv[2]))))
    return 0


if __name__ == "__main__":
    sys.exit(main())
