"""Reads a problem, with a plan and its prices or without, or finds the least fault of its text.

It is written from docs/MODEL.md alone. The scripts beside it stand on it.
"""
import re

NAME, NUMBER = re.compile(r"[A-Za-z][A-Za-z0-9._-]{0,31}"), re.compile(r"0|[1-9][0-9]*")
LONG_NAME = re.compile(r"[A-Za-z0-9._:/-]{1,64}")
MOST = {"centre": 256, "rack": 4096, "worker": 32_768, "split": 131_072}
# What is less in texts of an older version than 3.
OLD_MOST, MOST_SLOTS, MOST_BYTES = {"centre": 8, "rack": 32, "worker": 256, "split": 1024}, 16, 67_108_864
MOST_HOLDERS, OLD_MOST_HOLDERS = 16, 8
MOST_PLACES = 255
# The places of each line: `+KIND` declares a name, KIND uses one, LEAST-GREATEST is a number, and a `*` says any count.
HEAD = {
    "centre": "+centre", "rack": "+rack", "worker": "+worker rack 0-255", "split": "+split 0-8589934592 worker*",
    "barred": "split worker", "dead": "worker", "busy": "split",
    "places": "worker 0-68719476736 0-68719476736*",
}
# From which version on a line may stand, where not from the first.
SINCE = {"centre": 2, "places": 3}
END = {"end": ""}
PLAN = {"start": "split worker", "price": "priced 0-18446744073709551615", **END}
# Lines of scripts and jobs are known by their shape, and may stand nowhere here; nor may a second first line.
OTHERS = {
    **dict.fromkeys("parts target silence done fail withdraw".split(), "1-2"), "doc": "x x text",
    **dict.fromkeys("begin wave reduce copies".split(), ""), **dict.fromkeys("add lose backup".split(), "x x"),
    **dict.fromkeys("problem script job".split(), "1-3"), "die": "x", "join": "x x*",
}
SHAPES = {**HEAD, **PLAN, **OTHERS, "plan": ""}


class Fault(Exception):
    """The least fault of the first faulty line."""


def is_greater(number, other):
    """Whether a number is greater than another one: both are digits of any length, without leading zeros."""
    return (len(number), number) > (len(other), other)


class Text:
    """What the lines so far declare; names of a kind are numbered as they come."""

    def __init__(self, has_plan):
        self.has_plan, self.lines, self.version = has_plan, 0, 1
        self.section = {*HEAD, "plan" if has_plan else "end"}
        self.kinds, self.numbers = {}, {kind: {} for kind in MOST}
        self.centre_of, self.rack_of, self.free, self.bytes, self.holders = [], [], [], [], []
        self.marks, self.starts, self.prices, self.place_prices = set(), {}, {}, {}

    def places(self, keyword):
        """The places of a line, or None where the first word is no keyword."""
        if keyword == "rack" and self.version > 1:
            return ["+rack", "centre"]
        if keyword in ("sweep", "ahead"):
            return ["0-1"] * len(self.numbers["worker"])
        places = SHAPES.get(keyword)
        return None if places is None else places.split()

    def faults(self, line):
        """The faults 1 to 10 of a line, with its words."""
        keyword, *words = line.split(" ")
        places = self.places(keyword)
        if places is None:
            return [1], []
        if places[-1:] == ["text"]:
            words, places = words[:2], places[:2]
        if places and places[-1].endswith("*"):
            places[-1:] = [places[-1][:-1]] * (len(words) - len(places) + 1)
        if len(words) != len(places) or "" in words or keyword == "places" and len(words) > 1 + MOST_PLACES:
            return [1], words
        if any("-" in place and not NUMBER.fullmatch(word) for place, word in zip(places, words)):
            return [1], words
        allowed = ["problem"] if self.lines == 0 else self.section
        if keyword not in allowed or self.version < SINCE.get(keyword, 1):
            return [7], words
        found = [fault for it in zip(places, words) for fault in self.word_faults(*it)]
        return found + self.again(keyword, words), words

    def word_faults(self, place, word):
        """The faults of a word in its place."""
        if "-" in place:
            least, greatest = map(int, place.split("-"))
            return [] if len(word) <= 20 and least <= int(word) <= greatest else [5]
        if not (NAME if self.version < 3 else LONG_NAME).fullmatch(word):
            return [2]
        if place[0] == "+":
            kind, most = place[1:], MOST if self.version == 3 else OLD_MOST
            return [4] * (word in self.kinds) + [6] * (len(self.numbers[kind]) == most[kind])
        return [] if self.kinds.get(word) in (["split", "worker"] if place == "priced" else [place]) else [3]

    def again(self, keyword, words):
        """What a line says too often, or `end` leaves out."""
        found = [4] if (keyword, *words) in self.marks else []
        older = {"split": (1, MOST_BYTES), "worker": (2, MOST_SLOTS)}.get(keyword)
        if older and self.version < 3 and is_greater(words[older[0]], str(older[1])):
            found.append(5)
        if keyword == "split":
            most = MOST_HOLDERS if self.version == 3 else OLD_MOST_HOLDERS
            found += [6] * (len(words) > 2 + most) + [8] * (len(set(words[2:])) < len(words[2:]))
        if keyword == "places":
            found += [4] * (words[0] in self.place_prices)
            found += [5] * any(is_greater(*pair) for pair in zip(words[1:], words[2:]))
        if keyword in ("start", "price") and words[0] in (self.starts if keyword == "start" else self.prices):
            found.append(9)
        priced = len(self.numbers["split"]) + len(self.numbers["worker"])
        if keyword == "end" and self.has_plan and len(self.prices) < priced:
            found.append(10)
        return found

    def enter(self, keyword, *words):
        """Takes a line without a fault."""
        self.lines += 1
        if keyword in MOST:
            self.kinds[words[0]] = keyword
            self.numbers[keyword][words[0]] = len(self.numbers[keyword])
        if keyword == "problem":
            self.version = int(words[0])
        elif keyword == "rack":
            self.centre_of.append(words[1:])
        elif keyword == "worker":
            self.rack_of.append(self.numbers["rack"][words[1]])
            self.free.append(int(words[2]))
        elif keyword == "split":
            self.bytes.append(int(words[1]))
            self.holders.append([self.numbers["worker"][name] for name in words[2:]])
        elif keyword == "places":
            self.place_prices[words[0]] = [int(word) for word in words[1:]]
        elif keyword in ("start", "price"):
            (self.starts if keyword == "start" else self.prices)[words[0]] = words[1]
        elif keyword in ("plan", "end"):
            self.section = PLAN if keyword == "plan" else None
        else:
            self.marks.add((keyword, *words))


def read(data, has_plan):
    """What a problem's text declares, or its least fault."""
    is_long = data.startswith((b"problem 3\n", b"script 3\n", b"job 3\n"))
    if len(data) > (268_435_456 if is_long else 16_777_216):
        raise Fault("line 0: fault 11")
    *lines, rest = data.decode("latin-1").split("\n")
    text = Text(has_plan)
    for number, line in enumerate(lines, 1):
        if re.search("[^ -~]", line):
            raise Fault(f"line {number}: fault 13")
        if text.section is None:
            raise Fault(f"line {number}: fault 14")
        faults, words = text.faults(line)
        if faults:
            raise Fault(f"line {number}: fault {min(faults)}")
        text.enter(line.split(" ")[0], *words)
    if rest or text.section is not None:
        raise Fault(f"line {len(lines) + 1}: fault {12 if rest else 7}")
    return text
