"""What a text declares, or its least fault: an independent reference for tests, of the three kinds of text.

It is written from the definitions of docs/MODEL.md, the plain way, and shares nothing with the program. A text is read
for a command: check, plan, play or run.
"""
import re

import crates  # (it ends a script quietly where head does)

# A name, by the text's version.
SHORT_NAME, LONG_NAME = re.compile(rb"[A-Za-z][A-Za-z0-9._-]{0,31}"), re.compile(rb"[A-Za-z0-9._:/-]{1,64}")
NAME = {1: SHORT_NAME, 2: SHORT_NAME, 3: LONG_NAME}
NUMBER = re.compile(rb"0|[1-9][0-9]*")
MAX_TEXT_BYTES = 16_777_216
# The first lines of texts that may have more, and how many those may have.
LONG_HEADS, MAX_LONG_TEXT_BYTES = (b"problem 3\n", b"script 3\n", b"job 3\n"), 268_435_456
# How many holders a split has at most, by the text's version.
MOST_HOLDERS = {1: 8, 2: 8, 3: 16}
# How many commands a script has at most, and how many documents a script or a job, by its version.
MOST_COMMANDS = {1: 65_536, 2: 65_536, 3: 1_048_576}
MOST_DOCUMENTS = {1: 65_536, 2: 65_536, 3: 1_048_576}
# How many of another kind a text declares at most; a job has fewer workers.
MOST = {"centre": 8, "rack": 32, "worker": 256, "split": 1024}
MOST_WORKERS_OF_A_JOB = 32
# Of a text of version 3, and of a job.
MOST_OF_3 = {"centre": 256, "rack": 4096, "worker": 32_768, "split": 131_072}
MOST_OF_JOBS_3 = {**MOST_OF_3, "worker": 1024}
MOST_BY_COMMAND_3 = {"check": MOST_OF_3, "plan": MOST_OF_3, "play": MOST_OF_3, "run": MOST_OF_JOBS_3}
FIRST = {"check": b"problem", "plan": b"problem", "play": b"script", "run": b"job"}
# The places after a keyword: a name, a number, any count of names or of numbers, or a name and a free text. A rack has
# its centre from version 2 on.
SHAPES = {
    b"problem": "9",
    b"script": "9",
    b"job": "9",
    b"centre": "n",
    b"rack": "n",
    b"worker": "nn9",
    b"split": "n9*",
    b"barred": "nn",
    b"dead": "n",
    b"busy": "n",
    b"places": "n+",
    b"parts": "9",
    b"target": "9",
    b"silence": "9",
    b"doc": "nnt",
    b"plan": "",
    b"start": "nn",
    b"price": "n9",
    b"begin": "",
    b"wave": "",
    b"done": "9",
    b"fail": "9",
    b"withdraw": "9",
    b"die": "n",
    b"join": "n*",
    b"add": "nn",
    b"lose": "nn",
    b"sweep": "+",
    b"reduce": "",
    b"copies": "",
    b"backup": "nn",
    b"ahead": "+",
    b"end": "",
}
ANY_HEAD = (b"centre", b"rack", b"worker", b"split")
HEAD = {
    "check": (*ANY_HEAD, b"barred", b"dead", b"busy", b"places", b"plan"),
    "plan": (*ANY_HEAD, b"barred", b"dead", b"busy", b"places", b"end"),
    "play": (*ANY_HEAD, b"parts", b"target", b"silence", b"doc", b"begin"),
    "run": (*ANY_HEAD, b"parts", b"target", b"silence", b"doc", b"end"),
}
COMMANDS = (
    b"wave", b"done", b"fail", b"withdraw", b"die", b"join", b"add", b"lose", b"sweep", b"reduce", b"copies", b"backup",
    b"ahead",
)
BODY = {"check": (b"start", b"price", b"end"), "play": (*COMMANDS, b"end")}
# From which version on a line may stand, where not from the first.
SINCE = {b"centre": 2, b"backup": 2, b"ahead": 3, b"places": 3}
SETTINGS = (b"parts", b"target", b"silence")
# The least and the greatest number of a line.
RANGES = {
    b"problem": (1, 3),
    b"script": (1, 3),
    b"job": (1, 3),
    b"worker": (0, 255),
    b"price": (0, 2**64 - 1),
    b"places": (0, 2**36),
    b"parts": (1, 64),
    b"target": (1, 8),
    b"silence": (1, 1000),
    b"done": (0, 1_000_000),
    b"fail": (0, 1_000_000),
    b"withdraw": (0, 1_000_000),
    b"sweep": (0, 2**40),
    b"ahead": (0, 255),
}
# The most bytes of a split and the most slots of a worker, by the text's version.
MOST_BYTES = {1: 67_108_864, 2: 67_108_864, 3: 8_589_934_592}
MOST_SLOTS = {1: 16, 2: 16, 3: 255}
# The kinds of the names that a line uses, after the name that it declares.
USES = {
    b"worker": ("rack",),
    b"barred": ("split", "worker"),
    b"dead": ("worker",),
    b"busy": ("split",),
    b"places": ("worker",),
    b"doc": ("split",),
    b"start": ("split", "worker"),
    b"die": ("worker",),
    b"add": ("split", "worker"),
    b"lose": ("split", "worker"),
    b"backup": ("split", "worker"),
}


class Fault(Exception):
    def __init__(self, line, number):
        super().__init__(f"line {line}: fault {number}")


class Given:
    """What the lines so far declare. Names of a kind are numbered in order of declaration."""

    def __init__(self, command):
        self.command = command
        self.lines = 0
        self.version = 1
        self.section = "head"
        self.numbers = {"centre": {}, "rack": {}, "worker": {}, "split": {}, "doc": {}}
        self.centre_of, self.rack_of = [], []
        self.slots, self.bytes, self.holders = [], [], []
        self.barred, self.dead, self.busy = set(), set(), set()
        self.places = {}
        self.settings = {}
        self.documents = []
        self.starts, self.prices = {}, {}
        self.commands = []

    def knows(self, kind, name):
        return name in self.numbers[kind]

    def is_taken(self, name):
        return any(name in names for names in self.numbers.values())

    def most(self, kind):
        if kind == "doc":
            return MOST_DOCUMENTS[self.version]
        if self.version == 3:
            return MOST_BY_COMMAND_3[self.command][kind]
        return MOST_WORKERS_OF_A_JOB if (kind, self.command) == ("worker", "run") else MOST[kind]

    def setting(self, name, otherwise):
        return self.settings.get(name, otherwise)


def shape_of(given, keyword):
    if keyword == b"rack" and given.version > 1:
        return "nn"
    return SHAPES.get(keyword)


def cut(line, shape):
    """The keyword and the words after it, and the free text of a document, which may hold any spaces."""
    if not shape.endswith("t"):
        keyword, *words = line.split(b" ")
        return words, None
    keyword, *words = line.split(b" ", len(shape))
    return words[: len(shape) - 1], words[len(shape) - 1] if len(words) == len(shape) else b""


def spelled(given, line):
    """The keyword, the words after it and their places, and the free text; None where the line has not its shape."""
    keyword = line.split(b" ", 1)[0]
    shape = shape_of(given, keyword)
    if shape is None:
        return None
    words, text = cut(line, shape)
    if b"" in words:
        return None
    shape = shape.rstrip("t")
    if shape.endswith("*"):
        shape = shape[:-1] + "n" * (len(words) - len(shape) + 1)
    if shape == "+":
        shape = "9" * len(given.numbers["worker"])
    if shape == "n+":
        shape = "n" + "9" * min(max(len(words) - 1, 1), MOST_SLOTS[3])
    if len(words) != len(shape):
        return None
    if any(place == "9" and not NUMBER.fullmatch(word) for place, word in zip(shape, words)):
        return None
    return keyword, words, shape, text


def value(word):
    """The number that digits stand for; past twenty digits, some number above every range."""
    return int(word) if len(word) <= 20 else 10**20


def may_stand(given, keyword):
    first = FIRST[given.command]
    if given.lines == 0 or keyword in FIRST.values():
        return given.lines == 0 and keyword == first
    if given.version < SINCE.get(keyword, 1):
        return False
    places = HEAD if given.section == "head" else BODY
    return keyword in places[given.command]


def uses_of(given, keyword, names):
    """The kind and name of each use."""
    if keyword == b"split":
        return [("worker", name) for name in names[1:]]
    if keyword == b"join":
        return [("worker", names[0])] + [("split", name) for name in names[1:]]
    if keyword == b"rack":
        return [("centre", name) for name in names[1:]]
    declares = 1 if keyword.decode() in given.numbers else 0
    return list(zip(USES.get(keyword, ()), names[declares:]))


def faults(given, keyword, words, shape):
    """The faults 2 to 6 and 8 to 10 of a line that may stand where it does."""
    found = set()
    names = [word for word, place in zip(words, shape) if place == "n"]
    numbers = [value(word) for word, place in zip(words, shape) if place == "9"]
    if not all(NAME[given.version].fullmatch(name) for name in names):
        found.add(2)
    if not all(given.knows(kind, name) for kind, name in uses_of(given, keyword, names)):
        found.add(3)
    if keyword == b"price" and not (given.knows("split", names[0]) or given.knows("worker", names[0])):
        found.add(3)
    kind = keyword.decode()
    if kind in given.numbers:
        if given.is_taken(names[0]):
            found.add(4)
        if len(given.numbers[kind]) >= given.most(kind):
            found.add(6)
    declared = {b"barred": given.barred, b"dead": given.dead, b"busy": given.busy}
    if tuple(names) in declared.get(keyword, ()) or keyword in given.settings:
        found.add(4)
    if keyword == b"places":
        if names[0] in given.places:
            found.add(4)
        if numbers != sorted(numbers):
            found.add(5)
    if keyword in RANGES:
        least, greatest = RANGES[keyword]
        if not all(least <= number <= greatest for number in numbers):
            found.add(5)
    if keyword == b"split" and numbers[0] > MOST_BYTES[given.version]:
        found.add(5)
    if keyword == b"worker" and numbers[0] > MOST_SLOTS[given.version]:
        found.add(5)
    if keyword == b"split" and len(names) - 1 > MOST_HOLDERS[given.version]:
        found.add(6)
    if keyword in COMMANDS and len(given.commands) >= MOST_COMMANDS[given.version]:
        found.add(6)
    if keyword in (b"split", b"join") and len(set(names[1:])) < len(names) - 1:
        found.add(8)
    if keyword == b"start" and names[0] in given.starts or keyword == b"price" and names[0] in given.prices:
        found.add(9)
    if keyword == b"end" and given.command == "check":
        wanted = [*given.numbers["split"], *given.numbers["worker"]]
        if any(name not in given.prices for name in wanted):
            found.add(10)
    return found


def enter(given, keyword, words, text):
    """Takes a line without a fault."""
    given.lines += 1
    kind = keyword.decode()
    if kind in given.numbers:
        given.numbers[kind][words[0]] = len(given.numbers[kind])
    if keyword in FIRST.values():
        given.version = int(words[0])
    elif keyword == b"rack":
        given.centre_of.append(given.numbers["centre"][words[1]] if given.version > 1 else 0)
    elif keyword == b"worker":
        given.rack_of.append(given.numbers["rack"][words[1]])
        given.slots.append(int(words[2]))
    elif keyword == b"split":
        given.bytes.append(int(words[1]))
        given.holders.append([given.numbers["worker"][name] for name in words[2:]])
    elif keyword in (b"barred", b"dead", b"busy"):
        {b"barred": given.barred, b"dead": given.dead, b"busy": given.busy}[keyword].add(tuple(words))
    elif keyword == b"places":
        given.places[words[0]] = [int(word) for word in words[1:]]
    elif keyword in SETTINGS:
        given.settings[keyword] = int(words[0])
    elif keyword == b"doc":
        given.documents.append((given.numbers["split"][words[1]], text))
    elif keyword in (b"plan", b"begin"):
        given.section = "body"
    elif keyword == b"start":
        given.starts[words[0]] = words[1]
    elif keyword == b"price":
        given.prices[words[0]] = int(words[1])
    elif keyword in COMMANDS:
        given.commands.append((kind, words))
    elif keyword == b"end":
        given.section = "ended"


def read(text, command):
    """What a text declares; raises its least fault, by line and then by number."""
    if len(text) > (MAX_LONG_TEXT_BYTES if text.startswith(LONG_HEADS) else MAX_TEXT_BYTES):
        raise Fault(0, 11)
    *lines, rest = text.split(b"\n")
    given = Given(command)
    for at, line in enumerate(lines, 1):
        if any(not 32 <= byte <= 126 for byte in line):
            raise Fault(at, 13)
        if given.section == "ended":
            raise Fault(at, 14)
        said = spelled(given, line)
        if said is None:
            raise Fault(at, 1)
        keyword, words, shape, free = said
        if not may_stand(given, keyword):
            raise Fault(at, 7)
        found = faults(given, keyword, words, shape)
        if found:
            raise Fault(at, min(found))
        enter(given, keyword, words, free)
    if rest:
        raise Fault(len(lines) + 1, 12)
    if given.section != "ended":
        raise Fault(len(lines) + 1, 7)
    return given
