#!/usr/bin/env python3
"""Writes a job over the files of folders, for `mrjob run`, or a script that plays it whole, for `mrjob play`.

Each file is a document, and files by path fill splits of a block's size. Replicas lie as HDFS places them by default:
the first on a worker, the second in another rack, the third beside the second, more wherever a rack has few. A byte
outside printable ASCII, a line end too, becomes a space. A document is named by its file's path, in which a byte that
no name has becomes a `-`. What was changed or left out is told on standard error. Past a limit of the format it says
which, and writes nothing.

    contrib/job_of_files.py contrib/samples/tales | bin/mrjob run
    contrib/job_of_files.py contrib/samples/tales --script --racks 2 --workers 4 | bin/mrjob play
"""
import argparse
import fnmatch
import os
import random
import re
import signal
import sys

# The most of each setting in version 3. A job has a thread for each worker, so fewer of these.
MOST = {"racks": 4096, "workers": 32_768, "slots": 255, "centres": 256, "replicas": 16, "block": 8_589_934_592}
MOST["parts"], MOST_TARGET, MOST_WORKERS_OF_A_JOB = 64, 8, 1024
MOST_SPLITS, MOST_DOCUMENTS, MOST_TEXT, MOST_OF_A_NAME = 131_072, 1_048_576, 268_435_456, 64
PRINTABLE = bytes(range(32, 127))
TO_SPACES = bytes(byte if byte in PRINTABLE else 32 for byte in range(256))


class Limit(Exception):
    """What the format has no room for."""


def files_below(folder, patterns):
    """The paths of the files below a folder that match a pattern, by path, and what cannot be taken with the reason."""
    if not os.path.isdir(folder):
        raise Limit(f"{folder} is no folder")
    paths, left = [], []
    for room, rooms, names in os.walk(folder, onerror=lambda fault: left.append((fault.filename, "not readable"))):
        rooms.sort()
        left += [(os.path.join(room, name), "a link") for name in rooms if os.path.islink(os.path.join(room, name))]
        for path in (os.path.join(room, name) for name in sorted(names)):
            if os.path.islink(path) or not os.path.isfile(path):
                left.append((path, "a link" if os.path.islink(path) else "no plain file"))
            elif any(fnmatch.fnmatch(os.path.basename(path), pattern) for pattern in patterns):
                paths.append(path)
            else:
                left.append((path, "not of these names"))
    return sorted(paths), left


def in_a_line(path):
    """A path with `\\\\`, `\\n`, `\\r` and `\\t` for a backslash, the ends of lines and a tab."""
    return path.translate({ord("\\"): "\\\\", ord("\n"): "\\n", ord("\r"): "\\r", ord("\t"): "\\t"})


class Documents:
    """The documents of files, each with its name and bytes, and what became of the files."""

    def __init__(self, taken):
        self.texts, self.names, self.paths, self.left = [], [], [], []
        self.ends = self.others = self.changed = self.cut = self.numbered = self.bytes = 0
        self.taken, self.last = set(taken), {}

    def name_of(self, path):
        """A name for a file that no other has: its path, or the end of a long one."""
        name = re.sub(r"[^A-Za-z0-9._:/-]", "-", path)[-MOST_OF_A_NAME:]
        self.cut += len(path) > MOST_OF_A_NAME
        if name in self.taken:
            self.numbered += 1
            stem = name
            while name in self.taken:
                self.last[stem] = self.last.get(stem, 1) + 1
                mark = f"-{self.last[stem]}"
                name = stem[: MOST_OF_A_NAME - len(mark)] + mark
        self.changed += name != path
        self.taken.add(name)
        return name

    def take(self, folder, path):
        """Takes a file as a document, or leaves it out."""
        try:
            with open(path, "rb") as file:
                data = file.read(MOST_TEXT + 1)
        except OSError:
            self.left.append((path, "not readable"))
            return
        if 0 in data:
            self.left.append((path, "a zero byte, so no text"))
            return
        self.bytes += len(data)
        if self.bytes > MOST_TEXT:
            raise Limit(f"the files have more than {MOST_TEXT:,} bytes, the most of a text")
        if len(self.texts) == MOST_DOCUMENTS:
            raise Limit(f"there are more than {MOST_DOCUMENTS:,} files, the most documents of a text")
        ends = data.count(b"\n") + data.count(b"\r")
        self.ends += ends
        self.others += len(data.translate(None, PRINTABLE)) - ends
        self.names.append(self.name_of(os.path.relpath(path, folder)))
        self.paths.append(path)
        self.texts.append(data.translate(TO_SPACES))

    def splits(self, block):
        """The documents of each split by number: files one after another, as many as a block has room for."""
        if not self.texts:
            raise Limit("no file was taken")
        splits, size = [], 0
        for number, text in enumerate(self.texts):
            if not splits or size + len(text) > block:
                splits.append([])
                size = 0
            splits[-1].append(number)
            size += len(text)
        if len(splits) > MOST_SPLITS:
            raise Limit(f"the files fill {len(splits):,} splits, past {MOST_SPLITS:,}: take a greater --block")
        return splits

    def said(self, splits, block):
        """What became of the files, in sentences."""
        yield f"{len(self.texts):,} files of {self.bytes:,} bytes are documents in {len(splits):,} splits"
        if self.ends or self.others:
            yield f"{self.ends:,} line ends and {self.others:,} other bytes outside printable ASCII became spaces"
        if self.changed:
            made = f"{self.cut:,} cut to {MOST_OF_A_NAME} characters and {self.numbered:,} numbered"
            yield f"{self.changed:,} names differ from their file's path, {made}"
        long = sum(len(text) > block for text in self.texts)
        if long:
            yield f"{long:,} files are longer than a block, and each is a split of its own"
        for reason in sorted({reason for _, reason in self.left}):
            yield f"{sum(it == reason for _, it in self.left):,} left out: {reason}"


class Cluster:
    """Racks in centres, each with its workers, one after another."""

    def __init__(self, racks, workers, slots, centres):
        self.slots, self.centres = slots, [f"centre-{c + 1}" for c in range(centres)]
        self.racks, self.workers = [f"rack-{r + 1}" for r in range(racks)], [f"worker-{w + 1}" for w in range(workers)]
        self.rack_of = [w * racks // workers for w in range(workers)]
        # (the workers of a rack stand side by side: from the first of them up to this one)
        self.span_of = [(-(-r * workers // racks), -(-(r + 1) * workers // racks)) for r in range(racks)]

    def lines(self):
        """The lines that declare it."""
        yield from (f"centre {name}" for name in self.centres)
        for r, name in enumerate(self.racks):
            yield f"rack {name} {self.centres[r * len(self.centres) // len(self.racks)]}"
        for name, rack in zip(self.workers, self.rack_of):
            yield f"worker {name} {self.racks[rack]} {self.slots}"

    def place(self, replicas, rnd):
        """The workers that hold a split, as HDFS's default policy chooses them."""
        count = min(replicas, len(self.workers))
        # (at most so many in a rack, so that with several racks not all stand in one)
        most = (count - 1) // len(self.racks) + 2
        most = count if len(self.racks) == 1 else most - (most == count)
        held, whole = [], (0, len(self.workers))
        while len(held) < count:
            racks = [self.rack_of[w] for w in held]
            full = {r for r in racks if racks.count(r) >= most}
            barred = [self.span_of[r] for r in full] + [(w, w + 1) for w, r in zip(held, racks) if r not in full]
            wanted = None
            if len(held) == 1:
                wanted = pick(whole, [self.span_of[racks[0]]], rnd)
            elif len(held) == 2 and racks[0] != racks[1] and racks[1] not in full:
                wanted = pick(self.span_of[racks[1]], [(held[1], held[1] + 1)], rnd)
            held.append(pick(whole, barred, rnd) if wanted is None else wanted)
        return [self.workers[w] for w in held]


def pick(span, barred, rnd):
    """Any worker of a span that is in none of these spans below it, which have nothing in common; none if there is
    none."""
    count = span[1] - span[0] - sum(end - start for start, end in barred)
    if count == 0:
        return None
    at = span[0] + rnd.randrange(count)
    for start, end in sorted(barred):
        at += (end - start) * (start <= at)
    return at


def commands(splits, parts, slots):
    """What plays a whole job: as many attempts at a time as there are slots, first of splits and then of parts."""
    attempt = 1
    for count, starts in ((splits, lambda some: ["wave"]), (parts, lambda some: ["reduce"] * some)):
        for at in range(0, count, slots):
            some = min(slots, count - at)
            yield from starts(some)
            yield from (f"done {it}" for it in range(attempt, attempt + some))
            attempt += some


def text_of(given, cluster, documents, splits):
    """The bytes of the job or script, in pieces."""
    rnd = random.Random(given.seed)
    lines = [f"{'script' if given.script else 'job'} 3", *cluster.lines()]
    lines += [f"parts {given.parts}", f"target {min(given.replicas, MOST_TARGET)}"]
    for number, held in enumerate(splits, 1):
        size = sum(len(documents.texts[it]) for it in held)
        lines.append(" ".join([f"split split-{number} {size}", *cluster.place(given.replicas, rnd)]))
    pieces = ["".join(f"{line}\n" for line in lines).encode()]
    for number, held in enumerate(splits, 1):
        for it in held:
            pieces += [f"doc {documents.names[it]} split-{number} ".encode(), documents.texts[it], b"\n"]
    if given.script:
        played = commands(len(splits), given.parts, given.workers * given.slots)
        pieces.append("".join(f"{line}\n" for line in ["begin", *played]).encode())
    pieces.append(b"end\n")
    size = sum(map(len, pieces))
    if size > MOST_TEXT:
        raise Limit(f"the text has {size:,} bytes, past {MOST_TEXT:,}")
    return pieces


def test_settings(given):
    """Tests the settings against the limits."""
    for name, most in MOST.items():
        if not 1 <= getattr(given, name) <= most:
            raise Limit(f"--{name} {getattr(given, name)}: there may be 1 to {most:,}")
    if not given.script and given.workers > MOST_WORKERS_OF_A_JOB:
        most = f"a job has at most {MOST_WORKERS_OF_A_JOB:,}, a script {MOST['workers']:,}"
        raise Limit(f"--workers {given.workers}: {most}")
    if given.racks > given.workers:
        raise Limit(f"--racks {given.racks}: each rack has a worker, and there are {given.workers}")
    if given.centres > given.racks:
        raise Limit(f"--centres {given.centres}: each centre has a rack, and there are {given.racks}")


def made(given):
    """The text, and the documents with what became of the files."""
    test_settings(given)
    cluster = Cluster(given.racks, given.workers, given.slots, given.centres)
    documents = Documents([*cluster.centres, *cluster.racks, *cluster.workers])
    documents.taken |= {f"split-{number + 1}" for number in range(MOST_SPLITS)}
    for folder in given.folders:
        paths, left = files_below(folder, given.only or ["*"])
        documents.left += left
        for path in paths:
            documents.take(folder, path)
    splits = documents.splits(given.block)
    return text_of(given, cluster, documents, splits), documents, documents.said(splits, given.block)


def asked():
    parser = argparse.ArgumentParser(description=__doc__, formatter_class=argparse.RawDescriptionHelpFormatter)
    parser.add_argument("folders", nargs="+", metavar="FOLDER", help="a folder, taken with all that is below it")
    parser.add_argument("--script", action="store_true", help="write a script in place of a job")
    parser.add_argument("--only", action="append", metavar="PATTERN", help="take files of such names alone, as '*.txt'")
    parser.add_argument("--names", metavar="FILE", help="write there each document's name, a tab and its file, where "
                        "\\\\, \\n, \\r, \\t stand for a backslash, ends of lines and a tab")
    defaults = {"racks": 4, "workers": 16, "slots": 4, "centres": 1, "replicas": 3, "block": 65_536, "parts": 8}
    for name, default in {**defaults, "seed": 1}.items():
        parser.add_argument(f"--{name}", type=int, default=default, metavar="N", help=f"{default} where not given")
    return parser.parse_args()


def main():
    given = asked()
    try:
        pieces, documents, said = made(given)
        if given.names:
            with open(given.names, "w", encoding="utf-8", errors="surrogateescape") as file:
                file.writelines(f"{name}\t{in_a_line(path)}\n" for name, path in zip(documents.names, documents.paths))
                file.writelines(f"-\t{in_a_line(path)}\t{reason}\n" for path, reason in documents.left)
    except (Limit, OSError) as wrong:
        print(f"job_of_files.py: {wrong}", file=sys.stderr)
        return 1
    for sentence in said:
        print(f"job_of_files.py: {sentence}", file=sys.stderr)
    sys.stdout.buffer.writelines(pieces)
    return 0


if __name__ == "__main__":
    signal.signal(signal.SIGPIPE, signal.SIG_DFL)  # (a reader that stops reading ends it quietly)
    sys.exit(main())
