#!/usr/bin/env python3
"""Tries the wrong edits of edits/CRATE/*.edit: the prover must refuse each, by a goal of the function it changes.

    edits.py [--anew] [--keep] [--beside LOG] [CRATE[/NAME]..]    (each crate with edits, those named, or one edit)

An edit has a line 'file: src/lib.rt', and then pairs of lines 'old: TEXT' and 'new: TEXT', each old TEXT standing once
in that file. Edits of different functions of a crate stand in one copy of it and are tried by one check. An edit is
refused where the check names a goal of its own function that is not proved: a clause, an invariant, a safety goal, or
what a callee requires. That a callee is no longer proved, that a proof file names what is gone, or that a text cannot
be read, refuses nothing. The crate's other functions have no bodies in the copy, and holes for their proofs: so the
check takes their contracts as they stand, and proves no function twice. What a group leaves open is tried among fewer
others; a group of which nothing is told, as where one edit cannot be compiled, is halved. An edit that is not refused
alone is tried once more among the bodies of all functions. An edit that stands in no function's body, or in several, is
tried alone, and a goal of any function that the check reaches refuses it.

A crate counts as proved without its edits, as `rt ci` or `rt check` says. Its libraries are taken from out/, as either
leaves them, and are built where they are missing or older than their sources. The checkout stays as it is. That an edit
was refused is kept in $XDG_CACHE_HOME/mrjob-edits, by a checksum of all that the verdict rests on: the edit, the
sources of its crate, what a check reads of the crates below, and the kit. It is not tried again while these stay the
same, here or in another checkout; --anew tries each. --keep writes the checksums of all that is known to
edits/verdicts, for other machines. There each commit has some crates by lot, of which that file tells nothing, so that
their edits are tried again. JOBS=N makes N checks side by side. With --beside, the log of an `rt ci` that is still
running, a crate's edits wait until that run has proved the crate, and there is one check at a time until the run has
ended. The last line is 'N passed, M failed'.
"""
import hashlib
import os
import re
import shutil
import subprocess
import sys
import tempfile
import time
from concurrent.futures import ThreadPoolExecutor, wait
from dataclasses import dataclass
from functools import lru_cache, partial
from pathlib import Path

sys.dont_write_bytecode = True
from crates import PARTS, ROOT, cache, kit_version, places, rattle_words, read_crates

# The memory on which a check is planned, in KiB.
CHECK_MEMORY = 3_000_000
# The most edits that one copy of a crate is for. Those of a crate that has more are tried in several copies.
MOST_IN_COPY = 40
# How an edit is judged, counted up where a verdict of before says nothing any more.
JUDGED_AS = 1
# The verdicts that are told to other machines, and of how many crates one is tried there all the same.
VERDICTS = ROOT / "edits/verdicts"
LOTS = 8
# Verdicts of earlier runs, each a file, and for how many seconds one is kept that no run asks for.
KEPT = cache("mrjob-edits")
KEPT_SECONDS = 30 * 24 * 3600

FUNCTION = re.compile(r"( *)(?:pub(?:\([^)]*\))? )?(?:const |unsafe |extern \"C\" )*fn (\w+)")
IMPL = re.compile(r"(?:unsafe )?impl(?:<.*?>)? (?P<trait>\w.*? for )?(?P<type>\w+)")
# A line that ends a function's head: its body's brace, or the end of the item.
ENDS_HEAD = re.compile(r" *(?:\S.*)?[{};]$")
# Where a goal stands that is not proved, and its name.
# (A type's invariant is told in other words.)
OPEN_GOAL = re.compile(
    r"note: (?:\./)?(src/\S+?):(\d+):\d+: (?:it is not proved that|`search` found no proof) .*?\(`([^`]+)`\)"
)
# The same of a goal for which a search would take too long.
LONG_GOAL = re.compile(
    r"note: what antt said of a `search` in the proof that rattle made: (?:\./)?(src/\S+?):(\d+):\d+: error: `([^`]+)`"
)
# An answer that proves its goal no longer, by the folder of its function's proof.
OPEN_ANSWER = re.compile(r"(?:\./)?proofs/(\S+)/Answers\.antt:\d+:\d+: error: `([^`]+)`: (.*)")
# What antt says where an answer names what is no longer there.
NAMES = re.compile(r"is not in scope|has no field|has no `|is no name|was not admitted")


@dataclass(frozen=True)
class Function:
    """A function of a source file, with its lines from 1 on: the first of its attributes, and those of its braces."""

    file: str
    first: int
    opens: int
    last: int
    # its module, the type of its impl where it has one, and its name
    path: tuple
    # what `rattle check --only` names it by, or nothing
    asked: str

    def has(self, place):
        """Whether a place is in the function: a line of a file, or, with line 0, the folder of its proof."""
        where, line = place
        if line:
            return self.file == where and self.first <= line <= self.last
        names = where.split("/")
        # (the folder of a function that calls itself is named '+NAME')
        names[-1] = names[-1].removeprefix("+")
        # (an impl of a trait goes by its type's name and the trait's)
        return len(names) == len(self.path) and all(
            name == own or own[0].isupper() and name.startswith(own) for name, own in zip(names, self.path)
        )


def functions_of(file, text):
    """The functions of a source file, as rt fmt lays it out: an item ends on the line that closes at its indent."""
    lines = text.split("\n")
    names = file.removeprefix("src/").removesuffix(".rt").split("/")
    module = tuple(it for it in names if it not in ("lib", "main", "mod"))
    found = []
    for at, line in enumerate(lines):
        head = FUNCTION.match(line)
        if not head:
            continue
        indent, name = head.groups()
        ends = (it for it in range(at, len(lines)) if ENDS_HEAD.match(lines[it]))
        opens = next(it for it in ends if depth(lines[it]) <= len(indent))
        if not lines[opens].endswith("{"):
            # (one without a body, or on a single line)
            continue
        last, first = lines.index(indent + "}", opens), at
        while first and re.match(rf"{indent}(#\[|\)\]|//| )", lines[first - 1]):
            first -= 1
        block = next((it for it in reversed(lines[:at]) if it and it[0] not in " }{"), "") if indent else ""
        impl = IMPL.match(block)
        # (a method goes by the module of its type, wherever its impl stands)
        home = re.search(rf"^use crate::([\w:]+)::{impl['type']};$", text, re.M) if impl else None
        holder = tuple(home[1].split("::")) if home else module
        path = (*holder, *([impl["type"]] if impl else []), name)
        # (of an impl of a trait, whose name is rattle's own, the whole module is asked for)
        asked = path if not block or impl and not impl["trait"] else module
        found.append(Function(file, first + 1, opens + 1, last + 1, path, "::".join(asked)))
    return found


def depth(line):
    return len(line) - len(line.lstrip(" "))


def take_out_bodies(copy, crate, whole):
    """Leaves a copy of a crate the contracts alone of its functions, but for those that stay whole: a body that never
    returns, on as many lines, and a hole for its proof. Methods of traits, and what calls itself, stay as they are."""
    for path in sorted((copy / "src").rglob("*.rt")):
        lines = path.read_text(encoding="utf-8").split("\n")
        done = 0
        for it in functions_of(str(path.relative_to(copy)), "\n".join(lines)):
            if it.first > done:
                done = it.last
                if it not in whole and has_contract_alone(copy, it, lines):
                    lines[it.opens:it.last - 1] = ["unreachable!()"] + [""] * (it.last - it.opens - 2)
                    put_hole(copy, crate, it)
        path.write_text("\n".join(lines), encoding="utf-8")


def has_contract_alone(copy, function, lines):
    """Whether a function of a copy can do without its body."""
    is_empty = function.last == function.opens + 1
    is_own = function.asked == "::".join(function.path) != "main"
    calls_itself = copy.joinpath("proofs", *function.path[:-1], f"+{function.path[-1]}").is_dir()
    is_in_cycle = any("#[cycle" in it for it in lines[function.first - 1:function.opens])
    return is_own and not is_empty and not calls_itself and not is_in_cycle


def put_hole(copy, crate, function):
    """Puts a hole in the place of a function's proof."""
    folder, name = copy.joinpath("proofs", *function.path), function.path[-1]
    shutil.rmtree(folder, ignore_errors=True)
    folder.mkdir(parents=True)
    statement = f"Rattle.{crate.name}.proofs.{'.'.join(function.path)}.Statement"
    proof = f"pub {name}_spec : {{M : Type 1}} → statement M\n{name}_spec = ?\n"
    (folder / "Proof.antt").write_text(f"use {statement}.{{statement}}\n\n{proof}", encoding="utf-8")


def goals_on(answers, name):
    """The goals of a file of answers that are answered by this name, or stand on it where it is a lemma beside them."""
    blocks, names, found = answers.split("\n\n"), [name], []
    for name in names:
        for block in blocks:
            declared = re.search(r"^(?:pub )?(\S+) :", block, re.M)
            if declared and declared[1] not in names and re.search(rf"(?<![\w-]){re.escape(name)}(?![\w-])", block):
                names.append(declared[1])
        if re.search(rf"^pub {re.escape(name)} :\s+goal\.{re.escape(name)}$", answers, re.M):
            found.append(name)
    return found


class Unfit(Exception):
    """Why an edit cannot be applied."""


class Edit:
    def __init__(self, path, crate):
        self.path = path
        self.texts = {}
        self.changes = []
        file = old = None
        for line in path.read_text(encoding="utf-8").splitlines():
            key, _, text = line.partition(":")
            text = text.removeprefix(" ")
            if key == "file":
                file = text.strip()
            elif key == "old":
                old = text
            elif key == "new" and file and old:
                self.change(crate, file, old, text)
                old = None
            elif line.strip():
                raise Unfit(f"this line has no place in it: {line}")
        if not self.changes:
            raise Unfit("it has no 'old:' and 'new:' pair")
        bodies = self.bodies(crate)
        # what `rattle check --only` names the functions by whose bodies it changes
        self.asked = [it.asked for it in bodies if it]
        self.function = bodies.pop() if len(bodies) == 1 else None

    def change(self, crate, file, old, new):
        if file not in self.texts:
            if not file.startswith(("src/", "specs/", "proofs/")) or not (crate.folder / file).is_file():
                raise Unfit(f"the crate has no file {file}")
            self.texts[file] = (crate.folder / file).read_text(encoding="utf-8")
        count = self.texts[file].count(old)
        if count != 1:
            raise Unfit(f"an 'old:' text stands {count} times in {file}, and not once")
        at = self.texts[file].index(old)
        # (neither text has a line's end, so each change leaves the lines their numbers)
        self.changes.append((file, self.texts[file].count("\n", 0, at) + 1))
        self.texts[file] = self.texts[file].replace(old, new)

    def bodies(self, crate):
        """The functions in whose bodies its changes stand, and None where one stands in no body."""
        found = set()
        for file, line in self.changes:
            text = (crate.folder / file).read_text(encoding="utf-8")
            functions = functions_of(file, text) if file.endswith(".rt") else []
            holders = [it for it in functions if it.opens < line < it.last]
            found.add(holders[-1] if holders else None)
        return found


@dataclass(frozen=True)
class Verdict:
    """What a check said: the goals that are not proved, each with its place, and its whole text."""

    goals: tuple
    said: str

    def against(self, function):
        """The goals of this function that are not proved, or of any where it is None."""
        return [goal for place, goal in self.goals if function is None or function.has(place)]


class Trial:
    """The edits of a crate, tried on a copy of it in a room of its own, over what the earlier checks there proved."""

    def __init__(self, crate, crates, room):
        self.crate, self.words, self.room = crate, [*rattle_words("check", crate, crates), "--jobs", "1"], Path(room)
        self.checks = self.seconds = 0

    def check(self, edits, with_bodies=False):
        """Checks the functions of these edits, or the whole crate where one has none, in a copy that has them all."""
        copy = self.room / "copy"
        for part in PARTS:
            if (self.crate.folder / part).is_dir():
                shutil.copytree(self.crate.folder / part, copy / part)
        for edit in edits:
            for file, line in edit.changes:
                # (edits of different functions are of different lines)
                lines = (copy / file).read_text(encoding="utf-8").split("\n")
                lines[line - 1] = edit.texts[file].split("\n")[line - 1]
                (copy / file).write_text("\n".join(lines), encoding="utf-8")
        asked = dict.fromkeys(word for it in edits for word in it.asked)
        only = [word for it in asked for word in ("--only", it)] if all(it.asked for it in edits) else []
        if only and not with_bodies:
            take_out_bodies(copy, self.crate, {body for it in edits for body in it.bodies(self.crate)})
            only.append("--allow-holes")
        said, status = self.run([*self.words, "--incremental", str(self.room / "kept"), *only], copy)
        shutil.rmtree(copy)
        if status != 1 or not re.search(r"^(logic=not-proved|only=).*\n\Z", said, re.M):
            return Verdict((), said)
        told = OPEN_GOAL.findall(said) + LONG_GOAL.findall(said)
        goals = [((file, int(line)), goal) for file, line, goal in told]
        false = [(folder, name) for folder, name, why in OPEN_ANSWER.findall(said) if not NAMES.search(why)]
        for folder, name in false:
            answers = (self.crate.folder / "proofs" / folder / "Answers.antt").read_text(encoding="utf-8")
            goals += [((folder, 0), f"{goal} by its answer") for goal in goals_on(answers, name)]
        return Verdict(tuple(goals), said)

    def run(self, words, folder):
        with tempfile.TemporaryFile("w+", errors="replace") as out:
            ran = subprocess.Popen(words, cwd=folder, stdin=subprocess.DEVNULL, stdout=out, stderr=subprocess.STDOUT)
            _, status, usage = os.wait4(ran.pid, 0)
            ran.returncode = os.waitstatus_to_exitcode(status)
            out.seek(0)
            said = out.read()
        self.checks += 1
        self.seconds += usage.ru_utime + usage.ru_stime
        return said, ran.returncode

    def judge(self, group, told):
        """Tries these edits by one check, and tells of each that it refuses, and of one alone in any case."""
        verdict = self.check(group)
        if len(group) == 1 and group[0].asked and not verdict.against(group[0].function):
            # (a hole below may leave untold what a proof there would tell)
            verdict = self.check(group, with_bodies=True)
        for edit in group:
            goals = verdict.against(edit.function)
            if goals:
                told[edit] = True, f"refused: {', '.join(dict.fromkeys(goals))}"
            elif len(group) == 1:
                told[edit] = False, "NOT REFUSED by a goal of its own; of the check's words:\n" + gist(verdict.said)

    def try_all(self, edits):
        """Tells of each edit whether it is refused, and why."""
        told, proved = {}, self.crate.folder / "out/incremental"
        if edits and proved.is_dir():
            shutil.copytree(proved, self.room / "kept")
        left, alone = [it for it in edits if it.function], [it for it in edits if not it.function]
        while left:
            group = {}
            for edit in left:
                group.setdefault(edit.function, edit)
            self.judge_in_halves([*group.values()], told)
            left = [it for it in left if it not in told]
        for edit in alone:
            self.judge([edit], told)
        return told

    def judge_in_halves(self, group, told):
        """Tells of at least one edit of the group."""
        self.judge(group, told)
        if not any(it in told for it in group):
            middle = len(group) // 2
            for half in (group[:middle], group[middle:]):
                self.judge_in_halves(half, told)


@lru_cache(maxsize=None)
def face_of(crate):
    """A checksum of what checks of other crates read of a crate: its definitions, lemmas, types and contracts, and not
    the bodies of its functions, nor how these are proved, nor its comments."""
    total = hashlib.sha256(f"{crate.line}\n".encode())
    for path in sorted(it for part in PARTS for it in (crate.folder / part).rglob("*") if it.is_file()):
        file, text = str(path.relative_to(crate.folder)), path.read_text(encoding="utf-8")
        lines = text.split("\n")
        for it in reversed(functions_of(file, text) if path.suffix == ".rt" else []):
            lines[it.opens:it.last - 1] = []
        text = "\n".join(it for it in lines if not re.match(r" *(//|--)", it))
        if path.name not in ("Answers.antt", "Invariants.antt", "Proof.antt"):
            total.update(f"{file} {len(text)}\n{text}".encode())
    return total.hexdigest()


def told_verdicts():
    """The checksums of edits/verdicts, by the edits' names."""
    lines = VERDICTS.read_text().splitlines() if VERDICTS.exists() else []
    return dict(it.split() for it in lines)


def tried_anew(names):
    """The crates whose lot it is that edits/verdicts tells nothing of them, by the commit that is checked out."""
    told = subprocess.run(["git", "rev-parse", "HEAD"], cwd=ROOT, capture_output=True, text=True)
    lots = {it: int(hashlib.sha256(f"{it} {told.stdout}".encode()).hexdigest(), 16) for it in names}
    return {it for it in names if lots[it] % LOTS == 0}


class Kept:
    """The verdicts that earlier runs kept of a crate's edits, on this machine or in edits/verdicts."""

    def __init__(self, crate, crates, told):
        below = "".join(face_of(it) for it in crate.below(crates))
        self.crate, self.told = crate, told
        self.rest = f"{JUDGED_AS} {kit_version()} {crate.digest()} {below}".encode()

    def sum_of(self, path):
        return hashlib.sha256(self.rest + path.read_bytes()).hexdigest()

    def of(self, path):
        """Why an edit was refused, or None where that is not known."""
        place = KEPT / self.sum_of(path)
        if place.exists():
            os.utime(place)
            return place.read_text()
        is_told = self.told.get(f"{self.crate.name}/{path.stem}") == self.sum_of(path)[:32]
        return "refused, as edits/verdicts tells" if is_told else None

    def keep(self, path, why):
        KEPT.mkdir(parents=True, exist_ok=True)
        with tempfile.NamedTemporaryFile("w", dir=KEPT, delete=False) as file:
            file.write(why)
        os.replace(file.name, KEPT / self.sum_of(path))


def write_verdicts(kept, edits):
    """Writes edits/verdicts: what is known of these edits, and of those of other crates what it told before."""
    lines = [f"{name} {sum}" for name, sum in told_verdicts().items() if name.partition("/")[0] not in edits]
    for name, paths in edits.items():
        lines += [f"{name}/{it.stem} {kept[name].sum_of(it)[:32]}" for it in paths if kept[name].of(it)]
    VERDICTS.write_text("".join(f"{it}\n" for it in sorted(lines)))


def let_go():
    """Removes what no run has asked for in a long time."""
    for it in KEPT.glob("*"):
        if it.stat().st_mtime < time.time() - KEPT_SECONDS:
            it.unlink(missing_ok=True)


def gist(said):
    """The lines of a check's words that say what it refused, or else the first ones."""
    lines = said.splitlines()
    found = [it for it in lines if re.search(r"error|it is not proved|^fn .*: (no|not) ", it)] or lines
    return "\n".join(f"    {it[:300]}" for it in found[:12])


def try_crate(crate, crates, kept, known, paths):
    """Tries edits of a crate, prints a line for each and for those that are known, and gives how many are refused."""
    edits, lines, refused = [], [f"{it.relative_to(ROOT)}: {why} (kept)" for it, why in known.items()], len(known)
    if paths:
        build_libraries(crate, crates)
    for path in paths:
        try:
            edits.append(Edit(path, crate))
        except (Unfit, UnicodeDecodeError) as why:
            lines.append(f"{path.relative_to(ROOT)}: BAD EDIT: {why}")
    with tempfile.TemporaryDirectory(prefix="edits-") as room:
        trial = Trial(crate, crates, room)
        for edit, (is_refused, why) in trial.try_all(edits).items():
            lines.append(f"{edit.path.relative_to(ROOT)}: {why}")
            refused += is_refused
            if is_refused:
                kept.keep(edit.path, why)
    counts = f"{trial.checks} checks, {trial.seconds:.0f} s, {len(known)} verdicts kept"
    lines.append(f"{crate.name}: {refused} of {len(known) + len(paths)} refused, {counts}")
    print("\n".join(lines), flush=True)
    return refused


def build_libraries(crate, crates):
    """Builds the libraries on which the crate stands, where they are missing or old."""
    for library in crate.below(crates):
        if not library.is_made(library.rlib, crates):
            subprocess.run(["rt", "lib"], cwd=library.folder, check=True)


def proved_by(log):
    """The crates that a run of `rt ci` has proved so far, by its log, and whether it has ended."""
    said = log.read_text(errors="replace") if log.exists() else ""
    ended = re.search(r"^\d+ passed, \d+ failed$", said, re.M)
    return set(re.findall(r"^rt: (\w+) (?:proved|is kept)\b", said, re.M)), bool(ended)


def try_side_by_side(tasks, log):
    """Makes the calls, each of a crate by its name, and gives what they give, summed up."""
    lanes, left, running, total = int(os.environ.get("JOBS", 0)) or places(CHECK_MEMORY), [*tasks], set(), 0
    with ThreadPoolExecutor(lanes) as pool:
        while left or running:
            proved, has_ended = proved_by(log) if log else ((), True)
            ready = [it for it in left if has_ended or it[0] in proved]
            for task in ready[:(lanes if has_ended else 1) - len(running)]:
                left.remove(task)
                running.add(pool.submit(task[1]))
            done, running = wait(running, timeout=2) if running else (time.sleep(2) or (), running)
            total += sum(it.result() for it in done)
    return total


def main(words):
    log = None
    if "--beside" in words:
        at = words.index("--beside")
        log, words = Path(words[at + 1]), words[:at] + words[at + 2:]
    names, crates = [it for it in words if it not in ("--anew", "--keep")], read_crates()
    found = {it.name: sorted(it.iterdir()) for it in sorted((ROOT / "edits").iterdir()) if it != VERDICTS}
    strays = [it for name, paths in found.items() for it in paths if name not in crates or it.suffix != ".edit"]
    for it in strays:
        print(f"{it.relative_to(ROOT)}: BAD EDIT: an edit is a file edits/CRATE/NAME.edit, of a crate of crates.txt")
    edits = {}
    for asked in names or [it for it in found if it in crates]:
        name, _, wanted = asked.partition("/")
        paths = [it for it in found.get(name, []) if it not in strays and wanted in ("", it.stem)]
        if name not in crates or not paths:
            sys.exit(f"{asked} is no crate with edits, and no edit of one")
        edits.setdefault(name, []).extend(it for it in paths if it not in edits.get(name, []))
    let_go()
    told, anew = told_verdicts(), tried_anew(edits)
    kept = {name: Kept(crates[name], crates, {} if name in anew else told) for name in edits}
    known = {name: {} for name in edits}
    if "--anew" not in words:
        known = {name: {it: why for it in paths if (why := kept[name].of(it))} for name, paths in edits.items()}
    # (what takes longest begins first)
    order = sorted(edits, key=lambda it: -sum(path.stat().st_size for path in crates[it].folder.rglob("*.rt")))
    tasks = []
    for name in order:
        copies = -(-(len(edits[name]) - len(known[name])) // MOST_IN_COPY) or 1
        unknown = [it for it in edits[name] if it not in known[name]]
        for at in range(copies):
            tried, told = unknown[at::copies], known[name] if at == 0 else {}
            tasks.append((name, partial(try_crate, crates[name], crates, kept[name], told, tried)))
    refused = try_side_by_side(tasks, log)
    if "--keep" in words:
        write_verdicts(kept, {name: found[name] for name in edits})
    failed = sum(map(len, edits.values())) - refused + len(strays)
    print(f"{refused} passed, {failed} failed")
    return 1 if failed or not refused else 0


if __name__ == "__main__":
    sys.exit(main(sys.argv[1:]))
