#!/usr/bin/env python3
"""Looks for shorter proofs: terms in a crate's lemmas for which one call of a tactic can stand.

    shorter_proofs.py [--write] CRATE [FUNCTION..]

Without functions, by their paths below the crate, the crate's files of lemmas are gone through, and with them the
answers of those. First each case of a lemma is tried that takes three lines or more, and then each branch, field, let
and last term in the cases that are left: as `grind` and as `search` over the lemmas that it names, and as `cc`. Copies
of a lemma, each with one change, stand beside it in a copy of the crate, so that one check tells of them all. A line
for each proof that can be shorter is printed. --write writes them into the crate: `rt check` is the verdict, `rt fmt`
lays long lists out, and `rattle check --fix-imports` takes away the imports that nothing uses any more.

The libraries below the crate are taken from out/, as `rt ci` or `rt check` leaves them.
"""
import re
import shutil
import subprocess
import sys
import tempfile
from dataclasses import dataclass
from pathlib import Path

sys.dont_write_bytecode = True
from crates import PARTS, places, rattle_words, read_crates

CHECK_MEMORY = 3_000_000
WIDTH = 110
OPENING, CLOSING = "([{", ")]}"
WORD = re.compile(r"[^\s(){}\[\],;|=:]+")
IMPORT = re.compile(r"^(?:pub )?use ([\w.]+)\.\{([^}]*)\}", re.M)
SIGNATURE = re.compile(r"(?:pub )?(\S+) :(?: |$)")
NO_LEMMAS = {"abbrev", "unfoldable", "record", "data", "module", "ruleset"}
# Words of std's that build terms, and functions: what a list of lemmas has no use for.
BUILDERS = set("refl sym ap subst absurd inl inr arith common_steps get_or set take drop slice_get slice_index".split())
ERROR = re.compile(r"^\./(proofs/[^:]+):(\d+):\d+: error: ", re.M)
STEPS = "use Rattle.std.proofs.lemmas.Grind.{common_steps}"


@dataclass
class Lemma:
    """A lemma, by the lines of its file: its signature with the line `unfolding`, and its cases."""

    name: str
    head: list
    cases: list

    def end(self):
        return self.cases[-1][1]


@dataclass
class Trial:
    """A tactic in the place of a term: the lines of a case from `first` to `last` become `new`."""

    file: str
    lemma: Lemma
    case: int
    first: int
    last: int
    new: list
    lines: range = None

    def saved(self):
        return self.last - self.first - len(self.new)

    def meets(self, other):
        """Whether both change a line of one case."""
        same = (self.file, self.lemma.name, self.case) == (other.file, other.lemma.name, other.case)
        return same and self.first < other.last and other.first < self.last


def items_of(lines):
    """The items of a file, by their first line and the line after the last: what begins at the margin begins one."""
    starts = [at for at, line in enumerate(lines) if line.strip() and line[0] not in " " + CLOSING]
    for start, end in zip(starts, [*starts[1:], len(lines)]):
        while not lines[end - 1].strip():
            end -= 1
        yield start, end


def lemmas_of(lines):
    """The lemmas of a file."""
    items, found, at = list(items_of(lines)), [], 0
    while at < len(items):
        start, end = items[at]
        at += 1
        head = SIGNATURE.match(lines[start])
        if not head or head[1] in NO_LEMMAS:
            continue
        text = lines[start:end]
        if at < len(items) and lines[items[at][0]].startswith("unfolding "):
            text = lines[start : items[at][1]]
            at += 1
        cases = []
        while at < len(items) and lines[items[at][0]].startswith(head[1] + " "):
            cases.append(items[at])
            at += 1
        if cases:
            found.append(Lemma(head[1], text, cases))
    return found


def depth(line):
    return len(line) - len(line.lstrip(" "))


def is_balanced(text):
    level = 0
    for letter in text:
        level += (letter in OPENING) - (letter in CLOSING)
        if level < 0:
            return False
    return level == 0


def whole_terms(lines):
    """The term of a case: its first line, the column in it from which the term stands, and the line after."""
    for at, line in enumerate(lines):
        equals = re.search(r" =(?= |$)", line)
        if equals and is_balanced("\n".join(lines[:at] + [line[: equals.start()]])):
            if len(lines) > 2:
                yield at, equals.end(), len(lines)
            return


def inner_terms(lines):
    """The same of the branches, fields and lets in a case, and of the last terms after lets."""
    for at, line in enumerate(lines):
        past = (it for it in range(at + 1, len(lines)) if lines[it].strip() and depth(lines[it]) <= depth(line))
        end = next(past, len(lines))
        ends = [it.end() for it in re.finditer(r"(?: ↦| =)(?= |$)", line)]
        for column in ends[1 if at == 0 else 0 :]:
            if end - at > 2:
                yield at, column, end
        if at and lines[at - 1].endswith(" in") and not line.lstrip().startswith("let "):
            last = next((it for it in range(at, len(lines)) if depth(lines[it]) < depth(line)), len(lines))
            if last - at > 2:
                yield at, depth(line), last


def calls_of(name, text):
    """The calls of a lemma in a term, each on one line."""
    for found in re.finditer(rf"(?<![^\s(\[{{,]){re.escape(name)}(?![^\s)\]}},])", text):
        at, words = found.end(), [name]
        while more := re.match(r"\s+([^\s(){}\[\],;|]+|[({])", text[at:]):
            word, at = more[1], at + more.end()
            if word in "({":
                start = at - 1
                while not is_balanced(text[start:at]) and at < len(text):
                    at += 1
                word = re.sub(r"\s+", " ", text[start:at])
            elif word in ("in", "=", "∙", "↦", "→", "+", "×", "≡", "++", "∷", "then", "else", "let", "λ"):
                break
            words.append(word)
        yield " ".join(words)


def tactics(term, before, name, imports, own):
    """The tactics that may stand for a term of the lemma of this name, after the text before it in the lemma."""
    words = dict.fromkeys(it.rstrip(".") for it in WORD.findall(term))
    named = [it for it in words if it in own or is_lemma(it, imports.get(it, ""))]
    named = [it for it in named if it != name and it not in BUILDERS]
    known = {it.rstrip(".") for it in WORD.findall(before)} | set(imports)
    # (what the lemma says of smaller values is named with its arguments, where these are known before the term)
    smaller = [
        it for it in dict.fromkeys(calls_of(name, term))
        if all(word.rstrip(".").split(".")[0] in known or word.isdigit() for word in WORD.findall(it))
    ]
    listed = [["arith", *smaller], ["arith", *smaller, *named], ["arith", *smaller, "common_steps", *named]]
    found = [f"grind {in_parentheses(it)}" for it in listed] + [f"search {in_parentheses(listed[1])}"]
    return list(dict.fromkeys(found)) + ([] if smaller else ["cc"])


def is_lemma(name, module):
    """Whether an imported name is a lemma's: of a file of proofs, and of std's Common where it joins words."""
    common = module.endswith(".Common") and not re.match(r"[a-z]\w*[-_]", name)
    return ".proofs" in module and not common and not module.endswith(".Goals")


def in_parentheses(words):
    return words[0] if len(words) == 1 else f"({', '.join(words)})"


def trials_of(file, lines, terms):
    """The trials of a file, over the terms of its cases."""
    lemmas = lemmas_of(lines)
    imports = {it.strip(): module for module, names in IMPORT.findall("\n".join(lines)) for it in names.split(",")}
    for lemma in lemmas:
        for case, (start, end) in enumerate(lemma.cases):
            text = lines[start:end]
            for first, column, last in terms(text):
                term = "\n".join([text[first][column:], *text[first + 1 : last]])
                suffix = next((it for it in (";", ",", " in") if term.endswith(it)), "")
                term = term.removesuffix(suffix)
                if not is_balanced(term) or re.search(r"\n *where\b", term):
                    continue
                before = "\n".join([*text[:first], text[first][:column]])
                own = {it.name for it in lemmas} | set(re.findall(r"^ +(\S+) : ", "\n".join(text), re.M))
                for tactic in tactics(term, before, lemma.name, imports, own):
                    new = laid_out(text[first][:column], tactic + suffix)
                    if last - first > len(new):
                        yield Trial(file, lemma, case, first, last, new)


def laid_out(front, tactic):
    """The lines of a tactic after the front of its line."""
    line = f"{front.rstrip()} {tactic}" if front.strip() else front + tactic
    if len(line) <= WIDTH or not front.strip():
        return [line]
    return [front.rstrip(), " " * (depth(front) + 4) + tactic]


def renamed(text, old, new):
    return re.sub(rf"(?<![^\s(\[{{,.]){re.escape(old)}(?![^\s)\]}},.])", new, text)


def copy_of(lemma, lines, trial, name):
    """The lines of the lemma under another name, with one case changed."""
    head = [lemma.head[0].removeprefix("pub ").replace(lemma.name, name, 1), *lemma.head[1:]]
    for case, (start, end) in enumerate(lemma.cases):
        text = lines[start:end]
        if case == trial.case:
            text = [*text[: trial.first], *trial.new, *text[trial.last :]]
        head += renamed("\n".join(text), lemma.name, name).split("\n")
    return head


def with_steps(lines):
    """The lines with std's common steps imported."""
    first = 1 + max((at for at, line in enumerate(lines) if line.startswith("use Rattle.std.")), default=-1)
    return lines if any("common_steps" in it for it in lines[:first]) else [*lines[:first], STEPS, *lines[first:]]


def lay(path, lines, trials):
    """Writes a file with a copy of a lemma for each trial, and notes on which lines each stands."""
    out = []
    for at, line in enumerate([*lines, ""]):
        for number, trial in enumerate(trials):
            if trial.lemma.end() == at:
                copy = copy_of(trial.lemma, lines, trial, f"trial{number}_{trial.lemma.name}")
                out += ["", *copy]
                trial.lines = range(len(out) - len(copy) + 1, len(out) + 1)
        out += ["", line] if any(it.lemma.end() == at for it in trials) else [line]
    # (the import stands above them all)
    whole = with_steps(out)
    for trial in trials:
        trial.lines = range(trial.lines.start + len(whole) - len(out), trial.lines.stop + len(whole) - len(out))
    path.write_text("\n".join(whole), encoding="utf-8")


def lemma_files(folder):
    return [it for it in sorted(folder.glob("proofs/**/*.antt")) if it.stem not in ("Answers", "Invariants", "Lib")]


def asked(copy, crate, functions):
    """What `rattle check` is to be told: these functions, or one whose answers now import all files of lemmas."""
    answers = sorted(copy.glob("proofs/**/Answers.antt"), key=lambda it: it.stat().st_size)
    if functions or not answers:
        return [word for it in functions for word in ("--only", it)]
    modules = [".".join(it.relative_to(copy).with_suffix("").parts) for it in lemma_files(copy)]
    uses = [f"use Rattle.{crate.name}.{it} as lemmas{number}\n" for number, it in enumerate(modules)]
    answers[0].write_text("".join(uses) + answers[0].read_text(encoding="utf-8"), encoding="utf-8")
    return ["--only", "::".join(answers[0].parent.relative_to(copy / "proofs").parts)]


def passing(crate, crates, room, files, functions, trials):
    """Those of the trials that one check proves."""
    copy = room / "copy"
    for part in PARTS:
        if (crate.folder / part).is_dir():
            shutil.copytree(crate.folder / part, copy / part)
    for file, lines in files.items():
        lay(copy / file, lines, [it for it in trials if it.file == file])
    words = [*rattle_words("check", crate, crates), "--incremental", str(room / "kept")]
    words += ["--jobs", str(places(CHECK_MEMORY)), *asked(copy, crate, functions)]
    said = subprocess.run(words, cwd=copy, stdout=subprocess.PIPE, stderr=subprocess.STDOUT, text=True).stdout
    shutil.rmtree(copy)
    errors = [(file, int(line)) for file, line in ERROR.findall(said)]
    strays = [it for it in errors if not any(it[0] == trial.file and it[1] in trial.lines for trial in trials)]
    if strays or not re.search(r"^(only=|logic=)", said, re.M):
        sys.exit(f"{said}\nThe check did not get to the trials.")
    return [it for it in trials if not any(file == it.file and line in it.lines for file, line in errors)]


def chosen(trials):
    """The trials to write: those that save most, the plainer first, no two of the same lines."""
    found = []
    for trial in sorted(trials, key=lambda it: (-it.saved(), sum(map(len, it.new)))):
        if not any(trial.meets(it) for it in found):
            found.append(trial)
    return found


def write(folder, lines, trials):
    """Writes the trials of a file into it."""
    for trial in sorted(trials, key=lambda it: -(it.lemma.cases[it.case][0] + it.first)):
        start = trial.lemma.cases[trial.case][0]
        lines[start + trial.first : start + trial.last] = trial.new
    if any("common_steps" in line for trial in trials for line in trial.new):
        lines = with_steps(lines)
    (folder / trials[0].file).write_text("\n".join(lines), encoding="utf-8")


def read(folder, functions):
    """The files of lemmas, or those of the functions' answers, with their lines."""
    answers = [folder / "proofs" / it.replace("::", "/") / "Answers.antt" for it in functions]
    files = answers if functions else lemma_files(folder)
    return {str(it.relative_to(folder)): it.read_text(encoding="utf-8").split("\n") for it in files}


def main(words):
    is_to_write, words = "--write" in words, [it for it in words if it != "--write"]
    if not words:
        sys.exit(__doc__)
    crates = read_crates()
    crate, functions = crates[words[0]], words[1:]
    saved = 0
    with tempfile.TemporaryDirectory(prefix="shorter-") as room:
        work = Path(room) / "work"
        for part in PARTS:
            if (crate.folder / part).is_dir():
                shutil.copytree(crate.folder / part, work / part)
        folder, crate.folder = crate.folder, work
        for terms in (whole_terms, inner_terms):
            files = read(work, functions)
            trials = [trial for file, lines in files.items() for trial in trials_of(file, lines, terms)]
            found = chosen(passing(crate, crates, Path(room), files, functions, trials)) if trials else []
            for file, lines in files.items():
                here = [it for it in found if it.file == file]
                for trial in here:
                    print(f"{file}: {trial.lemma.name}: {trial.saved()} lines fewer: {trial.new[-1].strip()}")
                if here:
                    write(work, lines, here)
            saved += sum(it.saved() for it in found)
        if is_to_write:
            shutil.copytree(work / "proofs", folder / "proofs", dirs_exist_ok=True)
    print(f"{crate.name}: {saved} lines fewer")


if __name__ == "__main__":
    main(sys.argv[1:])
