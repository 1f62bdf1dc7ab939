#!/usr/bin/env python3
"""Prints which functions of a crate are dear to prove: the seconds that each takes in a check from nothing.

    function_times.py CRATE [COUNT]      (the COUNT dearest, or 30)

The check is of one job, over the libraries that `rt ci` or `rt check` left in out/, and keeps what it checks in a
folder of its own. It writes a file for each module as it ends with it, so the time since the file before is that
module's. Of a function `Lts` are its lifetimes, `Proof` the goals that the tactics close by themselves, `Answers`
those that are answered by hand; what lies outside of functions goes by its file. Other work on the machine makes the
seconds larger. A crate of tests is checked with its tests.
"""
import re
import subprocess
import sys
import tempfile
from collections import defaultdict
from pathlib import Path

sys.dont_write_bytecode = True
from crates import rattle_words, read_crates

# What a module of a function's proof is named by.
KINDS = ("Lts", "Proof", "Answers", "Goals", "Invariants", "Code", "Kinds", "Tie", "Statement", "Met")


def module_seconds(kept):
    """The modules that a check kept in a folder, in their order, with the seconds of each."""
    files = sorted((it.stat().st_mtime_ns, it.stem) for it in kept.rglob("*.oantt"))
    return [(name, (ended - before) / 1e9) for (before, _), (ended, name) in zip(files, files[1:])]


def owner_and_kind(module):
    """The function that a module is part of, or else its file, and of which kind it is."""
    parts = re.sub(r"^Rattle-\w+?(-\w+)?\.", "", module).split(".")
    at = next((at for at, part in enumerate(parts) if part in KINDS), len(parts))
    return "::".join(parts[:at]), parts[at] if at < len(parts) else "file"


def main(name, count=30):
    crates = read_crates()
    if name not in crates:
        sys.exit(f"{name} is no crate of crates.txt")
    crate = crates[name]
    with tempfile.TemporaryDirectory(prefix="times-") as kept:
        words = [*rattle_words("check", crate, crates), "--jobs", "1", "--incremental", kept]
        words += ["--test"] if name.endswith("_tests") else []
        said = subprocess.run(
            words, cwd=crate.folder, stdout=subprocess.PIPE, stderr=subprocess.STDOUT, text=True, errors="replace"
        )
        modules = module_seconds(Path(kept))
    spent = defaultdict(lambda: defaultdict(float))
    for module, seconds in modules:
        owner, kind = owner_and_kind(module)
        spent[owner][kind] += seconds
    for owner, kinds in sorted(spent.items(), key=lambda it: -sum(it[1].values()))[:int(count)]:
        shares = sorted(((kind, seconds) for kind, seconds in kinds.items() if seconds >= 0.1), key=lambda it: -it[1])
        told = ", ".join(f"{kind} {seconds:.1f}" for kind, seconds in shares)
        print(f"{sum(kinds.values()):6.1f}  {owner}  ({told})")
    verdict = said.stdout.rstrip().rpartition("\n")[2]
    print(f"{sum(seconds for _, seconds in modules):6.1f}  all  ({verdict})")
    return said.returncode


if __name__ == "__main__":
    sys.exit(main(*sys.argv[1:]) if len(sys.argv) in (2, 3) else __doc__)
