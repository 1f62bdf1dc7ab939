"""The crates of the repository, as crates.txt lists them."""
import hashlib
import os
import re
import shutil
import subprocess
import sys
from functools import lru_cache
from pathlib import Path

import quiet

ROOT = Path(__file__).resolve().parent.parent
# (each script that stands on this file ends so)
quiet.at_head()
# What a crate is made of.
PARTS = ("src", "specs", "proofs")


class Crate:
    """A crate, by its line of crates.txt."""

    def __init__(self, line):
        head, _, libraries = line.partition(":")
        self.line, self.name, self.libraries = line, head.split()[0], libraries.split()
        self.folder = ROOT / "crates" / self.name
        self.rlib = self.folder / "out/rlib" / f"{self.name}.rlib"

    def is_program(self):
        return (self.folder / "src/main.rt").exists()

    def below(self, crates):
        """The repository's crates on which this one stands, lowest first."""
        found = []
        for name in self.libraries:
            if name in crates:
                found += [it for it in [*crates[name].below(crates), crates[name]] if it not in found]
        return found

    def changed(self):
        """When one of its sources changed last."""
        return max(it.stat().st_mtime for part in PARTS for it in (self.folder / part).rglob("*"))

    def digest(self):
        """A checksum of the crate's sources."""
        total = hashlib.sha256()
        for it in sorted(it for part in PARTS for it in (self.folder / part).rglob("*") if it.is_file()):
            content = it.read_bytes()
            total.update(f"{it.relative_to(self.folder)} {len(content)}\n".encode() + content)
        return total.hexdigest()

    def is_made(self, file, crates):
        """Whether the file is there, and no older than the sources of the crate and of those below."""
        return file.exists() and all(it.changed() <= file.stat().st_mtime for it in [*self.below(crates), self])


def read_crates(listed=ROOT / "crates.txt"):
    """The crates that are listed, by their names and in that order."""
    lines = [it.partition("#")[0].strip() for it in listed.read_text().splitlines()]
    return {it.name: it for it in map(Crate, filter(None, lines))}


def version():
    """The version of the program, the library and the Python package."""
    return (ROOT / "VERSION").read_text().strip()


def need_kit():
    """Ends the script in one line where the kit's command is not there."""
    if shutil.which("rt") is None:
        sys.exit("`rt`, the command of the Rattle kit, is not on PATH: see \"From the sources\" in README.md")


def kit():
    """The folder of the Rattle kit."""
    need_kit()
    return Path(subprocess.run(["rt", "doc"], check=True, capture_output=True, text=True).stdout.strip()).parent


@lru_cache(maxsize=None)
def kit_version():
    need_kit()
    return subprocess.run(["rt", "version"], check=True, capture_output=True, text=True).stdout


def cache(name):
    """A folder of the project's in the user's cache."""
    return Path(os.environ.get("XDG_CACHE_HOME") or Path.home() / ".cache") / name


def rattle_words(command, crate, crates):
    """The kit's command on a crate over its libraries, as they are built, for the crate's folder or a copy of it."""
    folder = kit()
    words = [f"{folder}/bin/rattle", command, "--crate-name", crate.name]
    words.append("src/main.rt" if crate.is_program() else "src/lib.rt")
    for name in ["std", *crate.libraries]:
        rlib = crates[name].rlib if name in crates else f"{folder}/rlibs/{name}.rlib"
        words += ["--extern", f"{name}={rlib}"]
    for place in [f"{folder}/rlibs", *(it.rlib.parent for it in crate.below(crates))]:
        words += ["-L", f"dependency={place}"]
    words += ["--antt-project", f"{folder}/rattle/logic/antt-project.json", "--logic-built", f"{folder}/logic_built"]
    return [*words, "--links", f"{crate.name}="]


def places(memory):
    """How many checks that each take so many KiB fit side by side: one a processor, as far as memory holds them."""
    free = int(re.search(r"MemAvailable:\s+(\d+)", Path("/proc/meminfo").read_text())[1])
    return max(1, min(len(os.sched_getaffinity(0)), free // memory))
