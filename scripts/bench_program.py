#!/usr/bin/env python3
"""Proves and builds a program of bench/programs, which only measures, and prints where it stands.

    bench_program.py NAME

Neither `make` nor the gate reads these programs: a file X lies there as X.in. The program is laid out as a crate of a
workspace of its own, $XDG_CACHE_HOME/mrjob-bench, beside copies of the libraries on which it stands. They are proved
in the checkout, where that has yet to be done, and the program over them. What was proved is kept for the next call.
"""
import shutil
import subprocess
import sys
from pathlib import Path

sys.dont_write_bytecode = True
from crates import PARTS, ROOT, cache, read_crates

PROGRAMS = ROOT / "bench/programs"
WORKSPACE = cache("mrjob-bench")


def copy_library(library):
    """Copies a proved library into the workspace, unless it stands there already."""
    to, stamp = WORKSPACE / "crates" / library.name, Path("out/rlib/stamp")
    if (to / stamp).exists() and (to / stamp).read_text() == (library.folder / stamp).read_text():
        return
    shutil.rmtree(to, ignore_errors=True)
    for part in (*PARTS, "out/rlib"):
        if (library.folder / part).is_dir():
            shutil.copytree(library.folder / part, to / part)


def lay_out(program):
    """Lays out the program's files in the workspace, where out/ keeps what was proved."""
    to = WORKSPACE / "crates" / program.name
    for part in PARTS:
        shutil.rmtree(to / part, ignore_errors=True)
    for file in (PROGRAMS / program.name).rglob("*"):
        if file.is_file():
            place = to / str(file.relative_to(PROGRAMS / program.name)).removesuffix(".in")
            place.parent.mkdir(parents=True, exist_ok=True)
            shutil.copyfile(file, place)
    return to


def main(name):
    crates = read_crates()
    measuring = read_crates(listed=PROGRAMS / "crates.txt.in")
    crates.update(measuring)
    program = crates[name]
    libraries = program.below(crates)
    for library in libraries:
        if library.name in measuring:
            lay_out(library)
        else:
            subprocess.run(["rt", "lib"], cwd=library.folder, stdout=subprocess.DEVNULL, check=True)
            copy_library(library)
    folder = lay_out(program)
    (WORKSPACE / "crates.txt").write_text("".join(f"{it.line}\n" for it in [*libraries, program]))
    # (rt run proves what of the workspace is not, builds the program, and runs it on the text that stands beside it)
    with open(folder / "stdin") as text:
        ran = subprocess.run(["rt", "run"], cwd=folder, stdin=text, capture_output=True)
    if ran.returncode or ran.stdout != (folder / "stdout").read_bytes():
        sys.stderr.buffer.write(ran.stderr)
        sys.exit(f"{name} is not proved, or does not write what its file stdout has")
    print(folder / "out" / name)


if __name__ == "__main__":
    main(*sys.argv[1:])
