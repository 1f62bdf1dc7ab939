#!/usr/bin/env python3
"""Puts what was built below a folder, as `make install` and `make uninstall` ask.

    install.py PREFIX            bin/mrjob, its manual pages and completions, the scripts of contrib/ with the packages
                                 of python/, the docs and the examples; where `make library` has left it, the C
                                 library with its header too
    install.py --undo PREFIX     takes away just what was put there, by the list that lies beside the scripts
"""
import shutil
import subprocess
import sys
import tempfile
from pathlib import Path

sys.dont_write_bytecode = True
import manual
import quick
from crates import ROOT

MADE = {
    "mrjob.1": "share/man/man1/mrjob.1",
    "mrjob.5": "share/man/man5/mrjob.5",
    "mrjob.h.3": "share/man/man3/mrjob.h.3",
    "mrjob.bash": "share/bash-completion/completions/mrjob",
    "_mrjob": "share/zsh/site-functions/_mrjob",
    "mrjob.fish": "share/fish/vendor_completions.d/mrjob.fish",
}
OWN, DOC = "share/mrjob", "share/doc/mrjob"
LIST = f"{OWN}/installed"
# What the list has of a folder that was made, after its place.
FOLDER = "/"


def kept(*places):
    """The files below these that git keeps or would keep; where this is no clone, all files."""
    words = ["git", "ls-files", "-z", "--cached", "--others", "--exclude-standard", *places]
    told = subprocess.run(words, cwd=ROOT, capture_output=True, text=True)
    names = told.stdout.split("\0")[:-1] if told.returncode == 0 else []
    whole = names or (it for place in places for it in [ROOT / place, *(ROOT / place).rglob("*")])
    return sorted({ROOT / it for it in whole if (ROOT / it).is_file() and not str(it).endswith(".pyc")})


def sources(room, program):
    """Each file that is put somewhere, or what a link leads to, with its place and mode. Pages are made in the room."""
    yield program, "bin/mrjob", 0o755
    has_library = (ROOT / "lib/libmrjob.a").exists()
    for name in manual.write(program, room):
        if has_library or name != "mrjob.h.3":
            yield Path(room) / name, MADE[name], 0o644
    for below, names in ((OWN, ["contrib", "python/mrjob_dask", "python/mrjob_plan"]), (DOC, ["README.md", "CHANGELOG.md", "LICENSE", "docs", "examples"])):
        for path in kept(*names):
            yield path, f"{below}/{path.relative_to(ROOT)}", 0o755 if path.read_bytes().startswith(b"#!") else 0o644
    yield "../../mrjob/contrib", f"{DOC}/contrib", None
    if has_library:
        yield ROOT / "include/mrjob.h", "include/mrjob.h", 0o644
        for path in sorted((ROOT / "lib").rglob("*")):
            if path.is_symlink():
                yield path.readlink(), f"lib/{path.relative_to(ROOT / 'lib')}", None
            elif path.is_file() and path.name != "build.log":
                yield path, f"lib/{path.relative_to(ROOT / 'lib')}", 0o644


def make_folder(folder):
    """Makes a folder with those above it, and returns those that were not there, the highest first."""
    made = [] if folder.exists() else [*make_folder(folder.parent), folder]
    folder.mkdir(exist_ok=True)
    return made


def install(prefix, program=ROOT / "bin/mrjob"):
    undo(prefix)
    placed, folders = [], make_folder(prefix)
    with tempfile.TemporaryDirectory() as room:
        for source, place, mode in [*sources(room, program), (None, LIST, None)]:
            target = prefix / place
            folders += make_folder(target.parent)
            if source is None:
                continue
            target.unlink(missing_ok=True)
            if mode is None:
                target.symlink_to(source)
            else:
                shutil.copyfile(source, target)
                target.chmod(mode)
            placed.append(place)
    # (of what lies above the prefix, nothing is ours)
    own = [f"{it.relative_to(prefix)}{FOLDER}" for it in folders if prefix in [it, *it.parents]]
    (prefix / LIST).write_text("".join(f"{place}\n" for place in [*placed, *own]))


def undo(prefix):
    """Takes away what the list names, the list, and the folders that were made for it, where they are empty."""
    listed = prefix / LIST
    if not listed.exists():
        return
    places = listed.read_text().split("\n")[:-1]
    for place in places:
        if not place.endswith(FOLDER):
            (prefix / place).unlink(missing_ok=True)
    listed.unlink()
    for place in reversed(places):
        folder = prefix / place
        if place.endswith(FOLDER) and folder.is_dir() and not any(folder.iterdir()):
            folder.rmdir()


def main(words):
    try:
        if len(words) == 1 and words[0] != "--undo":
            install(Path(words[0]))
            if quick.is_unproved(ROOT / "bin/mrjob"):
                print("bin/mrjob, which was put there, is not proved: `make` proves it", file=sys.stderr)
        elif len(words) == 2 and words[0] == "--undo":
            undo(Path(words[1]))
        else:
            sys.exit(__doc__.strip())
    except OSError as why:
        verb = "uninstall" if len(words) == 2 else "install"
        sys.exit(f"{why.filename}: {why.strerror}; `make {verb} PREFIX=FOLDER` takes another folder")


if __name__ == "__main__":
    main(sys.argv[1:])
