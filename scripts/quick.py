#!/usr/bin/env python3
"""Builds the program without its proofs, in about two minutes, and leaves it as bin/mrjob. `mrjob --version` says of it
that it is not proved.

    quick.py [--bare] [PROGRAM]      PROGRAM is where it is left, in place of bin/mrjob

With --bare it also has no tests of each index, sum and cast, as a proved program has none: to be measured, not used.

`rt try` makes a program without its proofs, with tests of each index, sum and cast, and keeps no file of it. So it is
run here by a folder of links to the kit, in which a script stands for the compiler: that keeps the program's module,
with the words by which it was to be compiled, and ends the try. The module is then compiled and linked as a proved one.
"""
import re
import shutil
import subprocess
import sys
import tempfile
from pathlib import Path

sys.dont_write_bytecode = True
from crates import ROOT, kit, need_kit, read_crates, version

TARGET = "x86_64-unknown-linux-gnu"
MARK = " (not proved)"
# Of two calls the first only asks whether there is a sanitizer at all.
# A call of the module that ends a test.
TEST = re.compile(r'\s*call void @(?:"rattle-llvm-checks::|llvm\.trap\b)')
COMPILER = """#!/bin/sh
case "$*" in *-fsanitize=address*) ;; *) exec '{compiler}' "$@" ;; esac
cp module.bc '{room}/module.bc' && printf '%s\\n' "$@" > '{room}/words'
exit 1
"""


def link_all(origin, folder, *but):
    """Fills a new folder with links to what stands in another one, but for these names."""
    folder.mkdir()
    for it in origin.iterdir():
        if it.name not in but:
            (folder / it.name).symlink_to(it)


def lay_out_kit(room):
    """A folder of links to the kit, with the script for the compiler; and the path of its rt."""
    whole, made = kit(), room / "kit"
    link_all(whole, made, "bin", "toolchain")
    link_all(whole / "bin", made / "bin", "rt", "rtlib.py")
    for name in ("rt", "rtlib.py"):  # (rt takes for the kit what it lies in, links followed)
        shutil.copy2(whole / "bin" / name, made / "bin" / name)
    link_all(whole / "toolchain", made / "toolchain", "bin")
    link_all(whole / "toolchain/bin", made / "toolchain/bin", "clang")
    compiler = made / "toolchain/bin/clang"
    compiler.write_text(COMPILER.format(compiler=whole / "toolchain/bin/clang", room=room))
    compiler.chmod(0o755)
    return made / "bin/rt"


def lay_out_sources(room):
    """A copy of the crates whose version says that they are not proved; and the folder of the program's."""
    leave_out = shutil.ignore_patterns("out", "proofs")
    for crate in read_crates().values():
        shutil.copytree(crate.folder, room / "crates" / crate.name, ignore=leave_out)
    for name in ("crates.txt", "HANDLES"):
        shutil.copy2(ROOT / name, room / name)
    for path in (room / "crates/command_line/src").glob("*.rt"):
        text = path.read_text()
        path.write_text(re.sub(rf'"((?:mrjob )?{re.escape(version())})(\\n)?"', rf'"\1{MARK}\2"', text))
    return room / "crates/mrjob"


def is_unproved(program):
    """Whether a program says that it is not proved."""
    return MARK in subprocess.run([program, "--version"], capture_output=True, text=True).stdout


def without_tests(room, compiler):
    """Leaves the module as text, in which what a test leads to is never reached; and tells the words that compile it."""
    module, text = room / "module.bc", room / "module.ll"
    as_text = ["-Xclang", "-disable-llvm-passes", "-S", "-emit-llvm", "-x", "ir"]
    subprocess.run([*compiler, f"--target={TARGET}", *as_text, module, "-o", text], check=True)
    with open(text) as lines, open(room / "bare.ll", "w") as bare:
        bare.writelines(line for line in lines if not TEST.match(line))
    return {"module.bc": "bare.ll", "-O1": "-O3", "-Werror": "-w"}


def build(program, bare=False):
    """Leaves the program there, built without its proofs."""
    whole = kit()
    with tempfile.TemporaryDirectory(prefix="mrjob-quick-") as room:
        room = Path(room)
        folder = lay_out_sources(room)
        how = {"stdin": subprocess.DEVNULL, "capture_output": True, "text": True}
        ran = subprocess.run([lay_out_kit(room), "try", "--", "--version"], cwd=folder, **how)
        if not (room / "words").exists():
            sys.exit(f"the program was not built:\n{ran.stderr}")
        words = (room / "words").read_text().split("\n")[:-1]
        words = [it.replace("-O0", "-O1") for it in words if not it.startswith(("-fsanitize", "--sysroot"))]
        compiler = [whole / "toolchain/bin/clang", f"--sysroot={whole / 'toolchain'}"]
        if bare:
            instead = without_tests(room, compiler)
            words = [instead.get(it, it) for it in words]
        subprocess.run([*compiler, *words], cwd=room, check=True)
        link = [whole / "bin/rattle-link", "--target", TARGET, "--toolchain", whole / "toolchain", "-o", room / "mrjob"]
        libraries = [whole / "c/libos_c.a", whole / "c/liblibc_c.a"]
        subprocess.run([*link, room / "module.o", *libraries], check=True, stderr=subprocess.DEVNULL)
        program.parent.mkdir(exist_ok=True)
        program.unlink(missing_ok=True)
        shutil.copy2(room / "mrjob", program)


def main(words):
    need_kit()
    bare = words[:1] == ["--bare"]
    place = words[bare:]
    if len(place) > 1 or place and place[0].startswith("-"):
        sys.exit(__doc__)
    build(Path(place[0]) if place else ROOT / "bin/mrjob", bare)
    print(f"mrjob: built without its proofs, {place[0] if place else 'bin/mrjob'}")


if __name__ == "__main__":
    main(sys.argv[1:])
