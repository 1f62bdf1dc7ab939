#!/usr/bin/env python3
"""Makes of bin/mrjob and lib/ what is handed out, in dist/ or the folder that is named:

    mrjob-VERSION-x86_64-linux.tar.gz   a static program, the library, manual pages, completions, scripts and docs
    mrjob_VERSION_amd64.deb             the same for Debian, its program linked with the system's C library
    the wheel and the source archive of the Python package
    SHA256SUMS                          for `sha256sum -c`

Where nothing changed the bytes are the same: owners, modes and the order of files are fixed, and all times are what
SOURCE_DATE_EPOCH says, or the last commit's. `make release` proves what is in them first. What a tool lacks for is told
and left out: `cc` with a static C library, without which the tarball has the other program, and dpkg-deb.
"""
import gzip
import hashlib
import io
import os
import re
import shutil
import subprocess
import sys
import tarfile
import tempfile
from pathlib import Path

sys.dont_write_bytecode = True
import install
import quick
from crates import ROOT, kit, need_kit, rattle_words, read_crates, version
from roff import epoch

PROGRAM, LIBRARY = ROOT / "bin/mrjob", ROOT / "lib/libmrjob.a"
NAME = f"mrjob-{version()}-x86_64-linux"
CONTROL = """Package: mrjob
Version: {version}
Architecture: amd64
Maintainer: {holder} <mrjob@localhost>
Installed-Size: {size}
Depends: libc6 (>= {glibc})
Suggests: python3
Section: utils
Priority: optional
Description: map starts of MapReduce jobs, each plan proved best
 A planner of the map tasks of a MapReduce job, with prices by which anybody
 can check a plan, the checker, a player of scripts and a runner on threads,
 and a library for C and C++. Each function is proved to meet its contract.
"""
COPYRIGHT = """Format: https://www.debian.org/doc/packaging-manuals/copyright-format/1.0/
Upstream-Name: mrjob

Files: *
{copyright}
License: Expat

License: Expat
{text}
"""
NOTICE = """bin/mrjob has the GNU C library in it, which is free under the LGPL, version 2.1 or later, and can be had at
https://www.gnu.org/software/libc. `make release` of the sources of mrjob links the program with another one.
"""


def run(*words, **how):
    return subprocess.run([str(it) for it in words], check=True, **how)


# ---- programs ----


def link(objects, program):
    """Links a program as rt does."""
    libraries = [kit() / "c/libos_c.a", kit() / "c/liblibc_c.a"]
    words = [kit() / "bin/rattle-link", "--target", quick.TARGET, "--toolchain", kit() / "toolchain", "-o", program]
    run(*words, *objects, *libraries, stderr=subprocess.DEVNULL)


def program_object(room):
    """The object that bin/mrjob was linked from: what rt left of it or, where that is of another program, made anew.
    None where neither gives the bytes of bin/mrjob."""
    crates = read_crates()
    crate = crates["mrjob"]
    left, made, linked = crate.folder / "out/mrjob.o", room / "mrjob.o", room / "linked"
    for path in (left, made):
        if path == made:
            words = [*rattle_words("build", crate, crates), "--toolchain", kit() / "toolchain", "--backend", "llvm"]
            subprocess.run([str(it) for it in [*words, "-o", made]], cwd=crate.folder, stdout=subprocess.DEVNULL)
        if path.exists():
            link([path], linked)
            if linked.read_bytes() == PROGRAM.read_bytes():
                return path
    return None


def static_program(room, of_program):
    """The program of this object with the C library in it, or None where there is no object, or no such library."""
    if of_program is None:
        return None
    program = room / "static"
    words = ["cc", "-static", "-s", "-Wl,--gc-sections", "-Wl,--build-id=none", "-o", program]
    words += [of_program, kit() / "c/libos_c.a", kit() / "c/liblibc_c.a"]
    try:
        run(*words, capture_output=True)
    except (OSError, subprocess.CalledProcessError):
        print("there is no cc with a static C library, so the tarball's program wants the system's")
        return None
    return program


def newest_glibc(*files):
    """The version of glibc that these files want."""
    told = [it for path in files for it in re.findall(rb"\0GLIBC_(\d+)\.(\d+)", path.read_bytes())]
    return max((int(major), int(minor)) for major, minor in told)


# ---- archives ----


def write(path, text):
    path.write_text(text)
    path.chmod(0o644)


def lay_out(prefix, program):
    """What `make install` puts below a prefix, with fixed modes."""
    install.install(prefix, program)
    (prefix / install.LIST).unlink()
    for path in [prefix, *prefix.rglob("*")]:
        if path.is_dir() and not path.is_symlink():
            path.chmod(0o755)


def tarball(to, room, of_program):
    static = static_program(room, of_program)
    lay_out(room / NAME, static or PROGRAM)
    if static:
        write(room / NAME / install.DOC / "NOTICE", NOTICE)
    packed = io.BytesIO()
    with tarfile.open(fileobj=packed, mode="w", format=tarfile.GNU_FORMAT) as archive:
        for path in sorted([room / NAME, *(room / NAME).rglob("*")]):
            member = archive.gettarinfo(path, str(path.relative_to(room)))
            member.uid = member.gid = 0
            member.uname = member.gname = "root"
            member.mtime = epoch()
            archive.addfile(member, io.BytesIO(path.read_bytes()) if member.isreg() else None)
    path = to / f"{NAME}.tar.gz"
    path.write_bytes(gzip.compress(packed.getvalue(), mtime=epoch()))
    return path


def debian(to, room):
    """The Debian package, or None where there is no dpkg-deb."""
    if shutil.which("dpkg-deb") is None:
        return print("dpkg-deb is not there, so no Debian package was made")
    root = room / "debian"
    lay_out(root / "usr", PROGRAM)
    license = (ROOT / "LICENSE").read_text()
    holder = re.search(r"^Copyright.*$", license, re.M)[0]
    text = "\n".join(f" {it}" if it else " ." for it in license.strip().split("\n"))
    copyright = COPYRIGHT.format(copyright=holder.replace(" ", ": ", 1), text=text)
    write(root / "usr" / install.DOC / "copyright", copyright)
    files = sorted(it for it in (root / "usr").rglob("*") if it.is_file() and not it.is_symlink())
    glibc = "{}.{}".format(*newest_glibc(PROGRAM, *(ROOT / "lib").glob("libmrjob.so.*")))
    size = sum(-(-it.stat().st_size // 1024) for it in files)
    named = re.sub(r"^Copyright( \(c\))?( [\d-]+)? ", "", holder)
    control = {
        "control": CONTROL.format(version=version(), holder=named, size=size, glibc=glibc),
        "triggers": "activate-noawait ldconfig\n",
        "shlibs": "libmrjob 1 mrjob\n",
        "md5sums": "".join(f"{hashlib.md5(it.read_bytes()).hexdigest()}  {it.relative_to(root)}\n" for it in files),
    }
    (root / "DEBIAN").mkdir()
    for name, text in control.items():
        write(root / "DEBIAN" / name, text)
    for path in [root, *root.rglob("*")]:
        if path.is_dir() and not path.is_symlink():
            path.chmod(0o755)
        os.utime(path, (epoch(), epoch()), follow_symlinks=False)
    path = to / f"mrjob_{version()}_amd64.deb"
    env = {**os.environ, "SOURCE_DATE_EPOCH": str(epoch())}
    # (of several threads xz may write other bytes)
    run("dpkg-deb", "--root-owner-group", "-Zgzip", "--build", root, path, env=env, stdout=subprocess.DEVNULL)
    return path


def python(to):
    """The wheel and the source archive of the Python package."""
    env = {**os.environ, "SOURCE_DATE_EPOCH": str(epoch())}
    words = [sys.executable, ROOT / "python/backend.py", to]
    told = run(*words, env=env, stdout=subprocess.PIPE, text=True).stdout
    return [to / it for it in told.split()]


def make(to, room, of_program):
    """Makes all in the folder, of the program's object, and returns the files."""
    to.mkdir(parents=True, exist_ok=True)
    made = [tarball(to, room, of_program), debian(to, room), *python(to)]
    made = sorted(filter(None, made))
    for it in made:
        it.chmod(0o644)
    sums = [f"{hashlib.sha256(it.read_bytes()).hexdigest()}  {it.name}\n" for it in made]
    (to / "SHA256SUMS").write_text("".join(sums))
    return made


def main(words):
    need_kit()
    for path in (PROGRAM, LIBRARY):
        if not path.exists():
            sys.exit(f"{path.relative_to(ROOT)} is not there: `make release` makes it first")
    if quick.is_unproved(PROGRAM):
        sys.exit("bin/mrjob is not proved: `make` proves it")
    to = Path(words[0]) if words else ROOT / "dist"
    if not words:
        shutil.rmtree(to, ignore_errors=True)
    with tempfile.TemporaryDirectory() as room:
        of_program = program_object(Path(room))
        if of_program is None:
            sys.exit("bin/mrjob is not what was made of crates/mrjob: `make` proves and builds it anew")
        for it in make(to.resolve(), Path(room), of_program):
            print(f"{it.stat().st_size:>10,} {it.name}")


if __name__ == "__main__":
    main(sys.argv[1:])
