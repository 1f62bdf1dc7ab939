#!/usr/bin/env python3
"""Makes what is handed out twice, of what the gate built, compares the bytes, and tries each part alone.

The tarball is unpacked into an empty folder. The Debian package is installed and removed by apt-get, where this runs as
root on a Debian that has no package mrjob, else unpacked. The wheel is installed into a new environment. README's
commands, and the examples over the library, run in each with nothing of the kit on PATH. What cannot be tried here is
told and left out. The last line is 'N passed, M failed'.
"""
import os
import re
import shutil
import subprocess
import sys
import tarfile
import tempfile
import textwrap
from pathlib import Path

sys.dont_write_bytecode = True
import readme
import release
from crates import ROOT, version

README = ROOT / "README.md"
OUTPUT = (ROOT / "examples/library.out").read_text()
SYSTEM = ["/usr/bin", "/bin", "/usr/sbin", "/sbin"]


class Count:
    passed = failed = 0

    def holds(self, name, is_so, told=""):
        self.passed, self.failed = self.passed + bool(is_so), self.failed + (not is_so)
        print(f"{name}: {'ok' if is_so else f'FAILED {told}'}", flush=True)
        return is_so


def call(*words, path=(), folder=None, **more):
    """The status and the output of a command with just this on PATH, beside the system's own folders."""
    env = {"PATH": os.pathsep.join(map(str, [*path, *SYSTEM])), "HOME": "/nonexistent", "LC_ALL": "C.UTF-8", **more}
    how = {"stdout": subprocess.PIPE, "stderr": subprocess.STDOUT, "text": True, "errors": "replace"}
    ran = subprocess.run([str(it) for it in words], env=env, cwd=folder, stdin=subprocess.DEVNULL, **how)
    return ran.returncode, ran.stdout


def made_twice(count, room):
    """Makes all twice, the second time elsewhere and with another mask of modes, and returns the first."""
    folders, made, of_program = [room / "first", room / "another/second"], [], release.program_object(room)
    if of_program is None:
        print("rt has left no object of bin/mrjob, so the tarball has bin/mrjob itself")
    for folder, mask in zip(folders, (0o022, 0o077)):
        before = os.umask(mask)
        with tempfile.TemporaryDirectory(dir=room) as inner:
            made.append(release.make(folder, Path(inner), of_program))
        os.umask(before)
    for one, other in zip(*made):
        count.holds(f"{one.name} twice", (one.name, one.read_bytes()) == (other.name, other.read_bytes()))
    sums = call("sha256sum", "-c", "SHA256SUMS", folder=folders[0])
    count.holds("SHA256SUMS", sums[0] == 0 and len(sums[1].splitlines()) == len(made[0]), sums)
    return made[0]


def commands(count, name, doc, path):
    """README's commands, where the docs are installed."""
    if shutil.which("rt", path=os.pathsep.join(map(str, [*path, *SYSTEM]))):
        print(f"{name}: rt lies among the system's programs, so it stays on PATH")
    for command, wanted in readme.commands((doc / "README.md").read_text()):
        written = readme.written(command, doc, [*path, *SYSTEM])
        count.holds(f"{name}: {command[:70]}", written == wanted, written)


def program(count, name, path):
    """The program's version and its manual page, where it tells and man shows them."""
    status, told = call("mrjob", "--version", path=path)
    if status == 64:
        print(f"{name}: the program tells no version")
    else:
        count.holds(f"{name}: --version", told == f"mrjob {version()}\n", told)


def linked(count, name, room, doc, flags, path=(), **more):
    """The example in C over what was unpacked or installed."""
    if shutil.which("cc") is None:
        return print(f"{name}: cc is not there, so nothing was linked")
    words = ["cc", doc / "examples/c/plan.c", *flags, "-o", room / "plan"]
    built = call(*words, path=path, **more)
    ran = call(room / "plan") if built[0] == 0 else built
    return count.holds(f"{name}: plan.c", ran == (0, OUTPUT), ran)


def try_tarball(count, file, room, tools):
    with tarfile.open(file) as archive:
        members = archive.getmembers()
        archive.extractall(room)
    prefix = room / release.NAME
    is_fixed = all((it.uid, it.gid, it.mtime) == (0, 0, members[0].mtime) for it in members)
    count.holds("tarball: owners and times", is_fixed)
    count.holds("tarball: one folder", [it.name for it in room.iterdir()] == [release.NAME])
    if (prefix / "share/doc/mrjob/NOTICE").exists():
        loader = b"/lib64/ld-linux-x86-64.so.2\0"
        count.holds("tarball: the program is static", loader not in (prefix / "bin/mrjob").read_bytes()[:4096])
    path = [prefix / "bin", tools]
    program(count, "tarball", path)
    told = call(ROOT / "scripts/examples.sh", prefix / "bin/mrjob", path=[tools])
    count.holds("tarball: the program on examples/", told[0] == 0, told[1][-300:])
    commands(count, "tarball", prefix / "share/doc/mrjob", path)
    lib = prefix / "lib"
    flags = [f"-I{prefix}/include", f"-L{lib}", "-lmrjob", f"-Wl,-rpath,{lib}"]
    if shutil.which("pkg-config", path=os.pathsep.join(SYSTEM)):
        asked = lambda *words: call("pkg-config", *words, PKG_CONFIG_PATH=str(lib / "pkgconfig"))[1].split()
        flags = [*asked("--cflags", "--libs", "mrjob"), f"-Wl,-rpath,{asked('--variable=libdir', 'mrjob')[0]}"]
        count.holds("tarball: --modversion", asked("--modversion", "mrjob") == [version()])
    linked(count, "tarball", room, prefix / "share/doc/mrjob", flags)
    linked(count, "tarball, static", room, prefix / "share/doc/mrjob", [f"-I{prefix}/include", lib / "libmrjob.a"])
    for page in sorted((prefix / "share/man").rglob("mrjob*")):
        if shutil.which("man"):
            status, told = call("man", "--warnings", "-l", page, MANWIDTH="80", MANPAGER="cat")
            widest = max(map(len, told.splitlines()), default=0)
            is_well = status == 0 and 0 < widest <= 80 and "warning" not in told
            count.holds(f"tarball: man {page.name}", is_well, told[:300])


def may_install():
    """Why apt-get cannot install here, or None."""
    if os.geteuid() or not shutil.which("apt-get"):
        return "this is no Debian, or does not run as root"
    if call("dpkg-query", "-W", "mrjob")[0] == 0 or any(Path(it, "mrjob").exists() for it in SYSTEM):
        return "a program mrjob is there already"
    if call("apt-get", "check")[0]:
        return "apt-get is not well here"


def try_debian(count, file, room, tools):
    why_not = may_install()
    if why_not:
        print(f"the Debian package was unpacked and not installed: {why_not}")
        count.holds("deb: unpacked", call("dpkg-deb", "-x", file, room)[0] == 0)
        doc, path = room / "usr/share/doc/mrjob", [room / "usr/bin", tools]
        program(count, "deb", path)
        return commands(count, "deb", doc, path)
    shutil.copy(file, room / "mrjob.deb")
    apt = ["apt-get", "-y", "-qq", "-o", "Dpkg::Use-Pty=0", "-o", "DPkg::Lock::Timeout=600"]
    front = {"DEBIAN_FRONTEND": "noninteractive"}
    done = call(*apt, "install", "./mrjob.deb", folder=room, **front)
    if count.holds("deb: apt-get install", done[0] == 0, done):
        try:
            doc = Path("/usr/share/doc/mrjob")
            if not (doc / "README.md").exists():
                print("deb: dpkg is told to leave out docs here, so they were unpacked beside it")
                call("dpkg-deb", "-x", file, room)
                doc = room / "usr/share/doc/mrjob"
            program(count, "deb", [tools])
            commands(count, "deb", doc, [tools])
            linked(count, "deb", room, doc, ["-lmrjob"])
        finally:
            done = call(*apt, "purge", "mrjob", **front)
            places = ("/usr/bin/mrjob", "/usr/lib/libmrjob.so.1", "/usr/share/doc/mrjob")
            left = [it for it in places if os.path.lexists(it)]
            count.holds("deb: apt-get purge", done[0] == 0 and not left, (done, left))


def try_wheel(count, file, room):
    made = subprocess.run([sys.executable, "-m", "venv", room / "venv"], capture_output=True, text=True)
    if made.returncode:
        return print(f"the wheel was not tried: {sys.executable} makes no environment ({made.stderr.strip()[-100:]})")
    python = room / "venv/bin/python"
    done = call(python, "-m", "pip", "install", "--quiet", "--no-index", "--disable-pip-version-check", file)
    if count.holds("wheel: pip install", done[0] == 0, done):
        shutil.copy(ROOT / "examples/python/plan.py", room / "plan.py")
        told = call(python, room / "plan.py", folder=room)
        count.holds("wheel: plan.py", told == (0, OUTPUT), told)
        shown = re.findall(r"^    from mrjob_plan import .*\n(?:    .*\n|\n(?=    ))*", README.read_text(), re.M)
        for lines in (it for it in shown if "mrjob_plan.master" not in it):  # (that wants the program)
            told = call(python, "-c", textwrap.dedent(lines), folder=room)
            count.holds("wheel: what README shows of Python", told[0] == 0, told)


def main():
    count = Count()
    with tempfile.TemporaryDirectory(prefix="mrjob-release-") as room:
        room = Path(room)
        room.chmod(0o755)
        # (python3 for the scripts, without what else lies beside it)
        for name in ("tools", "tarball", "debian", "wheel"):
            (room / name).mkdir()
        (room / "tools/python3").symlink_to(os.path.realpath(sys.executable))
        for file in made_twice(count, room):
            if file.suffix == ".deb":
                try_debian(count, file, room / "debian", room / "tools")
            elif file.suffix == ".whl":
                try_wheel(count, file, room / "wheel")
            elif file.name.startswith(release.NAME):
                try_tarball(count, file, room / "tarball", room / "tools")
    glibc = lambda *files: release.newest_glibc(*files) if files else (0, 0)
    count.holds("the library wants glibc 2.17 at most", glibc(*(ROOT / "lib").glob("libmrjob.so.*")) <= (2, 17))
    count.holds("the program wants glibc 2.34 at most", glibc(release.PROGRAM) <= (2, 34))
    print(f"{count.passed} passed, {count.failed} failed")
    return int(count.failed != 0)


if __name__ == "__main__":
    sys.exit(main())
