#!/usr/bin/env python3
"""Tries contrib/problem_of_moosefs.py: on samples, and on a MooseFS of its own where Debian's packages are installed.

    moosefs.py PROGRAM..           the first program plans

In a network, a mount table and a process table of its own (unshare) it starts a master and four chunk servers with
folders of their own, mounts the file system, writes files with goal 2, plans their maps and shows where they lie; then
a server ends, and it plans anew. The holders in the problem are those in whose folders the chunks are. All that was
started ends with this process, whatever happens. The last line is 'N passed, M failed'.
"""
import ctypes
import os
import re
import shutil
import signal
import subprocess
import sys
import tempfile
import time
from pathlib import Path

sys.dont_write_bytecode = True
from crates import ROOT

sys.path.append(str(ROOT / "contrib"))
from certify import answer
from problem_of_moosefs import read_chunks

SCRIPT, SAMPLES = ROOT / "contrib/problem_of_moosefs.py", ROOT / "contrib/samples"
PACKAGES = {"mfsmaster": "moosefs-master", "mfschunkserver": "moosefs-chunkserver", "mfscli": "moosefs-cli",
            "mfsmount": "moosefs-client", "mfsfileinfo": "moosefs-client", "mfssetgoal": "moosefs-client",
            "ip": "iproute2", "unshare": "util-linux", "umount": "mount"}
MOST_SECONDS = 180  # which only a hang takes
MASTER, PORT = "10.77.0.1", 9421
SERVERS = {1: "10.77.0.11", 2: "10.77.0.12", 3: "10.77.0.13", 4: "10.77.0.14"}
TOPOLOGY = "10.77.0.11-10.77.0.12 north|r1\n10.77.0.13/32 north|r2 # alone\n10.77.0.14 south|r3\n"
MIB = 1 << 20
OWN = {"WORKING_USER": "root", "WORKING_GROUP": "root", "NICE_LEVEL": 0, "DISABLE_OOM_KILLER": 0}


class Count:
    passed = failed = 0

    def holds(self, says, is_so, shown=""):
        self.passed, self.failed = self.passed + bool(is_so), self.failed + (not is_so)
        print(f"{says}: {'ok' if is_so else 'FAILED'}", "" if is_so else shown, flush=True)


def problem(*words, info=None):
    """The output, what is told, and the status."""
    ran = subprocess.run([sys.executable, str(SCRIPT), *map(str, words)], input=info, capture_output=True)
    return ran.stdout.decode(), ran.stderr.decode().splitlines(), ran.returncode


WANTED = """problem 3
centre north
centre south
rack /north/r1 north
rack /north/r2 north
rack /south/r3 south
worker 10.77.0.11 /north/r1 1
worker 10.77.0.13 /north/r2 1
worker 10.77.0.14 /south/r3 1
split chunk_0000000000000001 67108864 10.77.0.11 10.77.0.13
split chunk_0000000000000004 1000 10.77.0.14
split chunk_0000000000000002 67108864
split chunk_0000000000000005 7 10.77.0.11
end
"""
TOLD = [
    "1 chunks of files that are not to be found have 64 MiB",
    "1 copies of status WRONG VERSION are left out",
    "1 chunks have no data, and are left out",
    "1 files have no chunks",
    "1 chunks without a valid copy have no holder",
    "1 chunk servers are not connected, and left out",
]


def samples(count, room):
    """The problem of a sample, found by hand, and what is refused in a line."""
    info, servers, topology, slots = SAMPLES / "moosefs.txt", SAMPLES / "moosefs_servers.txt", room / "t", room / "s"
    topology.write_text(TOPOLOGY)
    (room / "logs").mkdir()
    with open(room / "logs/2026-11-26", "wb") as file:
        file.truncate(64 * MIB + 1000)
    (room / "logs/today").write_bytes(b"1234567")
    words = ["--servers", servers, "--topology", topology, "--below", room]
    said = problem(*words, info)
    count.holds("the sample's problem", said == (WANTED, TOLD, 0), said)
    said = problem(*words, "--no-centres", "--take", "1", "--slots", "3", info=info.read_bytes())
    racks = "rack /north/r1 site\nrack /north/r2 site\nrack /south/r3 site\n"
    count.holds("without centres", said[0].startswith("problem 3\ncentre site\n" + racks), said)
    count.holds("slots of all", "worker 10.77.0.11 /north/r1 3\n" in said[0], said)
    slots.write_text("# of one\n10.77.0.13 2\n")
    said = problem(*words, "--slots", slots, info)
    count.holds("slots of a file", re.findall("^worker.* (.*)$", said[0], re.M) == ["0", "2", "0"], said)
    named = room / "a\nb:"
    named.write_bytes(b"123")
    listed = [f"{named}:\n", "\tchunk 0: 000000000000000A_00000001 / (id:10 ver:1)\n"]
    count.holds("a name of two lines", read_chunks(listed).blocks[0][1:4] == (str(named), 0, 3), read_chunks(listed))
    (room / "bad").write_bytes(b"10.77.0.11 \xff\n")
    (room / "wrong").write_text("10.77.0.999 a|b\n")
    for text, more, says in (
        (b"", words, "no chunk is listed"),
        (b"f:\n\tno chunks - empty file\n", words, "no chunk is listed"),
        (None, ["--servers", room / "bad"], "is no UTF-8"),
        (None, ["--servers", info], "is no line of `mfscli"),
        (None, ["--servers", room / "none"], "No such file"),
        (None, [*words, "--topology", room / "wrong"], "`10.77.0.999 a|b` is no line of mfstopology.cfg"),
        (None, [*words, "--slots", "\u00b2"], "No such file"),
        (None, [*words, "--slots", room / "bad"], "is no UTF-8"),
        (None, [*words, "--skip", "-1"], "--skip -1: there may be 0 or more"),
    ):
        said, told, status = problem(*more, info=info.read_bytes() if text is None else text)
        count.holds(says, (said, status, len(told)) == ("", 1, 1) and says in told[0], (said, told))
    said, told, status = problem(*words, info=info.read_bytes() + b"\xff\xfe:\n\tchunk 0\n\tchunk \xff\n")
    count.holds("bytes that are no text", status == 0 and "2 lines that are in no form" in "".join(told), (said, told))


def config(path, **values):
    path.write_text("".join(f"{name} = {value}\n" for name, value in {**OWN, **values}.items()))
    return path


class FileSystem:
    """A MooseFS below a folder: a master, chunk servers and a mount."""

    def __init__(self, room):
        self.room, self.mount, self.started = room, room / "mount", []
        for name in ("master", "mount"):
            (room / name).mkdir()
        shutil.copyfile("/var/lib/mfs/metadata.mfs.empty", room / "master/metadata.mfs")
        (room / "exports").write_text("* / rw,alldirs,admin,maproot=0:0\n")
        (room / "topology").write_text(TOPOLOGY)
        listens = {f"{name}_LISTEN_HOST": MASTER for name in ("MATOML", "MATOCS", "MATOCL")}
        master = config(room / "master.cfg", DATA_PATH=room / "master", EXPORTS_FILENAME=room / "exports",
                        TOPOLOGY_FILENAME=room / "topology", MATOCL_LISTEN_PORT=PORT,
                        REPLICATIONS_DELAY_INIT=3600, **listens)  # (so that chunks stay where they are)
        subprocess.run(["ip", "link", "set", "lo", "up"], check=True)
        # (servers on 127.0.0.1 are refused by a master)
        subprocess.run(["ip", "address", "add", f"{MASTER}/24", "dev", "lo"], check=True)
        self.start("mfsmaster", master)
        self.servers = {number: self.serve(number, host) for number, host in SERVERS.items()}

    def start(self, program, path):
        with open(path.with_suffix(".log"), "wb") as log:
            words = [program, "-f", "-c", path, "start"]
            return subprocess.Popen(words, stdin=subprocess.DEVNULL, stdout=log, stderr=log)

    def serve(self, number, host):
        data, disk = self.room / f"server{number}", self.room / f"disk{number}"
        data.mkdir()
        disk.mkdir()
        disks = self.room / f"disks{number}"
        disks.write_text(f"{disk}\n")
        path = config(self.room / f"server{number}.cfg", DATA_PATH=data, HDD_CONF_FILENAME=disks, BIND_HOST=host,
                      HDD_LEAVE_SPACE_DEFAULT="64MiB", MASTER_HOST=MASTER, MASTER_RECONNECTION_DELAY=1,
                      CSSERV_LISTEN_HOST=host)
        return self.start("mfschunkserver", path)

    def ask(self, *words):
        return subprocess.run([*map(str, words)], capture_output=True, cwd=self.mount)

    def list_servers(self):
        """Writes what mfscli says of the servers, and returns how many are connected and have told of their disks."""
        said = self.ask("mfscli", "-H", MASTER, "-P", PORT, "-n", "-p", "-s", "|", "-SCS").stdout
        (self.room / "servers").write_bytes(said)
        rows = [line.split(b"|") for line in said.splitlines() if line.startswith(b"chunk servers:")]
        return sum(row[10] != b"0" for row in rows)

    def until(self, servers):
        """Waits until so many servers are connected."""
        for _ in range(240):
            if self.list_servers() == servers:
                return True
            time.sleep(0.25)
        return False

    def write(self, name, *pieces):
        """Writes a file of bytes at offsets."""
        path = self.mount / name
        path.parent.mkdir(parents=True, exist_ok=True)
        with open(path, "wb") as file:
            for offset, data in pieces:
                file.seek(offset)
                file.write(data)
        return name

    def holders(self):
        """On which live servers each chunk lies, by the files in their folders."""
        found = {}
        for number, server in self.servers.items():
            for path in (self.room / f"disk{number}").rglob("chunk_*.mfs") if server.poll() is None else ():
                found.setdefault(path.name[6:22], set()).add(SERVERS[number])
        return found


def files_of(system):
    """Files of one to three chunks, one of them without data, and the bytes of each chunk that has some."""
    names = [system.write(f"log {it}", (0, b"x" * (1000 * it))) for it in range(1, 6)]
    names.append(system.write("deep/long", (0, b"a"), (64 * MIB, b"b" * 2000)))
    names.append(system.write("holes", (128 * MIB, b"c" * 10)))
    names.append(system.write("empty"))
    return names, sorted([1000 * it for it in range(1, 6)] + [64 * MIB, 2000, 10])


def planned(count, system, program, names, says):
    """Plans the maps of the files as they lie now, and shows where; returns the problem."""
    info = system.ask("mfsfileinfo", *names).stdout
    words = ["--servers", system.room / "servers", "--topology", system.room / "topology", "--slots", "3",
             "--below", system.mount]
    text, told, status = problem(*words, info=info)
    count.holds(f"{says}: a problem", status == 0, (told, info))
    splits = {it[1]: it for it in map(str.split, text.splitlines()) if it[0] == "split"}
    lie = system.holders()
    count.holds(f"{says}: holders are those in whose folders the chunks are",
                all(lie.get(name[6:], set()) == {*words[3:]} for name, words in splits.items()), (splits, lie))
    if program:
        plan = subprocess.run([program, "plan", "--prices"], input=text, capture_output=True, text=True).stdout
        given = text.replace("\nend\n", "\nplan\n") + "\n".join([*plan.splitlines()[1:], "end", ""])
        count.holds(f"{says}: certified", answer(given.encode()) == (f"certified {plan.splitlines()[0][5:]}", 0), plan)
        on = {it[1]: it[2] for it in map(str.split, plan.splitlines()) if it[0] == "start"}
        count.holds(f"{says}: each chunk is mapped", sorted(on) == sorted(splits), plan)
        for name, (_, _, size, *held) in splits.items():
            print(f"    {name} of {size:>8} bytes lies on {' '.join(held)}: map on {on.get(name)}")
    return text, splits, told


def inside(room, program):
    """In the name spaces: a file system, with all its servers and then without one."""
    count, system = Count(), FileSystem(room)
    if not system.until(4):
        print("MooseFS was skipped: its servers did not come up\n", *(
            path.read_text(errors="replace")[-600:] for path in sorted(room.glob("*.log"))))
        return finish(count)
    mounted = system.ask("mfsmount", "-H", MASTER, "-P", PORT, system.mount)
    if not os.path.ismount(system.mount):
        print("MooseFS was skipped: it could not be mounted:", mounted.stderr.decode(errors="replace").strip()[-300:])
        return finish(count)
    try:
        system.ask("mfssetgoal", "2", ".")
        names, sizes = files_of(system)
        text, splits, told = planned(count, system, program, names, "goal 2 on four servers")
        count.holds("each chunk has its bytes", sorted(int(it[2]) for it in splits.values()) == sizes, splits)
        count.holds("each chunk is held twice", {len(it) for it in splits.values()} == {5}, splits)
        racks = {it[1:] for it in re.findall("(?m)^(worker) (\\S+) (\\S+) 3$", text)}
        wanted = {*zip(SERVERS.values(), ("/north/r1", "/north/r1", "/north/r2", "/south/r3"))}
        count.holds("the servers are in their racks", racks == wanted, racks)
        count.holds("holes and the empty file are told", told == ["2 chunks have no data, and are left out",
                                                                  "1 files have no chunks"], told)
        system.servers[1].terminate()
        system.servers[1].wait()
        count.holds("a server is gone", system.until(3))
        text, splits, told = planned(count, system, program, names, "without a server")
        is_gone = SERVERS[1] not in text and told[-1] == "1 chunk servers are not connected, and left out"
        count.holds("the server that is gone is no worker", is_gone, (text, told))
    finally:
        subprocess.run(["umount", "-l", system.mount])
    return finish(count)


def finish(count):
    print(f"{count.passed} passed, {count.failed} failed", flush=True)
    return int(count.failed != 0)


def missing():
    """Why there can be no file system here, or nothing."""
    lacks = sorted({package for name, package in PACKAGES.items() if not shutil.which(name)})
    if lacks:
        return f"{', '.join(lacks)} {'is' if len(lacks) == 1 else 'are'} not installed"
    if not os.access("/dev/fuse", os.R_OK | os.W_OK):
        return "/dev/fuse cannot be opened"
    if subprocess.run([*apart(), "true"], capture_output=True).returncode != 0:
        return "unshare may not make name spaces"
    return ""


def apart():
    """The command that runs another with name spaces of its own, all of whose processes end with it."""
    as_root = [] if os.getuid() == 0 else ["--user", "--map-root-user"]
    return ["unshare", *as_root, "--net", "--mount", "--pid", "--fork", "--kill-child", "--mount-proc"]


def with_parent():
    """Ends the process where the one that started it ends (PR_SET_PDEATHSIG)."""
    ctypes.CDLL(None).prctl(1, signal.SIGKILL)


def outside(count, room, program):
    """Runs the tests with a file system, and adds what they counted."""
    why = missing()
    if why:
        print(f"a MooseFS was skipped: {why}")
        return
    words = [*apart(), sys.executable, __file__, "--inside", room, *program]
    tests = subprocess.Popen(words, stdin=subprocess.DEVNULL, stdout=subprocess.PIPE, text=True, preexec_fn=with_parent)
    try:
        said = tests.communicate(timeout=MOST_SECONDS)[0]
    except subprocess.TimeoutExpired:
        tests.kill()
        said = tests.communicate()[0]
    *lines, last = said.splitlines() or [""]
    found = re.fullmatch(r"(\d+) passed, (\d+) failed", last)
    print("\n".join(lines))
    count.passed += int(found[1]) if found else 0
    count.failed += int(found[2]) if found else 0
    if not found:
        count.holds("the tests of a MooseFS end", False, said[-2000:])


def main():
    if sys.argv[1:2] == ["--inside"]:
        return inside(Path(sys.argv[2]), *sys.argv[3:4] or [None])
    count = Count()
    with tempfile.TemporaryDirectory() as room, tempfile.TemporaryDirectory() as files:
        samples(count, Path(files))
        outside(count, room, [os.path.abspath(it) for it in sys.argv[1:2]])
    return finish(count)


if __name__ == "__main__":
    sys.exit(main())
