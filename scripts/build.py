#!/usr/bin/env python3
"""Proves the crates that the program stands on, lowest first and side by side, and leaves the program as bin/mrjob.

A line for each crate says how many functions are proved, in how many seconds from when its libraries were there, and
how many crates are left. What an earlier run proved is not proved again. The whole text is in bin/build.log.
"""
import re
import shutil
import subprocess
import sys
import time

sys.dont_write_bytecode = True
from crates import ROOT, need_kit, places, read_crates

# The memory on which a check is planned, in KiB.
CHECK_MEMORY = 3_000_000
LOG = ROOT / "bin/build.log"


class Progress:
    """Prints a line for each crate as it ends."""

    def __init__(self, crates, program):
        self.crates, self.left = crates, len(program.below(crates)) + 1
        self.began = time.monotonic()
        self.ends = {}
        self.name = None

    def head(self, name):
        """A crate has ended. What rt says of it comes next, and that is nothing where it was proved before."""
        self.tell("as before")
        if name in self.crates:
            ready = max([self.ends[it.name] for it in self.crates[name].below(self.crates)], default=self.began)
            self.name, self.ends[name] = name, time.monotonic()
            self.seconds = self.ends[name] - ready

    def tell(self, verdict):
        if self.name:
            self.left -= 1
            print(f"{self.name}: {verdict}, {self.left} left", flush=True)
        self.name = None


def prove(program, crates, log):
    """Proves the program and all below it, and returns whether that holds."""
    progress = Progress(crates, program)
    # (in a crate's folder `rt all` takes that crate and those below it)
    words = ["rt", "all", "check", "--jobs", str(places(CHECK_MEMORY))]
    told = {"stdout": subprocess.PIPE, "stderr": subprocess.STDOUT, "text": True}
    with subprocess.Popen(words, cwd=program.folder, **told) as ran:
        for line in ran.stdout:
            log.write(line)
            head = re.match(r"== (\w+)$", line)
            if head:
                progress.head(head[1])
            elif line.startswith("logic=proved"):
                functions = re.search(r" functions=(\d+)", line)[1]
                progress.tell(f"proved, {functions} functions, {progress.seconds:.0f} s")
            elif line.startswith(("logic=", "rattle: no verdict")):
                progress.tell("NOT PROVED")
    return ran.returncode == 0


def build(program, log):
    """Builds the proved program, and returns whether it writes what the crate's file stdout has."""
    # (rt run builds the program, and runs it on the text that stands beside it)
    with open(program.folder / "stdin") as text:
        words = ["rt", "run", "--", "check"]
        said = subprocess.run(words, cwd=program.folder, stdin=text, stdout=subprocess.PIPE, stderr=log)
    return said.returncode == 0 and said.stdout == (program.folder / "stdout").read_bytes()


def stop_at_faults(log):
    """Shows what a log says of what is not proved, and ends the script."""
    lines = log.read_text().splitlines()
    found = [it for it in lines if re.search(r"error|NOT PROVED|not proved", it)] or lines[-20:]
    print("\n".join(found[:20]))
    sys.exit(f"not proved; {log} has the whole text")


def main():
    need_kit()
    crates = read_crates()
    program = crates["mrjob"]
    LOG.parent.mkdir(exist_ok=True)
    with open(LOG, "w") as log:
        if not prove(program, crates, log):
            log.flush()
            stop_at_faults(LOG)
        if not build(program, log):
            sys.exit(f"the program was not built, or does not write what crates/mrjob/stdout has; see {LOG}")
    shutil.copy2(program.folder / "out/mrjob", LOG.parent / "mrjob")
    print("mrjob: built, bin/mrjob")


if __name__ == "__main__":
    main()
