#!/usr/bin/env python3
"""A hand is of one ledger alone: a text that hands it to a shared master of another must be refused, by its types.

The text has the same call with a hand of the master's own, which nothing may be said of. It is read over the built
libraries, and nothing of it is proved. The last line is 'N passed, M failed'.
"""
import re
import subprocess
import sys
import tempfile
from pathlib import Path

sys.dont_write_bytecode = True
from crates import kit, read_crates

KIT = kit()
TEXT = """#![tactic(auto)]
use shared_master::{Hand, OfJob, SharedMaster};
use std::sync::Wait;
use std::sync::ledger::Ledger;
use worker_table::DeadList;

pub fn own<L: Ledger + OfJob, R: Wait>(rt: &R, shared: &SharedMaster<L>, hand: &mut Hand<L>, dead: &mut DeadList) {
    let _ = shared.sweep(rt, hand, &[0; 2], dead);
}

pub fn another<L: Ledger + OfJob, M: Ledger, R: Wait>(
    rt: &R,
    shared: &SharedMaster<L>,
    hand: &mut Hand<M>,
    dead: &mut DeadList,
) {
    let _ = shared.sweep(rt, hand, &[0; 2], dead);
}
"""


def errors(folder):
    """The errors that the compiler finds in the text, each with its line and its name."""
    (folder / "src").mkdir()
    (folder / "src/lib.rt").write_text(TEXT, encoding="utf-8")
    crates = read_crates()
    words = [f"{KIT}/bin/rattle", "check", "--crate-name", "another_ledger", "src/lib.rt", "--only="]
    words += ["--extern", f"std={KIT}/rlibs/std.rlib", "-L", f"dependency={KIT}/rlibs"]
    for library in [*crates["shared_master"].below(crates), crates["shared_master"]]:
        words += ["--extern", f"{library.name}={library.rlib}", "-L", f"dependency={library.rlib.parent}"]
    words += ["--antt-project", f"{KIT}/rattle/logic/antt-project.json", "--logic-built", f"{KIT}/logic_built"]
    ran = subprocess.run(words, cwd=folder, stdout=subprocess.PIPE, stderr=subprocess.STDOUT, text=True)
    print(ran.stdout, end="")
    return re.findall(r"^src/lib\.rt:(\d+):\d+: error\[([\w-]+)\]", ran.stdout, re.M)


def main():
    with tempfile.TemporaryDirectory() as room:
        found = errors(Path(room))
    line = TEXT.rstrip().count("\n")
    is_refused = found == [(str(line), "mismatched-types")]
    print(f"{int(is_refused)} passed, {int(not is_refused)} failed")
    return not is_refused


if __name__ == "__main__":
    sys.exit(main())
