#!/usr/bin/env python3
"""Shows the main job on two splits that want the same worker: the best plan with its prices, a check of prices, and
what the check says of each split on its nearest free worker in turn. Then a job whose worker dies, from its script to
its index, a program that plans by the library's calls, and a job that runs on threads.

Where bin/mrjob is there, and no source is younger, that is run, else the program built without its proofs, which is
left as bin/mrjob where there was none.
"""
import subprocess
import sys
import tempfile
from concurrent.futures import ThreadPoolExecutor
from pathlib import Path

sys.dont_write_bytecode = True
import quick
from crates import ROOT, need_kit, read_crates

# What is run: the example, the words of the command, the status, and what is to be said of it.
RUNS = [
    ("plan_swap", ["plan", "--prices"], 0, "t starts on its data, and s beside its own: 2 for each of its 10 bytes"),
    ("swap", ["check"], 0, "the same plan with other prices: they show that no plan is better"),
    ("nearest_first", ["check"], 1, "each split on its nearest free worker in turn costs 40, and no prices certify it"),
    ("play_death", ["play"], 0, "a dies after its map was done: b maps the split again, and the index is whole"),
    ("run_words", ["run"], 0, "a thread for each worker: the documents are mapped and merged, and the index written"),
]


def text_of(name):
    return ROOT / f"examples/{name}.txt"


def built(program):
    """What the built program answers to each run, and its status."""
    answers = []
    for name, words, _, _ in RUNS:
        with open(text_of(name)) as text:
            ran = subprocess.run([program, *words], stdin=text, capture_output=True, text=True)
        answers.append((ran.stdout, ran.returncode))
    return answers


def library_call(crate, crates):
    """What the program that calls the library writes."""
    program = crate.folder / "out" / crate.name
    words = [program] if crate.is_made(program, crates) else ["rt", "try"]
    return subprocess.run(words, cwd=crate.folder, stdin=subprocess.DEVNULL, capture_output=True, text=True).stdout


def show(run, answer):
    (name, words, wanted, says), (said, status) = run, answer
    print(f"$ mrjob {' '.join(words)} < examples/{name}.txt\n{said}({says})\n", flush=True)
    if status != wanted:
        sys.exit(f"its status is {status}, and not {wanted}")


def a_program(crates, room):
    """The program that is run."""
    program = ROOT / "bin/mrjob"
    if not crates["mrjob"].is_made(program, crates):
        program = Path(room) / "mrjob" if program.exists() else program
        print("This is the program built without its proofs, in about two minutes.")
        print("`make` proves every crate that it stands on, and leaves the proved program as bin/mrjob.\n", flush=True)
        quick.build(program)
    elif quick.is_unproved(program):
        print("This is bin/mrjob, built without its proofs. `make` leaves the proved program there.\n", flush=True)
    return program


def main():
    crates = read_crates()
    library_user = crates["plan_a_wave"]
    need_kit()
    with tempfile.TemporaryDirectory() as room, ThreadPoolExecutor() as pool:
        called = pool.submit(library_call, library_user, crates)
        answers = built(a_program(crates, room))
        for run, answer in zip(RUNS[:-1], answers):
            show(run, answer)
        print(f"crates/plan_a_wave, the same wave by calls of the library:\n{called.result()}", flush=True)
        show(RUNS[-1], answers[-1])
    if called.result() != (library_user.folder / "stdout").read_text():
        sys.exit("that is not what its file stdout has")


if __name__ == "__main__":
    main()
