#!/usr/bin/env python3
"""Compares what programs say of numbers and of their version with what the documents say.

    explained.py PROGRAM..

The lines of `mrjob explain` have to be the rows of docs/MODEL.md's tables of faults, conditions, reasons and statuses,
word for word and in this order; each line has to be the answer to its own words, a
condition's name too, and other words wrong usage. `--version` has to tell the number in the file VERSION, and to
be no option of a command. With `--explain` each example keeps its output and its status, and standard error has
the lines on its fault, its condition or its reasons; the word that is marked is compared with rows made by hand; and
a terminal is told the same unasked. The last line is 'N passed, M failed'.
"""
import os
import pty
import re
import subprocess
import sys

sys.dont_write_bytecode = True
from crates import ROOT

# What a line is of, the document, the head of the table, and the columns of the name and of the sentence.
TABLES = [
    ("fault", "docs/MODEL.md", "| Number | Fault |", 0, 1),
    ("condition", "docs/MODEL.md", "| Printed | Name in the code | Condition |", 0, 2),
    ("ignored", "docs/MODEL.md", "| Reason | What it says |", 0, 1),
    ("status", "docs/MODEL.md", "| Status | When |", 0, 1),
]
UNSAID = [["fault", "15"], ["fault", "05"], ["fault"], ["C9"], ["c6"], ["status", "7"], ["ignored", "0"], ["", ""]]


def rows(document, head):
    """The cells of the rows below a head, which stands once."""
    _, below = (ROOT / document).read_text().split(f"{head}\n")
    table = re.match(r"\|[-|]+\|\n((?:\|.*\|\n)+)", below)[1]
    return [[cell.strip() for cell in row.strip("|").split(" | ")] for row in table.splitlines()]


def written():
    """The kind, the name and the sentence of each line that the documents have."""
    return [(kind, it[name], it[says]) for kind, document, head, name, says in TABLES for it in rows(document, head)]


def said_by(program, words):
    """What a program answers to words: its status, its output, and whether it says anything on standard error."""
    ran = subprocess.run([program, *words], stdin=subprocess.DEVNULL, capture_output=True, text=True, timeout=60)
    return ran.returncode, ran.stdout, bool(ran.stderr)


def cases():
    """Words with the answer that is wanted to them."""
    lines = [(kind, name, f"{kind} {name}: {says}\n") for kind, name, says in written()]
    yield ["explain"], (0, "".join(it for *_, it in lines), False)
    for kind, name, line in lines:
        yield ["explain", kind, name], (0, line, False)
        if kind == "condition":
            yield ["explain", name], (0, line, False)
    for words in UNSAID:
        yield ["explain", *words], (64, "", True)
    for words in [["explain", "fault", "5", "6"], ["explain", "--explain"], ["check", "--version"], ["plan", "-V"]]:
        yield words, (64, "", True)
    for word in ["--version", "-V"]:
        yield [word], (0, f"mrjob {(ROOT / 'VERSION').read_text()}", False)


# ---- what is told beside an answer ----

HEAD = ["problem 1", "rack r", "worker a r 1", "worker b r 1", "split s 10 a"]
SCRIPT = ["script 1", *HEAD[1:]]
SCRIPT_3 = ["script 3", "centre c", "rack r c", *HEAD[2:]]
HEAD_3 = ["problem 3", *SCRIPT_3[1:]]
WORKERS = [f"worker w{n} r 1" for n in range(9)]
PRICES = ["price s 1", "price a 1", "price b 1"]
# The command, the lines before the faulty one, that one, its fault, and the number of the word that is marked, from
# 0; none for the place after the last word.
MARKED = [
    ("plan", HEAD, "flock r", 1, 0),
    ("plan", HEAD, "worker c r", 1, None),
    ("plan", HEAD, "worker c r 1 1", 1, 4),
    ("plan", HEAD, "worker c r x", 1, 3),
    ("plan", HEAD, "rack q r", 1, 2),
    ("plan", ["problem 2", "centre c"], "rack q", 1, None),
    ("plan", ["problem 2", "centre c"], "rack q c c", 1, 3),
    ("play", [*SCRIPT, "begin"], "sweep 1", 1, None),
    ("play", [*SCRIPT, "begin"], "sweep 1 2 3", 1, 3),
    ("play", [*SCRIPT_3, "begin"], "ahead 1", 1, None),
    ("play", [*SCRIPT_3, "begin"], "ahead 1 256", 5, 2),
    ("play", [*SCRIPT, "begin"], "ahead 1 1", 7, 0),
    ("plan", HEAD, "rack 1r", 2, 1),
    ("plan", HEAD, "split t 10 a -", 2, 4),
    ("plan", HEAD, "worker c q 1", 3, 2),
    ("plan", HEAD, "split t 10 a q", 3, 4),
    ("plan", HEAD, "dead s", 3, 1),
    ("play", [*SCRIPT, "doc d s The cat"], "dead d", 7, 0),
    ("plan", HEAD, "split a 10 a", 4, 1),
    ("plan", [*HEAD, "busy s"], "busy s", 4, 1),
    ("play", [*SCRIPT, "parts 2"], "parts 3", 4, 0),
    ("plan", HEAD, "worker c r 17", 5, 3),
    ("plan", HEAD, "split t 67108865 a", 5, 2),
    ("plan", ["problem 2", "centre c"], "split t 67108865", 5, 2),
    ("plan", ["problem 3", "centre c"], "split t 8589934593", 5, 2),
    ("plan", ["problem 3", "centre c"], "rack /r *c", 2, 2),
    ("plan", ["problem 3", "centre c"], "rack q", 1, None),
    ("plan", [], "problem 4", 5, 1),
    ("plan", [*HEAD, *WORKERS], "split t 1 " + " ".join(f"w{n}" for n in range(9)), 6, 11),
    ("plan", ["problem 2", *(f"centre c{n}" for n in range(8))], "centre c8", 6, 0),
    ("plan", HEAD, "start s a", 7, 0),
    ("plan", [], "script 1", 7, 0),
    ("plan", HEAD, "split t 1 a b a", 8, 5),
    ("play", [*SCRIPT, "begin"], "join a s s", 8, 3),
    ("check", HEAD_3, "places a", 1, None),
    ("check", HEAD_3, "places a" + 256 * " 1", 1, 257),
    ("check", HEAD_3, "places s 1", 3, 1),
    ("check", [*HEAD_3, "places a 1"], "places a 2", 4, 1),
    ("check", HEAD_3, "places a 1 2 1", 5, 4),
    ("check", HEAD_3, "places a 2 1 68719476737", 5, 4),
    ("check", HEAD, "places a 1", 7, 0),
    ("plan", HEAD, "places a 1", 7, 0),
    ("plan", HEAD_3, "places a 1 2 1", 5, 4),
    ("check", [*HEAD, "plan", "start s a"], "start s b", 9, 1),
    ("check", [*HEAD, "plan", *PRICES], "price a 1", 9, 1),
    ("check", [*HEAD, "plan", "price s 1"], "end", 10, 0),
    ("plan", [*HEAD, "end"], "rack q", 14, 0),
    ("play", [*SCRIPT, "begin"], "join a" + 50 * " s" + " q", 3, 52),
]


def marked(line, start, count):
    """A line and its mark, as docs/MODEL.md says that they are shown."""
    first = 0 if start < 56 else start - 20
    shown = line[first : first + 76]
    marks = max(1, min(count, first + len(shown) - start))
    return f"  {shown}\n  {' ' * (start - first)}{'^' * marks}\n"


def sentences():
    return {f"{kind} {name}": f"{kind} {name}: {says}\n" for kind, name, says in written()}


def run(program, words, text):
    """The status, the output and the standard error of a run."""
    ran = subprocess.run([program, *words], input=text, capture_output=True, timeout=60)
    return ran.returncode, ran.stdout, ran.stderr.decode()


def is_marked(program, command, before, line, fault, number):
    text = "".join(f"{it}\n" for it in [*before, line, "end"]).encode()
    words = line.split(" ")
    start = len(line) if number is None else sum(len(it) + 1 for it in words[:number])
    note = sentences()[f"fault {fault}"] + marked(line, start, 0 if number is None else len(words[number]))
    wanted = 2, f"line {len(before) + 1}: fault {fault}\n".encode(), note
    said = run(program, [command, "--explain"], text)
    return said == wanted or print(f"{program} {command}, {line}: {said}, and not {wanted}")


# Whole texts whose last line alone is at fault, and what is shown below the sentence.
WHOLE = [
    (b"problem 1\nend", 2, 12, "  end\n     ^\n"),
    (b"problem 1\nrack\tr\nend\n", 2, 13, "  rack?r\n      ^\n"),
    (b"problem 1\n", 2, 7, "  \n  ^\n"),
    (b"", 1, 7, "  \n  ^\n"),
    (16777217 * b" ", 0, 11, ""),
]


def is_told_of_whole(program, text, line, fault, under):
    wanted = 2, f"line {line}: fault {fault}\n".encode(), sentences()[f"fault {fault}"] + under
    said = run(program, ["plan", "--explain"], text)
    return said == wanted or print(f"{program}, {text[:20]}: {said}, and not {wanted}")


def told_of(answer):
    """The subjects of an answer's lines that are explained, in their order on standard error."""
    fault = re.match(r"line \d+: (fault \d+)\n", answer)
    condition = re.match(r"refused (C\d)", answer)
    reasons = {int(it) for it in re.findall(r"^ignored (\d+)$", answer, re.M)}
    return [fault[1]] if fault else [f"condition {condition[1]}"] if condition else [
        f"ignored {it}" for it in sorted(reasons)
    ]


def is_explained(program, text):
    """An example keeps its answer and its status, and the lines on it are told."""
    args = text.with_suffix(".args")
    words = args.read_text().splitlines() if args.exists() else ["check"]
    answer, status = text.with_suffix(".out").read_bytes(), int(text.with_suffix(".status").read_text())
    said = run(program, [*words, "--explain"], text.read_bytes())
    told = "".join(sentences()[it] for it in told_of(answer.decode()))
    holds = said[:2] == (status, answer) and said[2].startswith(told) and said[2].count("\n") == told.count("\n") + (
        2 if status == 2 and not answer.startswith(b"line 0") else 0
    )
    return holds or print(f"{program} {text.name}: {said}, and not {told}")


def is_told_to_a_terminal(program):
    """Standard error says the same unasked where it is a terminal, and nothing where it is none."""
    text = (ROOT / "examples/text_fault.txt").read_bytes()
    asked, unasked = (run(program, words, text) for words in (["check", "--explain"], ["check"]))
    terminal, end = pty.openpty()
    ran = subprocess.run([program, "check"], input=text, stdout=subprocess.PIPE, stderr=end, timeout=60)
    os.close(end)
    told = os.read(terminal, 4096).decode().replace("\r\n", "\n")
    os.close(terminal)
    said = ran.returncode, ran.stdout, told
    holds = said == asked and unasked == (*asked[:2], "")
    return holds or print(f"{program}, to a terminal: {said}, and not {asked}")


def notes(program):
    """Whether each case of a note holds."""
    for row in MARKED:
        yield is_marked(program, *row)
    for row in WHOLE:
        yield is_told_of_whole(program, *row)
    for text in sorted((ROOT / "examples").glob("*.txt")):
        # (a session has no --explain)
        if not text.name.startswith("serve_"):
            yield is_explained(program, text)
    yield is_told_to_a_terminal(program)


def main(programs):
    passed = failed = 0
    for program in programs:
        for words, wanted in cases():
            said = said_by(program, words)
            if said == wanted:
                passed += 1
            else:
                failed += 1
                print(f"{program} {' '.join(words)}: {said}, and not {wanted}")
        held = [bool(it) for it in notes(program)]
        passed += held.count(True)
        failed += held.count(False)
    print(f"{passed} passed, {failed} failed")
    return failed > 0 or passed == 0


if __name__ == "__main__":
    if len(sys.argv) < 2:
        sys.exit(__doc__.strip())
    sys.exit(main(sys.argv[1:]))
