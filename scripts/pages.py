"""The manual pages mrjob(5), of docs/MODEL.md and README.md, and mrjob.h(3), of the header."""
import re
import subprocess
import textwrap
from functools import lru_cache

from crates import ROOT
from roff import WIDEST, bare, entry, of_markdown, plain, title, verbatim

SUMS = (
    "What check refuses a plan by, where K is 1 + 4 times the bytes of all splits, with several data centres 1 + 6 "
    "times, with the prices of the places of all slots added, and a sum is a split's price, a worker's price and the "
    "cost of the start together. The first that fails is told."
)
SEE = "The definitions stand in share/doc/mrjob/docs/MODEL.md, and examples in share/doc/mrjob/examples."


def section(name, file="docs/MODEL.md"):
    """What a document has under a head that begins so, without that head."""
    level, _, words = name.partition(" ")
    text = (ROOT / file).read_text()
    head = re.search(rf"^{level} {re.escape(words)}.*\n", text, re.M)
    rest = text[head.end() :]
    stop = re.search(rf"^#{{1,{len(level)}}} ", rest, re.M)
    return rest[: stop.start()] if stop else rest


@lru_cache(maxsize=None)
def by_program(program):
    """Each fault, condition, reason and status with its sentence, as the program explains them."""
    ran = subprocess.run([program, "explain"], check=True, capture_output=True, text=True)
    return re.findall(r"^(\w+) (\w+): (.*)$", ran.stdout, re.M)


def sentences(program, kind):
    return [line for of, name, says in by_program(program) if of == kind for line in entry(name, bare(says))]


def but_tables(text):
    """A text without its tables, in two parts: what comes before the first of them, and the rest."""
    parts = re.split(r"\n\n+", text.strip("\n"))
    at = next(n for n, it in enumerate(parts) if it.startswith("|"))
    return "\n\n".join(parts[:at]), "\n\n".join(it for it in parts[at:] if not it.startswith("|"))


def texts(program):
    """The lines of mrjob.5."""
    yield from [title("MRJOB", 5, "File Formats"), ".SH NAME"]
    yield "mrjob \\- the texts that mrjob reads: problems, plans, scripts and jobs"
    whole = section("## Texts").partition("\n### ")[0]
    before, after = but_tables(whole)
    yield from [".SH DESCRIPTION", *of_markdown(before), ".SH LINES"]
    yield from of_markdown("\n\n".join(it for it in whole.split("\n\n") if it.startswith("|")))
    yield from [*of_markdown(after), ".SH LIMITS", *of_markdown(section("## Limits", "README.md"))]
    before, after = but_tables(section("### Faults"))
    yield from [".SH FAULTS", *of_markdown(before), *sentences(program, "fault"), ".PP", *of_markdown(after)]
    yield from [".SH CONDITIONS", plain(SUMS)]
    yield from [*sentences(program, "condition"), ".SH REASONS"]
    yield plain("Why a command of a script is ignored. The first that applies is told.")
    yield from sentences(program, "ignored")
    for name in ("check", "plan", "play", "serve", "run"):
        yield from [f'.SH "ANSWER OF {name.upper()}"', *of_markdown(section(f"## The answer of `{name}`"))]
    yield from [".SH SEE ALSO", ".BR mrjob (1),", ".BR mrjob.h (3)", ".PP", plain(SEE)]


def code(text):
    """Code with no line too wide: a remark at a line's end is broken, and a function's parameters stand in column 5. Of
    a function with its body there is the head."""
    text = re.sub(r"^([^{;]*\))\s*\{.*", r"\1;", text, flags=re.S)
    text = re.sub(r"^static inline ", "", text)
    text = re.sub(r"\s*MRJOB_NAMED\([^)]*\)", "", text)
    if re.match(r"[^{]*\(", text) and text.endswith(";"):
        front, _, rest = " ".join(text.split()).partition("(")
        lines = textwrap.wrap(re.sub(r"(?<!,) ", "\0", rest), WIDEST - 4, break_on_hyphens=False)
        lines = [it.replace("\0", " ") for it in lines]
        return f"{front}({rest}" if len(front + rest) < WIDEST else "\n    ".join([f"{front}(", *lines])
    made = []
    for line in text.split("\n"):
        remark = line.find("/*")
        if len(line) <= WIDEST or remark < 0:
            made.append(line)
        else:
            inner = " " * (len(line) - len(line.lstrip()) + 4)
            made += [line[:remark].rstrip(), *textwrap.wrap(line[remark:], WIDEST, initial_indent=inner,
                                                          subsequent_indent=f"{inner}   ")]
    return "\n".join(made)


def remark(text):
    """The words of a remark."""
    return " ".join(re.sub(r"^ \* ?", "", text.removeprefix("/*").removesuffix("*/"), flags=re.M).split())


def header():
    """The lines of mrjob.h.3."""
    text = (ROOT / "include/mrjob.h").read_text()
    about, rest = re.match(r"/\* (.*?)\*/\n(.*)", text, re.S).groups()
    about = re.sub(r"^ \* ?", "", about, flags=re.M)
    name, _, about = about.partition("\n\n")
    yield from [title("MRJOB.H", 3, "Library Functions"), ".SH NAME"]
    yield plain(" ".join(name.split()).replace("mrjob.h: ", "mrjob.h - ", 1).rstrip("."))
    yield from [".SH SYNOPSIS", *verbatim("#include <mrjob.h>\n\ncc program.c $(pkg-config --cflags --libs mrjob)")]
    about = re.sub(r"^  - ", "- ", about, flags=re.M).replace(":\n- ", ":\n\n- ")
    yield from [".SH DESCRIPTION", *of_markdown(about)]
    rest = rest[rest.index("/* ---- bounds") : rest.index("/* ---- how the structs")]
    rest = re.sub(r"/\* ---- the library's own.*?(?=/\* ---- |$)", "", rest, flags=re.S)
    for part in re.split(r"\n\n+", rest.strip("\n")):
        head = re.match(r"/\* ---- (.*) ---- \*/$", part)
        if head:
            yield f'.SH "{plain(head[1].upper())}"'
            continue
        says = re.match(r"/\*.*?\*/", part, re.S)
        if says and says.start() == 0:
            yield from [".PP", plain(remark(says[0]))]
            part = part[says.end() :].strip("\n")
        yield from [".PP", *verbatim(code(part))] if part else []
    yield from [".SH SEE ALSO", ".BR mrjob (1),", ".BR mrjob (5)", ".PP"]
    yield plain("Programs stand in share/doc/mrjob/examples/c, and the definitions in share/doc/mrjob/docs/MODEL.md.")
