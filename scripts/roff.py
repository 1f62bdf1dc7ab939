"""Lines of manual pages, of words and of Markdown as the docs have it."""
import os
import re
import subprocess
import textwrap
import time

from crates import ROOT, version

# The widest line of a page that is not filled: what is left of 80 columns beside the margin.
WIDEST = 72


def epoch():
    """When what stands here was made, in seconds: what SOURCE_DATE_EPOCH says, else the last commit's time."""
    if "SOURCE_DATE_EPOCH" in os.environ:
        return int(os.environ["SOURCE_DATE_EPOCH"])
    told = subprocess.run(["git", "log", "-1", "--format=%ct"], cwd=ROOT, capture_output=True, text=True).stdout
    return int(told or (ROOT / "VERSION").stat().st_mtime)


def plain(line):
    """A line as roff has it, whatever it begins with."""
    line = line.replace("\\", "\\e").replace("-", "\\-").replace("'", "\\(aq").replace("`", "\\(ga")
    return "\\&" + line if line.startswith((".", " ")) else line


def title(name, section, kind):
    """The head of a page, with its date and version."""
    day = time.strftime("%Y-%m-%d", time.gmtime(epoch()))
    return f'.TH {name} {section} {day} "mrjob {version()}" "{kind}"'


def verbatim(text):
    """A text line by line, those that are too wide broken."""
    yield ".nf"
    for line in text.split("\n"):
        inner = " " * (len(line) - len(line.lstrip()) + 4)
        yield from map(plain, textwrap.wrap(line, WIDEST, subsequent_indent=inner, break_on_hyphens=False) or [""])
    yield ".fi"


def entry(head, body):
    """What a word means."""
    return [".TP", f".B {plain(head)}", plain(" ".join(body.split()))]


def bare(text):
    """Markdown's words without its marks: the text of a link, what is set apart, what is code."""
    text = re.sub(r"\[([^\]]*)\]\([^)]*\)", r"\1", text)
    return re.sub(r"\*\*?([^*]+)\*\*?", r"\1", text).replace("`", "")


def cells(line):
    return [bare(it.strip()) for it in re.split(r" \|(?: |$)", line.strip().removeprefix("|"))][:-1]


def table(lines):
    """A table's rows, each with its first cell as the head. Statuses are called so."""
    names = ["status " if it == "Status" else "" for it in cells(lines[0])]
    for line in lines[2:]:
        head, *rest = (name + it if it else it for name, it in zip(names, cells(line)))
        yield from entry(head, "; ".join(filter(None, rest)))


def of_markdown(text):
    """The lines of a text in Markdown: paragraphs, lists, tables, and what is indented."""
    for part in re.split(r"\n\n+", text.strip("\n")):
        lines = part.split("\n")
        if part.startswith("|"):
            yield from table(lines)
            yield ".PP"
        elif part.startswith("    "):
            yield from verbatim("\n".join(it[4:] for it in lines))
        elif part.startswith("- "):
            for it in re.split(r"\n(?=- )", part):
                yield from [".IP \\(bu 3", plain(bare(" ".join(it[2:].split())))]
            yield ".PP"
        elif part.startswith("#"):
            yield f'.SS "{plain(bare(lines[0].lstrip("# ")))}"'
            yield from of_markdown("\n".join(lines[1:])) if lines[1:] else []
        else:
            yield from [".PP", plain(bare(" ".join(part.split())))]
