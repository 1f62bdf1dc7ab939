#!/usr/bin/env python3
"""Makes the manual pages and the completions of the program, of the words of its own help, of the docs and the header.

    manual.py PROGRAM FOLDER       writes there mrjob.1, mrjob.5, mrjob.h.3, mrjob.bash, _mrjob and mrjob.fish
"""
import re
import subprocess
import sys
from pathlib import Path

sys.dont_write_bytecode = True
import pages
from roff import entry, plain, title, verbatim

# The words that may follow an option or a command, which its help has among its words.
VALUES = {"--network": ["direct", "racks"], "explain": ["fault", "condition", "ignored", "status"]}


class Help:
    """The help of the program, or of a command: what it is, its usage, its commands, its options and the rest."""

    def __init__(self, program, *words):
        self.text = subprocess.run([program, *words, "--help"], check=True, capture_output=True, text=True).stdout
        self.about, rest = re.match(r"(.*?)\n\nUsage: (.*)", self.text, re.S).groups()
        self.usage, _, rest = rest.partition("\n\n")
        listed = dict(re.findall(r"^(Commands|Arguments|Options):\n((?:  .*\n)*)", rest, re.M))
        self.arguments = re.findall(r"^  ([<[]\w+[]>]) +(.*)$", listed.get("Arguments", ""), re.M)
        self.commands = re.findall(r"^  (\w+) +(.*)$", listed.get("Commands", ""), re.M)
        options = re.findall(r"^ +(?:(-\w), )?(--[\w-]+)(?: <(\w+)>)? +(.*)$", listed["Options"], re.M)
        self.options = [(long, short, value, says) for short, long, value, says in options]
        self.rest = rest.split(listed["Options"], 1)[1].strip("\n")


def labelled(text):
    """A text of which a line that begins with a word and a colon is an entry, and an indented one goes on with it."""
    for part in re.split(r"\n(?=\S)", text):
        head, _, body = part.partition(":")
        if head == "Try":
            yield from [".TP", ".B Try:", *"\n.br\n".join(plain(it.strip()) for it in body.split("\n")).split("\n")]
        else:
            yield from entry(f"{head}:", body) if re.match(r"\w+:  ", part) else [".PP", plain(" ".join(part.split()))]


def paragraphs(text):
    """A text in paragraphs: labels with what they say, and lines that are indented below one that ends in a colon."""
    for part in re.split(r"\n\n(?=\S)", text):
        head, _, body = part.partition("\n")
        if head.endswith(":") and body.startswith("  "):
            yield from [".PP", plain(head), ".PP", *verbatim(body)]
        elif part:
            yield from labelled(part)


def sections(text):
    """A text in paragraphs, of which those that begin with a line and a colon are sections."""
    for part in re.split(r"\n\n(?=\S)", text):
        head, _, body = part.partition("\n")
        if not (head.endswith(":") and body):
            yield from [".SH NOTES", plain(" ".join(part.split()))] if part else []
            continue
        yield f'.SH "{plain(head[:-1].upper())}"'
        numbers = re.findall(r"^  (\d+) +(.*(?:\n {4,}\S.*)*)", body, re.M)
        yield from [line for it in numbers for line in entry(*it)] if numbers else verbatim(body)


def options_of(given):
    for name, says in given.arguments:
        yield from entry(name.strip("[]<>"), says)
    for long, short, value, says in given.options:
        names = ", ".join(filter(None, [short, long])) + (f" {value}" if value else "")
        yield from entry(names, says)


def manual(whole, commands):
    """The lines of mrjob.1."""
    about = " ".join(whole.about.split())
    yield from [title("MRJOB", 1, "User Commands"), ".SH NAME", plain(f"mrjob - {about[0].lower()}{about[1:]}")]
    yield ".SH SYNOPSIS"
    for given in commands.values():
        yield from [f".B {plain(given.usage)}", ".br"]
    yield from [".SH OPTIONS", *options_of(whole), ".SH COMMANDS"]
    for name, given in commands.items():
        yield from [f'.SS "mrjob {name}"', plain(given.about), *options_of(given), *paragraphs(given.rest)]
    yield from sections(whole.rest)
    yield from [".SH SEE ALSO", ".BR mrjob (5)", "for the texts, their limits, faults, conditions and reasons,"]
    yield from [".BR mrjob.h (3)", "for the library", ".PP", plain(pages.SEE)]


def bash(whole, commands):
    """The lines of a completion for bash."""
    yield "_mrjob() {"
    yield '    local word="${COMP_WORDS[COMP_CWORD]}" before="${COMP_WORDS[COMP_CWORD-1]}" words'
    # (bash parts --network=racks into three words)
    yield '    if [ "$word" = = ]; then word=; elif [ "$before" = = ]; then before="${COMP_WORDS[COMP_CWORD-2]}"; fi'
    yield '    case "$before" in'
    for option, values in VALUES.items():
        if not option.startswith("-") and option not in commands:
            continue
        yield f'        {option}) COMPREPLY=($(compgen -W "{" ".join(values)}" -- "$word")); return ;;'
    yield "    esac"
    yield '    case "$COMP_CWORD ${COMP_WORDS[1]}" in'
    yield f'        1\\ *) words="{" ".join([*commands, "help", *(it[0] for it in whole.options)])}" ;;'
    for name, given in commands.items():
        yield f'        *\\ {name}) words="{" ".join(it[0] for it in given.options)}" ;;'
    yield f'        2\\ help) words="{" ".join(commands)}" ;;'
    yield from ["    esac", '    COMPREPLY=($(compgen -W "$words" -- "$word"))', "}", "complete -F _mrjob mrjob"]


def quoted(words):
    return "'" + words.replace("'", "'\\''") + "'"


def zsh(whole, commands):
    """The lines of a completion for zsh."""
    says = lambda words: words.replace("[", "\\[").replace("]", "\\]").replace(":", "\\:")
    yield from ["#compdef mrjob", "_mrjob() {", "    local -a commands", "    commands=("]
    yield from (f"        {quoted(f'{name}:{says(about)}')}" for name, about in whole.commands)
    yield from ["    )", "    if (( CURRENT == 2 )); then", "        _describe command commands"]
    yield from ["        return", "    fi", "    case $words[2] in"]
    for name, given in commands.items():
        yield f"        {name}) _arguments \\"
        if name in VALUES:
            yield f"            {quoted(f'2:kind:({chr(32).join(VALUES[name])})')} \\"
        for long, _, value, about in given.options:
            after = f":{value}:({' '.join(VALUES.get(long, []))})" if value else ""
            given_by = "=" if value else ""  # (--network=racks, or two words)
            yield f"            {quoted(f'{long}{given_by}[{says(about)}]{after}')} \\"
        yield "            ;;"
    yield from ["    esac", "}", '_mrjob "$@"']


def fish(whole, commands):
    """The lines of a completion for fish."""
    yield "complete -c mrjob -f"
    for name, about in whole.commands:
        yield f"complete -c mrjob -n __fish_use_subcommand -a {name} -d {quoted(about)}"
    for name in (it for it in commands if it in VALUES):
        yield f"complete -c mrjob -n '__fish_seen_subcommand_from {name}' -a {quoted(' '.join(VALUES[name]))}"
    for name, given in commands.items():
        for long, _, value, about in given.options:
            after = f" -x -a {quoted(' '.join(VALUES.get(long, [])))}" if value else ""
            seen = quoted(f"__fish_seen_subcommand_from {name}")
            yield f"complete -c mrjob -n {seen} -l {long[2:]}{after} -d {quoted(about)}"


def write(program, folder):
    """Writes the files, and returns their names."""
    whole = Help(program)
    commands = {name: Help(program, name) for name, _ in whole.commands if name != "help"}
    made = {"mrjob.1": manual, "mrjob.bash": bash, "_mrjob": zsh, "mrjob.fish": fish}
    made = {name: lines(whole, commands) for name, lines in made.items()}
    made.update({"mrjob.5": pages.texts(program), "mrjob.h.3": pages.header()})
    for name, lines in made.items():
        (Path(folder) / name).write_text("".join(f"{line}\n" for line in lines))
    return list(made)


if __name__ == "__main__":
    if len(sys.argv) != 3:
        sys.exit(__doc__.strip())
    write(sys.argv[1], sys.argv[2])
