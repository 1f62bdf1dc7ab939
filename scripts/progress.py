#!/usr/bin/env python3
"""Tries what `mrjob run` and `mrjob play` tell a terminal: on standard error a line once a second has passed, which is
taken away at the end; nothing with --quiet, or where standard error is no terminal. A session of `mrjob serve` whose
lines come from a terminal is told there when the next line is awaited, and what a fault means; standard output is that
of any session.

    progress.py PROGRAM..

Both texts are longer than a pipe holds, and their last line is written two seconds after the rest was taken. The
program's clock runs by then, so a second has passed before the first command, however fast the machine is. The job has
one map of so many words that it lasts, beside a short one. The script has as many waves as it may have, and is ended
when the first line was told. The last line is 'N passed, M failed'.
"""
import os
import pty
import random
import re
import select
import subprocess
import sys
import termios
import threading
import time

sys.dont_write_bytecode = True
import make_texts
import reference_run

JOB = make_texts.long_job(random.Random(1), 1_000_000).replace(
    b"end\n", b"worker b r 1\nsplit t 10 b\ndoc e t one\nparts 3\nend\n"
)
ANSWER = reference_run.answer(JOB)[0]
CLEAR = b"\r\x1b[K"
LINE = re.compile(rb"maps [012] of 2, parts [0-3] of 3, waves 1, deaths 0")
SCRIPT = b"script 1\nrack r\n" + b"".join(b"worker w%d r 0\n" % it for it in range(256))
SCRIPT += b"".join(b"split s%d 1 w0\n" % it for it in range(1024))
SCRIPT += b"begin\n" + 65_536 * b"wave\n" + b"end\n"
SCRIPT_LINE = re.compile(re.escape(CLEAR) + rb"command ([1-9]\d*) of 65536")


def write_slowly(pipe, text):
    """Writes a text that ends in `end`, whose last line comes two seconds after the program began to read."""
    try:
        pipe.write(text[: -len(b"end\n")])
        pipe.flush()
        time.sleep(2)
        pipe.write(b"end\n")
        pipe.close()
    except BrokenPipeError:
        pass


def on_terminal(words):
    """What is written on standard output, and on a standard error that is a terminal."""
    ours, theirs = pty.openpty()
    ran = subprocess.Popen(words, stdin=subprocess.PIPE, stdout=subprocess.PIPE, stderr=theirs)
    os.close(theirs)
    writer = threading.Thread(target=write_slowly, args=(ran.stdin, JOB))
    writer.start()
    output = ran.stdout.read()
    ran.wait()
    writer.join()
    told = b""
    while True:
        try:
            part = os.read(ours, 4096)
        except OSError:
            break
        if not part:
            break
        told += part
    os.close(ours)
    return output, told


def told_of_script(program):
    """The first line that is written of the script on a standard error that is a terminal."""
    ours, theirs = pty.openpty()
    ran = subprocess.Popen([program, "play"], stdin=subprocess.PIPE, stdout=subprocess.DEVNULL, stderr=theirs)
    os.close(theirs)
    write_slowly(ran.stdin, SCRIPT)
    # (a program that tells nothing is not waited for until it has played all)
    try:
        return os.read(ours, 4096) if select.select([ours], [], [], 300)[0] else b""
    except OSError:
        return b""
    finally:
        ran.kill()
        ran.wait()
        os.close(ours)


SESSION = b"script 1\nrack r\nworker a r 1\nsplit s 10 a\nbegin\nwavee\nreduce\nwave\nprice s 0\nprice a 0\ncommit\nend\n"
# What a person is told of it, with the sentences of `mrjob explain`: behind each answer that a line is awaited.
NOTES = {5: ("fault", "1"), 6: ("ignored", "7")}


def session_on_terminal(program):
    """What a session writes whose standard input and standard error are a terminal, and what the terminal is told."""
    ours, theirs = pty.openpty()
    settings = termios.tcgetattr(theirs)
    settings[3] &= ~termios.ECHO
    settings[1] &= ~termios.OPOST
    termios.tcsetattr(theirs, termios.TCSANOW, settings)
    ran = subprocess.Popen([program, "serve"], stdin=theirs, stdout=subprocess.PIPE, stderr=theirs)
    os.close(theirs)
    os.write(ours, SESSION)
    output, told = ran.communicate()[0], b""
    while select.select([ours], [], [], 0)[0]:
        try:
            told += os.read(ours, 4096)
        except OSError:
            break
    os.close(ours)
    return output, told.decode()


def is_told(program, told):
    """Whether a terminal is told of the session above as a person would want it."""
    said = [subprocess.run([program, "explain", *it], capture_output=True, text=True).stdout for it in NOTES.values()]
    parts = told.split("mrjob> ")
    answers = SESSION.count(b"\n") - 4  # (to `begin` and each line behind it)
    return len(parts) == answers + 1 and parts[0].count("\n") == 1 and said == [it for it in parts[1:] if it]


def main(programs):
    passed = failed = 0
    for program in programs:
        plain = subprocess.run([program, "run"], input=JOB, stdout=subprocess.PIPE, stderr=subprocess.PIPE)
        output, told = on_terminal([program, "run"])
        lines = told.split(CLEAR)
        checks = {
            "elsewhere nothing is told": (plain.stdout, plain.stderr) == (ANSWER, b""),
            "a terminal is told": output == ANSWER and len(lines) > 2 and told.startswith(CLEAR) and lines[-1] == b"",
            "each line says how far it is": all(LINE.fullmatch(line) for line in lines[1:-1]),
            "it goes forward": lines[1:-1] == sorted(lines[1:-1]),
            "--quiet tells nothing": on_terminal([program, "run", "--quiet"]) == (ANSWER, b""),
            "a terminal is told of a script": bool(SCRIPT_LINE.fullmatch(told_of_script(program))),
        }
        piped = subprocess.run([program, "serve"], input=SESSION, stdout=subprocess.PIPE, stderr=subprocess.PIPE)
        output, told = session_on_terminal(program)
        checks["a session on a terminal writes what another one does"] = (output, piped.stderr) == (piped.stdout, b"")
        checks["a terminal is told of a session"] = is_told(program, told)
        for name, holds in checks.items():
            print(f"{program}: {name}: {'ok' if holds else 'FAILED'}")
            passed, failed = passed + holds, failed + (not holds)
    print(f"{passed} passed, {failed} failed")
    return 1 if failed or not passed else 0


if __name__ == "__main__":
    sys.exit(main(sys.argv[1:]))
