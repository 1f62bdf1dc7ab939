#!/usr/bin/env python3
"""Gathers about 15 MB of English text from documentation packages of Debian, one document a line.

usage: make_words.py FILE

Of the packages it takes plain texts (also compressed ones), the texts of Perl's documentation, and manual pages
without their requests, in a fixed order. A byte that is not printable ASCII becomes a space. A text is cut at the
first end of a line after 3,750 bytes, which makes about 4,000 documents. Without the packages nothing is written,
and the reason is said.
"""
import gzip
import os
import pathlib
import re
import subprocess
import sys
import tempfile

PACKAGES = [
    "doc-debian", "developers-reference", "debian-faq", "maint-guide", "debian-reference-en",
    "debian-policy", "git-doc", "perl-doc", "manpages", "manpages-dev",
]
WANTED = 15_000_000
DOCUMENT = 3_750
KINDS = [r"\.txt(\.gz)?$", r"\.pod(\.gz)?$", r"/man/man[0-9]/[^/]*\.gz$"]


def unpack(room):
    """Downloads and unpacks the packages; says what failed."""
    got = subprocess.run(["apt-get", "download", "-qq", *PACKAGES], cwd=room, capture_output=True, text=True)
    if got.returncode != 0:
        return got.stderr.strip().splitlines()[-1:] or ["apt-get failed"]
    for package in sorted(pathlib.Path(room).glob("*.deb")):
        subprocess.run(["dpkg-deb", "-x", str(package), room + "/files"], check=True)
    return None


def texts(folder):
    """The texts below the folder, kind by kind, and by path."""
    paths = sorted(str(path) for path in pathlib.Path(folder).rglob("*") if path.is_file() and not path.is_symlink())
    for kind in KINDS:
        for path in paths:
            if re.search(kind, path):
                data = gzip.open(path).read() if path.endswith(".gz") else pathlib.Path(path).read_bytes()
                if "/man/" in path:
                    data = re.sub(rb"(?m)^['.].*$|\\f.|\\[-&e]", b"", data)
                yield data


def documents(folder):
    """The documents, each of one line."""
    for data in texts(folder):
        held, size = [], 0
        for line in data.split(b"\n"):
            line = re.sub(rb"[^ -~]", b" ", line).strip()
            if line:
                held.append(line)
                size += len(line) + 1
            if size >= DOCUMENT:
                yield b" ".join(held)
                held, size = [], 0
        if held:
            yield b" ".join(held)


def main():
    target = sys.argv[1]
    with tempfile.TemporaryDirectory() as room:
        os.chmod(room, 0o755)
        wrong = unpack(room)
        if wrong:
            print("no text: the packages could not be had:", *wrong)
            return
        size = count = 0
        with open(target + ".part", "wb") as out:
            for document in documents(room + "/files"):
                out.write(document + b"\n")
                size += len(document) + 1
                count += 1
                if size >= WANTED:
                    break
        os.rename(target + ".part", target)
        print(f"{target}: {count} documents, {size} bytes")


main()
