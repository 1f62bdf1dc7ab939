#!/usr/bin/env python3
"""Makes the pictures of the docs, each of a text with its answer."""
import subprocess
import sys

sys.dont_write_bytecode = True
from crates import ROOT

PICTURES = {
    "docs/pictures/plan.svg": "contrib/samples/wave",
    "docs/pictures/report.svg": "contrib/samples/job",
    "contrib/dask/run.svg": "contrib/dask/run",
}


def made(name):
    """The bytes of a picture."""
    of = PICTURES[name]
    words = [sys.executable, ROOT / "contrib/picture.py", ROOT / f"{of}.txt", ROOT / f"{of}.out"]
    return subprocess.run(words, check=True, stdout=subprocess.PIPE).stdout


def main():
    for name in PICTURES:
        (ROOT / name).write_bytes(made(name))
        print(name)


if __name__ == "__main__":
    main()
