#!/usr/bin/env python3
"""Tries contrib/dask by a built program, where Debian's Python has Dask (the package python3-distributed).

    dask.py PROGRAM..           the first program is taken

The last line is 'N passed, M failed'; where Dask is not there, nothing is counted.
"""
import signal
import subprocess
import sys
import time
from pathlib import Path

sys.dont_write_bytecode = True
import crates  # (it ends a script quietly where head does)

PYTHON = "/usr/bin/python3"
MOST_SECONDS = 1800  # which only a hang takes
ROOT = Path(__file__).resolve().parent.parent


def has_dask():
    try:
        return subprocess.run([PYTHON, "-c", "import distributed"], capture_output=True, cwd="/").returncode == 0
    except OSError:
        return False


def main():
    if not has_dask():
        print(f"contrib/dask was skipped: {PYTHON} has no Dask (python3-distributed)\n0 passed, 0 failed")
        return 0
    words = [PYTHON, "contrib/dask/tests.py", str(Path(sys.argv[1]).resolve())]
    tests = subprocess.Popen(words, cwd=ROOT, stdin=subprocess.DEVNULL)
    try:
        return tests.wait(MOST_SECONDS)
    except subprocess.TimeoutExpired:
        tests.send_signal(signal.SIGUSR1)  # (it tells where it is)
        time.sleep(2)
        tests.terminate()  # (it ends the processes of its cluster)
        tests.wait()
        print("contrib/dask hung\n0 passed, 1 failed")
        return 1


if __name__ == "__main__":
    sys.exit(main())
