"""How a script ends where the reader of its output has gone, as `head` does."""
import atexit
import os
import sys


def leave():
    """Ends at once: nothing more can be written, and nothing is tried."""
    os._exit(141)


def shown(kind, why, trace):
    if issubclass(kind, BrokenPipeError):
        leave()
    sys.__excepthook__(kind, why, trace)


def written():
    """Writes what is left to be written."""
    try:
        sys.stdout.flush()
    except BrokenPipeError:
        leave()


def at_head():
    """From now on this process ends quietly there, with status 141."""
    sys.excepthook = shown
    atexit.register(written)
