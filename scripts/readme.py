"""The commands that the README shows, and what they write."""
import os
import re
import subprocess


def commands(text):
    """Each command of a text, after `    $ `, with the lines below it."""
    for shown in re.findall(r"^    \$ (.*\n(?:    (?!\$ ).*\n)*)", text, re.M):
        command, *lines = shown.splitlines()
        yield command, [it[4:] for it in lines]


def written(command, folder, path):
    """What a command writes in a folder, where these folders alone are on PATH."""
    how = {"stdout": subprocess.PIPE, "stderr": subprocess.DEVNULL, "cwd": folder}
    env = {"PATH": os.pathsep.join(map(str, path)), "HOME": str(folder)}
    return subprocess.run(["/bin/bash", "-c", command], env=env, **how).stdout.decode().splitlines()
