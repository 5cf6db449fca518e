"""What the scripts of this folder share: the processor time and the most memory of a command."""
import os
import subprocess
import sys
import tempfile
from typing import NamedTuple

FOLDER = tempfile.TemporaryDirectory()
LAUNCHER = os.path.join(FOLDER.name, "measure")
subprocess.run(["gcc", "-O2", "-o", LAUNCHER, os.path.join(os.path.dirname(__file__), "measure.c")], check=True)


class Measured(NamedTuple):
    status: int
    said: str  # on the error stream
    seconds: float  # of processor, user and system
    memory: int  # the most, in bytes


def measured(words, output=os.devnull, data=os.devnull):
    """One run of a command, with its output and its standard input in files."""
    with open(output, "wb") as out, open(data, "rb") as given:
        run = subprocess.run([LAUNCHER, *words], stdin=given, stdout=out, stderr=subprocess.PIPE, check=True)
    said, last = run.stderr.decode(errors="replace").rstrip("\n").rsplit("\n", 1)
    status, seconds, memory = last.split()
    return Measured(int(status), said.strip(), float(seconds), int(memory))


def succeeded(words, output=os.devnull, data=os.devnull):
    """The same of a command that must end with the status 0."""
    run = measured(words, output, data)
    if run.status != 0:
        sys.exit(f"{' '.join(words)}: status {run.status}: {run.said}")
    return run


def fastest(words, output=os.devnull, rounds=5, once=succeeded):
    """The fastest of so many runs, with the most memory of all."""
    runs = [once(words, output) for _ in range(rounds)]
    return min(runs, key=lambda run: run.seconds)._replace(memory=max(run.memory for run in runs))
