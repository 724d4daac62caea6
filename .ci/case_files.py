"""What the scripts that run worked cases share: where the data is, and how lines of a case are read."""
import os

TOP = os.path.dirname(os.path.dirname(os.path.abspath(__file__)))
# The time that a run has.
SECONDS = 60


def content(name):
    """The bytes of a file."""
    with open(f"{TOP}/{name}", "rb") as it:
        return it.read()


def lines_of(part):
    """The lines of a part of a case, with what `+` repeats."""
    lines = []
    for line in part.split(b"\n")[:-1]:
        if line.startswith(b"+"):
            _, count, more = line.split(b" ", 2)
            lines[-1] += int(count) * more
        else:
            lines.append(line[2:])
    return lines
