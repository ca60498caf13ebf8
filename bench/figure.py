#!/usr/bin/env python3
"""Measures one thing, and prints one line of it: who, what, its processor time in microseconds, and the number of its instructions.

    python3 figure.py WHO WHAT [--head FILE] --lines FILE [--less FILE] [--tail FILE] [--each N] -- COMMAND ..
    python3 figure.py WHO WHAT --times N -- COMMAND ..

The command reads the head, and then the lines of each file. The figure is what it costs to read and obey those of --lines less those of --less, divided
by the number of lines in --lines, and by that of things in each; those of --tail are read behind, so that the command ends well. Or else the command
has one more word, how often it does the thing: the figure is the cost of a run with N less one with 0, divided by N.

The time is the least of five runs, or of RUNS in the environment. Instructions are counted if INSTRUCTIONS is there, by valgrind, on the
twentieth part of the lines. With PART in the environment the lines are cut to such a part for both.
"""
import argparse
import os
import re
import subprocess
import sys
import tempfile

from measured import Session

RUNS, PART = int(os.environ.get("RUNS") or 5), int(os.environ.get("PART") or 1)
COUNTED = 20


def read(path):
    if path is None:
        return []
    with open(path, "rb") as file:
        return file.read().splitlines(keepends=True)


class Lines:
    """Lines that a command reads."""

    def __init__(self, options):
        self.command, self.each = options.command, options.each
        self.head, self.lines, self.less, self.tail = (read(it) for it in (options.head, options.lines, options.less, options.tail))

    def cost(self, part, folder):
        """The cost of one thing, as found in one run."""
        count = max(len(self.lines) // part, 1)
        less = len(self.less) * count // len(self.lines)
        session = Session(self.command, folder)
        session.give(b"".join(self.head))
        base = session.cost(b"".join(self.less[:less])) if less else 0
        whole = session.cost(b"".join(self.lines[:count]))
        session.give(b"".join(self.tail))
        session.end()
        return base, whole, count * self.each


class Times:
    """A command whose last word is how often it does a thing."""

    def __init__(self, options):
        self.command, self.times = options.command, options.times

    def run(self, times, folder):
        command = [*self.command, str(times)]
        if folder is None:
            process = subprocess.Popen(command, stdin=subprocess.DEVNULL, stdout=subprocess.DEVNULL)
            _, status, usage = os.wait4(process.pid, 0)
            process.returncode = os.waitstatus_to_exitcode(status)
            cost = usage.ru_utime + usage.ru_stime
        else:
            valgrind = ["valgrind", "--tool=callgrind", "--callgrind-out-file=/dev/null"]
            process = subprocess.run([*valgrind, *command], stdin=subprocess.DEVNULL, stdout=subprocess.DEVNULL, stderr=subprocess.PIPE, text=True)
            cost = process.returncode == 0 and int(re.search(r"Collected : (\d+)", process.stderr)[1])
        if process.returncode != 0:
            sys.exit(f"{' '.join(command)} ended with {process.returncode}")
        return cost

    def cost(self, part, folder):
        times = max(self.times // part, 1)
        return self.run(0, folder), self.run(times, folder), times


def main():
    parser = argparse.ArgumentParser(description=__doc__, formatter_class=argparse.RawDescriptionHelpFormatter)
    parser.add_argument("who")
    parser.add_argument("what")
    parser.add_argument("--head")
    parser.add_argument("--lines")
    parser.add_argument("--less")
    parser.add_argument("--tail")
    parser.add_argument("--each", type=int, default=1)
    parser.add_argument("--times", type=int)
    parser.add_argument("command", nargs="+")
    options = parser.parse_args()
    thing = Lines(options) if options.times is None else Times(options)
    bases, wholes, counts = zip(*(thing.cost(PART, None) for _ in range(RUNS)))
    said = "%-4s %s: %.2f microseconds" % (options.who, options.what, 1e6 * (min(wholes) - min(bases)) / counts[0])
    if os.environ.get("INSTRUCTIONS"):
        with tempfile.TemporaryDirectory() as folder:
            base, whole, count = thing.cost(PART * COUNTED, folder)
        said += ", %.0f instructions" % ((whole - base) / count)
    print(said, flush=True)


if __name__ == "__main__":
    main()
