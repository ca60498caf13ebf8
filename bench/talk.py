#!/usr/bin/env python3
"""Talks to the built program as another program would: a line is written, and its reply is read before the next line is written.

    python3 bench/talk.py [PROGRAM]

PROGRAM is crates/lie_cli/out/lie_cli, as ./prove leaves it, if none is given. A reply that doesn't come within ten seconds, or another
reply than the one that stands here, is told, and then the script ends with 1.
"""
import os
import select
import subprocess
import sys

TOP = os.path.dirname(os.path.dirname(os.path.abspath(__file__)))
SECONDS = 10

# a line, and its reply
SCRIPT = [
    ("field 5 1 0 2", None),
    ("datum 1 1", None),
    ("root 2", None),
    ("# SL2 over five elements", None),
    ("coroot 1", None),
    ("load", "loaded 5 1 2 5"),
    ("form h(2) h(3)", "- | 1 | - | -"),
    ("fomr 1", "refused 8 command 1"),
    ("weyl 1", "1 | 1 | -1"),
    ("same n1 n1 ; h(4)", "yes"),
    ("form x1(1)\r", "x1(1) | 1 | - | -"),
]


def reply(process):
    """A reply of one line, without its end; None where none comes."""
    said = b""
    while not said.endswith(b"\n"):
        ready, _, _ = select.select([process.stdout], [], [], SECONDS)
        byte = os.read(process.stdout.fileno(), 1) if ready else b""
        if not byte:
            return None
        said += byte
    return said[:-1].decode()


def main():
    program = sys.argv[1] if len(sys.argv) > 1 else os.path.join(TOP, "crates", "lie_cli", "out", "lie_cli")
    process = subprocess.Popen([program, "run"], stdin=subprocess.PIPE, stdout=subprocess.PIPE, bufsize=0)
    failed = False
    for line, wanted in SCRIPT:
        process.stdin.write(line.encode() + b"\n")
        if wanted is None:
            continue
        got = reply(process)
        if got != wanted:
            print(f"{line!r}: {got!r}, not {wanted!r}")
            failed = True
            break
    process.stdin.close()
    rest = process.stdout.read()
    status = process.wait()
    if not failed and (rest, status) != (b"", 1):
        print(f"at the end: {rest!r} and status {status}, not nothing and status 1")
        failed = True
    if not failed:
        print(f"{sum(1 for _, wanted in SCRIPT if wanted)} replies came before the next line was written")
    return 1 if failed else 0


if __name__ == "__main__":
    sys.exit(main())
