#!/usr/bin/env python3
"""Refuses each allocation of some worked scripts in turn, and fails each of their reads and writes, and says where the built program then ends in another
way than it may. It needs a C compiler, for the library refuse.c that is loaded under the program.

    python3 bench/refused_memory.py [PROGRAM]      crates/lie_cli/out/lie_cli, as ./prove leaves it, if none is given

A run of which an allocation is refused ends with NoMemory and a prefix of the script's output, or as the script does. Where reads move one byte each, and
one fails, the run ends with ReadFault and exactly the replies to the whole lines that were read. Where writes move one byte each, and one fails, it ends
with WriteFault and the bytes that were written before. Pieces of any size change nothing. (`rt try --fail-alloc N` refuses an allocation without a
proof, but compiles the program anew for each.)
"""
import os
import struct
import subprocess
import sys
import tempfile

HERE = os.path.dirname(os.path.abspath(__file__))
TOP = os.path.dirname(HERE)
READ_FAULT, WRITE_FAULT, NO_MEMORY = 4, 5, 6
COMPLAINTS = {READ_FAULT: b"lie: read fault\n", WRITE_FAULT: b"lie: write fault\n", NO_MEMORY: b"lie: no memory\n"}

SL2 = [("field 5 1 0 2", ""), ("datum 1 1", ""), ("root 2", ""), ("coroot 1", ""), ("load", "loaded 5 1 2 5")]
GL2 = [("field 3 1 0 2", ""), ("datum 2 1", ""), ("root 1 -1", ""), ("coroot 1 -1", ""), ("load", "loaded 3 2 2 5")]
TABLE = [("module bad table 2 2", ""), ("weight 1", ""), ("weight -1", ""), ("entry 1 1 1 2 1", "")]

# each script by its lines, with the replies to them, and the status with which it ends
SCRIPTS = {
    "forms, products and inverses": (0, SL2 + [
        ("form x-1(1)", "x1(1) | 4 | 1 | x1(1)"),
        ("inv x-1(1)", "x1(4) | 1 | 1 | x1(4)"),
        ("mul x1(1) n1 ; x1(2)", "x1(1) | 1 | 1 | x1(2)"),
    ]),
    "matrices and their forms": (0, GL2 + [
        ("module nat orbit 1 0", "module nat 2"),
        ("reduce nat", ""), ("row 2 0", ""), ("row 0 1", "- | 2 1 | - | -"),
        ("reduce nat", ""), ("row 1 1", ""), ("row 1 2", "x1(1) | 2 2 | 1 | x1(2)"),
        ("matrix nat x1(1) h(2,2) n1 x1(2)", "1 1\n1 2"),
    ]),
    "a table that fails a relation": (1, SL2 + TABLE + [("entry -1 1 2 1 2", "refused 10 relation s6 1 1 1 0 0 1 0")]),
    "a table that is a module": (0, SL2 + TABLE + [("entry -1 1 2 1 1", "module bad 2")]),
    "a table with an entry twice": (1, SL2 + TABLE + [("entry 1 1 1 2 1", "refused 10 table 2")]),
}


class Runs:
    """Runs of a program on a script, over the library."""

    def __init__(self, program, room):
        self.program, self.library, self.counts = program, os.path.join(room, "refuse.so"), os.path.join(room, "counts")
        subprocess.run([os.environ.get("CC", "cc"), "-shared", "-fPIC", "-O1", "-o", self.library, os.path.join(HERE, "refuse.c")], check=True)

    def run(self, script, **calls):
        """Status, output and standard error, and the numbers of allocations, reads and writes."""
        with open(self.counts, "wb") as file:
            file.write(bytes(24))
        env = {"LD_PRELOAD": self.library, "COUNTS": self.counts, **{name: str(n) for name, n in calls.items()}}
        ran = subprocess.run([self.program, "run"], input=script, capture_output=True, env=env, timeout=60)
        with open(self.counts, "rb") as file:
            return ran.returncode, ran.stdout, ran.stderr, struct.unpack("3q", file.read())


def texts(lines):
    """The script of some lines with replies, and for each number of its bytes the replies to the whole lines among so many."""
    script, replies, written = b"", [], b""
    for line, reply in lines:
        replies += [written] * (len(line) + 1)
        script += line.encode() + b"\n"
        written += reply.encode() + b"\n" if reply else b""
    return script, [*replies, written]


class Faults:
    def __init__(self, runs, name, status, lines):
        self.runs, self.name, self.count = runs, name, 0
        self.script, self.replies = texts(lines)
        self.plain = (status, self.replies[-1], b"")

    def check(self, is_right, calls, got):
        if not is_right:
            self.count += 1
            print(f"{self.name}, {calls}: status {got[0]}, output {got[1]!r}, standard error {got[2]!r}")

    def run(self, wanted=None, **calls):
        """A run, which is compared with what is wanted."""
        got = self.runs.run(self.script, **calls)
        if wanted is not None:
            self.check(got[:3] == wanted, calls, got)
        return got

    def allocations(self):
        plain = self.run(self.plain)
        count = plain[3][0]
        self.check(count > 0, "no allocation was seen", plain)
        unnoticed = 0
        for k in range(1, count + 2):
            got = self.run(REFUSE_ALLOCATION=k)
            has_ended = got[0] == NO_MEMORY and self.plain[1].startswith(got[1]) and got[2] == COMPLAINTS[NO_MEMORY]
            self.check(has_ended or got[:3] == self.plain, {"REFUSE_ALLOCATION": k}, got)
            unnoticed += k <= count and not has_ended
        return count, unnoticed

    def reads(self):
        for k in range(1, len(self.script) + 2):
            self.run((READ_FAULT, self.replies[k - 1], COMPLAINTS[READ_FAULT]), READ_PIECE=1, FAIL_READ=k)
        return k

    def writes(self):
        for k in range(1, len(self.plain[1]) + 1):
            self.run((WRITE_FAULT, self.plain[1][: k - 1], COMPLAINTS[WRITE_FAULT]), WRITE_PIECE=1, FAIL_WRITE=k)
        return k

    def pieces(self):
        for n in range(1, 8):
            self.run(self.plain, READ_PIECE=n, WRITE_PIECE=8 - n)


def main(words):
    program = words[0] if words else os.path.join(TOP, "crates", "lie_cli", "out", "lie_cli")
    if not words and subprocess.run([os.path.join(TOP, "prove")]).returncode != 0:
        return 70
    total = 0
    with tempfile.TemporaryDirectory() as room:
        runs = Runs(os.path.abspath(program), room)
        for name, (status, lines) in SCRIPTS.items():
            faults = Faults(runs, name, status, lines)
            count, unnoticed = faults.allocations()
            faults.pieces()
            print(f"{name}: {count} allocations, of which {unnoticed} change nothing; {faults.reads()} reads, {faults.writes()} writes; {faults.count} faults")
            total += faults.count
    return 1 if total else 0


if __name__ == "__main__":
    sys.exit(main(sys.argv[1:]))
