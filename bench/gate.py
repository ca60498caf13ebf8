#!/usr/bin/env python3
"""Runs `rt ci` and tells the processor time of each crate: of its proof, its tests, its must-fail edits, and of building and running what is proved.

Four times a second the user and system time of every process below the command is read from /proc, and counted to the crate that its words name. What
no reading saw is the difference to the time that the system counts for the whole run.
"""
import os
import re
import resource
import subprocess
import sys
import time

TOP = os.path.dirname(os.path.dirname(os.path.abspath(__file__)))
PAGE = os.path.join(TOP, "bench", "README.md")
BEGIN, END = "<!-- made by bench/gate.sh -->", "<!-- end -->"
TICKS = os.sysconf("SC_CLK_TCK")
PARTS = ["proof", "tests", "edits", "built and run"]
PAUSE = 0.25


def read(path):
    try:
        with open(path, "rb") as file:
            return file.read()
    except OSError:
        return b""


def processes():
    """Each process: its number, that of its parent, when it began, and its time so far."""
    for name in os.listdir("/proc"):
        if name.isdigit():
            text = read(f"/proc/{name}/stat").decode(errors="replace")
            fields = text.rpartition(")")[2].split()
            if len(fields) > 19:
                yield int(name), int(fields[1]), fields[19], (int(fields[11]) + int(fields[12])) / TICKS


def label(number):
    """The crate and the part that a process works for, or None."""
    words = [it.decode(errors="replace") for it in read(f"/proc/{number}/cmdline").split(b"\0")]
    try:
        folder = os.readlink(f"/proc/{number}/cwd")
    except OSError:
        folder = ""
    if "--crate-name" in words[:-1]:
        crate = words[words.index("--crate-name") + 1]
        if "rt-edit-" in folder:
            return crate, "edits"
        if "--test" in words:
            return crate, "tests"
        return crate, "built and run" if "--crate-checked" in words else "proof"
    for word in words:
        # what is linked in out/, and what is run in a folder of its own
        it = re.search(r"(?:/rt-run-[^/]*/bin/|^out/)(\w+?)(_tests)?(?:\.\w+)*$", word)
        if it:
            return it[1], "tests" if it[2] else "built and run"
    return None


class Watch:
    def __init__(self, root):
        self.root, self.seen = root, {}

    def look(self):
        found = {number: (parent, began, spent) for number, parent, began, spent in processes()}
        children = {}
        for number, (parent, _, _) in found.items():
            children.setdefault(parent, []).append(number)
        todo = [(self.root, None)]
        while todo:
            number, above = todo.pop()
            if number not in found:
                continue
            _, began, spent = found[number]
            mine = label(number) or above
            self.seen[number, began] = (mine, spent)
            todo += [(it, mine) for it in children.get(number, [])]

    def table(self):
        times = {}
        for mine, spent in self.seen.values():
            times[mine] = times.get(mine, 0) + spent
        return times


def order():
    """The crates in the order of crates.txt, lowest first as they are listed there."""
    with open(os.path.join(TOP, "crates.txt"), encoding="utf-8") as file:
        return [line.partition(":")[0].split()[0] for line in file if line.partition("#")[0].strip()]


def page(times, whole, wall, command):
    named = order()
    known = {crate for crate, _ in filter(None, times)}
    rows = [crate for crate in named if crate in known] + sorted(known - set(named))
    at = lambda crate, part: times.get((crate, part), 0)
    cell = lambda seconds: f"{seconds:.0f}" if seconds >= 0.5 else ("" if seconds == 0 else "<1")
    out = [f"| Crate | {' | '.join(PARTS)} | all |", "|---|" + "---:|" * (len(PARTS) + 1)]
    for crate in sorted(rows, key=lambda crate: -sum(at(crate, part) for part in PARTS)):
        out.append(f"| `{crate}` | {' | '.join(cell(at(crate, part)) for part in PARTS)} | {cell(sum(at(crate, part) for part in PARTS))} |")
    seen = sum(times.values())
    out.append(f"| all crates | {' | '.join(cell(sum(at(crate, part) for crate in rows)) for part in PARTS)} | {cell(sum(spent for mine, spent in times.items() if mine))} |")
    out += [
        "",
        f"Processor seconds, user and system, of `{command}` on {os.cpu_count()} processors, {time.strftime('%Y-%m-%d')}: {whole / 60:.1f} processor minutes in all, {wall / 60:.1f} minutes"
        f" by the clock. {times.get(None, 0):.0f} s are of `rt` itself, and {max(0, whole - seen):.0f} s were seen by no reading.",
    ]
    return "\n".join(out) + "\n"


def main(words):
    write = words[:1] == ["--write"]
    command = words[write:] or ["rt", "ci"]
    began = time.time()
    ran = subprocess.Popen(command, cwd=TOP, stdin=subprocess.DEVNULL, stdout=sys.stderr)
    watch = Watch(ran.pid)
    while ran.poll() is None:
        watch.look()
        time.sleep(PAUSE)
    used = resource.getrusage(resource.RUSAGE_CHILDREN)
    text = page(watch.table(), used.ru_utime + used.ru_stime, time.time() - began, " ".join(command))
    print(text, end="")
    if write:
        with open(PAGE, encoding="utf-8") as file:
            before, _, rest = file.read().partition(BEGIN)
        with open(PAGE, "w", encoding="utf-8") as file:
            file.write(f"{before}{BEGIN}\n{text}{END}{rest.partition(END)[2]}")
    return ran.returncode


if __name__ == "__main__":
    sys.exit(main(sys.argv[1:]))
