#!/usr/bin/env python3
"""The blocks of README.md and docs/TOUR.md as sessions: a line with `> ` is one of a script, and the lines below it are the reply. The blocks under one
heading are one session.

    python3 docs/blocks.py               each session stands as a case of crates/test_transcripts, with the same replies
    python3 docs/blocks.py --run ./lie   runs each session, and compares
    python3 docs/blocks.py --add         writes the sessions as such cases, behind the other cases of the crate
    python3 docs/blocks.py --scripts FOLDER    writes the script of each session into a file of the folder
"""
import os
import re
import subprocess
import sys

TOP = os.path.dirname(os.path.dirname(os.path.abspath(__file__)))
CASES = os.path.join(TOP, "crates", "test_transcripts", "stdin")
PAGES = ["README.md", "docs/TOUR.md"]
HEADING = "# The sessions of README.md and of docs/TOUR.md, as docs/blocks.py --add writes them."
# words of lines that have no reply when they are accepted, and of those that have one only as the last of a block
QUIET = ("field", "datum", "root", "coroot", "reduce")
LAST = ("row", "weight", "entry")
STATUS = ["Done", "Refused", "Usage", "LoadRefused"]


class Session:
    def __init__(self, page, title):
        self.page, self.title, self.steps = page, title, []

    def script(self):
        return [line for line, _ in self.steps]

    def replies(self):
        return [line for _, lines in self.steps for line in lines]

    def status(self):
        told = [lines[0] for _, lines in self.steps if lines]
        loaded = next((k for k, line in enumerate(told) if line.startswith("loaded ")), None)
        if loaded is None:
            return "LoadRefused"
        return "Refused" if any(line.startswith("refused ") for line in told[loaded:]) else "Done"

    def faults(self):
        """Lines that have a reply where none can be, or none where one must be."""
        for line, lines in self.steps:
            word = line.split(" ")[0]
            is_table = word == "module" and line.split()[2:3] == ["table"]
            is_quiet = word in QUIET or is_table or not line.strip() or line.startswith("#")
            if word not in LAST and bool(lines) == is_quiet and not (is_quiet and lines[0].startswith("refused ")):
                yield f"{self.page}, {self.title}: {line}"

    def case(self):
        lines = [f"case {self.name()}", *(f"> {line}" for line in self.script()), *(f"< {line}" for line in self.replies())]
        return "\n".join([*lines, f"status {self.status()}"]) + "\n"

    def name(self):
        return f"{os.path.basename(self.page)[:-3]}, {self.title}"


def sessions():
    found = []
    for page in PAGES:
        session, in_block = None, False
        for line in open(os.path.join(TOP, page), encoding="utf-8").read().splitlines():
            if line.startswith("```"):
                in_block = not in_block and line == "```text"
            elif in_block and line.startswith("> "):
                session.steps.append((line[2:], []))
            elif in_block and session.steps:
                session.steps[-1][1].append(line)
            elif not in_block and line.startswith("#"):
                session = Session(page, line.lstrip("# "))
                found.append(session)
    return [it for it in found if it.steps]


def stored():
    """The cases of the crate that replays transcripts: script lines, replies, status."""
    if not os.path.exists(CASES):
        return []
    scripts, cases = {}, []
    for paragraph in open(CASES, encoding="utf-8").read().split("\n\n"):
        head, *lines = paragraph.strip("\n").split("\n")
        kind, _, name = head.partition(" ")
        script, replies, status, is_plain = [], [], None, True
        for line in lines:
            key, _, rest = line.partition(" ")
            if key == "from":
                script += scripts.get(rest, [])
            elif key == ">":
                script.append(rest)
            elif key == "<":
                replies.append(rest)
            elif key == "status":
                status = rest
            else:
                is_plain = False
        if kind == "script":
            scripts[name] = script
        elif kind == "case" and is_plain:
            cases.append((script, replies, status))
    return cases


def main(words):
    all_sessions, faults = sessions(), []
    for it in all_sessions:
        faults += [f"a reply is missing, or stands where none can be: {fault}" for fault in it.faults()]
    if words[:1] == ["--add"]:
        for path in (CASES, os.path.join(os.path.dirname(CASES), "stdout")):
            others = open(path, encoding="utf-8").read().partition(HEADING)[0].rstrip("\n")
            with open(path, "w", encoding="utf-8") as file:
                file.write("\n\n".join([f"{others}\n", HEADING, *(it.case().rstrip("\n") for it in all_sessions)]) + "\n")
    elif words[:1] == ["--scripts"]:
        for it in all_sessions:
            name = re.sub(r"\W+", "_", it.name())
            with open(os.path.join(words[1], name), "w", encoding="utf-8") as file:
                file.write("\n".join(it.script()) + "\n")
            with open(os.path.join(words[1], name + ".wanted"), "w", encoding="utf-8") as file:
                file.write("".join(line + "\n" for line in it.replies()))
    elif words[:1] == ["--run"]:
        for it in all_sessions:
            ran = subprocess.run([*words[1:], "run"], input="\n".join(it.script()) + "\n", capture_output=True, text=True)
            if ran.stdout.splitlines() != it.replies():
                faults.append(f"{it.name()}: the program replies otherwise:\n{ran.stdout}")
            if ran.returncode != STATUS.index(it.status()):
                faults.append(f"{it.name()}: the program ends with status {ran.returncode}")
    else:
        cases = stored()
        for it in all_sessions:
            if (it.script(), it.replies(), it.status()) not in cases:
                faults.append(f"{it.name()}: no case of crates/test_transcripts has these lines and replies")
    for it in faults:
        print(it, file=sys.stderr)
    print(f"{len(all_sessions)} sessions, {len(faults)} faults")
    return 1 if faults else 0


if __name__ == "__main__":
    sys.exit(main(sys.argv[1:]))
