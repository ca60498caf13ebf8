"""A region of the transcripts: cases that a script makes, in both files of crates/test_transcripts, which are alike."""
import os
import sys

CRATE = os.path.join(os.path.dirname(os.path.abspath(__file__)), "..", "crates", "test_transcripts")


def files(block, first, behind):
    """Both files, each with what it is with these cases: from the line `first` on, and before the line `behind`."""
    for end in ("stdin", "stdout"):
        path = os.path.join(CRATE, end)
        with open(path, encoding="ascii") as file:
            stored = file.read()
        before, mark, last = stored.partition(behind)
        assert mark
        before = before.partition(first)[0].rstrip("\n") + "\n"
        yield path, stored, "\n\n".join([before, block, mark + last])


def add(block, first, behind):
    """Writes the cases into both files."""
    for path, _, wanted in list(files(block, first, behind)):
        with open(path, "w", encoding="ascii") as file:
            file.write(wanted)


def check(block, first, behind):
    """Tells which file doesn't have these cases."""
    other = [path for path, stored, wanted in files(block, first, behind) if stored != wanted]
    print("\n".join(other) or "both files have these cases")
    return bool(other)


def main(transcripts, first, behind):
    """The command line of a script: `--add`, `--check`, or else the cases are printed."""
    if sys.argv[1:] == ["--check"]:
        sys.exit(check(transcripts(), first, behind))
    if sys.argv[1:] == ["--add"]:
        add(transcripts(), first, behind)
    else:
        print(transcripts(), end="")
