"""A run of a program, watched: what the scripts that measure share.

The program reads what it is given through a pipe that stays open until it has replied. So its processor time and the most memory that
it had are read from /proc while it waits for more. The program is the built one, or the one that PROGRAM in the environment names.
"""
import fcntl
import os
import re
import struct
import subprocess
import termios
import threading
import time
from collections import namedtuple

TOP = os.path.dirname(os.path.dirname(os.path.abspath(__file__)))
PROGRAM = os.environ.get("PROGRAM") or os.path.join(TOP, "crates", "lie_cli", "out", "lie_cli")

# seconds of the processor and by the clock, the most memory in MiB, the last line of the output and the number of its lines
Run = namedtuple("Run", "processor clock memory last lines")


def fields(path):
    with open(path, encoding="ascii") as file:
        return file.read()


def processor(process):
    """The processor time so far, in seconds."""
    try:
        return int(fields(f"/proc/{process.pid}/schedstat").split()[0]) / 1e9
    except (OSError, ValueError, IndexError):
        user, system = fields(f"/proc/{process.pid}/stat").rpartition(")")[2].split()[11:13]
        return (int(user) + int(system)) / os.sysconf("SC_CLK_TCK")


def memory(process):
    """The most memory that was resident so far, in MiB."""
    (line,) = [line for line in fields(f"/proc/{process.pid}/status").splitlines() if line.startswith("VmHWM:")]
    return int(line.split()[1]) / 1024


def watched(script, replies):
    """A run on the bytes of a script that brings so many lines of output, up to the last of them."""
    process = subprocess.Popen([PROGRAM, "run"], stdin=subprocess.PIPE, stdout=subprocess.PIPE)
    began = time.perf_counter()

    def give():
        try:
            process.stdin.write(script)
            process.stdin.flush()
        except BrokenPipeError:
            pass

    giver = threading.Thread(target=give)
    giver.start()
    count, last = 0, b""
    while count < replies:
        piece = process.stdout.read1(1 << 16)
        if not piece:
            raise SystemExit("the program ended after %d of %d lines, and last said %r" % (count, replies, last))
        count += piece.count(b"\n")
        last = (last + piece)[-4096:]
    giver.join()
    found = Run(processor(process), time.perf_counter() - began, memory(process), last.decode().splitlines()[-1], count)
    process.stdin.close()
    process.stdout.read()
    process.wait()
    return found


def least(script, replies, times=3):
    """The run with the least processor time of so many."""
    return min((watched(script, replies) for _ in range(times)), key=lambda run: run.processor)


class Session:
    """A run of any program that reads its standard input as it comes. What it writes is dropped.

    With a folder, it runs under valgrind, and its cost is the number of its instructions; else it is its processor time in seconds.
    """

    def __init__(self, command, folder=None):
        self.folder = folder
        if folder is not None:
            # a launcher may be a script that becomes the program
            options = ["--instr-atstart=no", "--trace-children=yes", f"--callgrind-out-file={folder}/out.%p", f"--vgdb-prefix={folder}/vgdb"]
            command = ["valgrind", "--tool=callgrind", "--quiet", *options, *command]
        self.command = command
        self.process = subprocess.Popen(command, stdin=subprocess.PIPE, stdout=subprocess.DEVNULL)

    def give(self, lines):
        """Gives it lines, and waits until it has read all of them and waits for more."""
        try:
            self.process.stdin.write(lines)
            self.process.stdin.flush()
        except BrokenPipeError:
            pass
        before, pause = None, 0.001
        while True:
            if self.process.poll() is not None:
                raise SystemExit(f"{' '.join(self.command)} ended with {self.process.returncode} before the end of its input")
            (unread,) = struct.unpack("i", fcntl.ioctl(self.process.stdin, termios.FIONREAD, bytes(4)))
            state = fields(f"/proc/{self.process.pid}/stat").rpartition(")")[2].split()[0]
            now = processor(self.process)
            if unread == 0 and state == "S" and now == before:
                return
            before, pause = now, min(2 * pause, 0.1)
            time.sleep(pause)

    def ask(self, *words):
        """What valgrind replies, while the program waits."""
        command = ["vgdb", f"--vgdb-prefix={self.folder}/vgdb", f"--pid={self.process.pid}", *words]
        return subprocess.run(command, check=True, stdout=subprocess.PIPE, stderr=subprocess.DEVNULL, text=True).stdout

    def cost(self, lines):
        """What it costs to read and obey lines."""
        if self.folder is None:
            before = processor(self.process)
            self.give(lines)
            return processor(self.process) - before
        self.ask("instrumentation", "on")
        self.ask("zero")
        self.give(lines)
        found = re.search(r"^events-1: (\d+)$", self.ask("status", "internal"), re.M)
        self.ask("instrumentation", "off")
        return int(found[1])

    def end(self):
        """Ends its input. A program that tells of a fault, by its status, measures nothing."""
        self.process.stdin.close()
        if self.process.wait() != 0:
            raise SystemExit(f"{' '.join(self.command)} ended with {self.process.returncode}")
