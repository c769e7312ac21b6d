"""The rows of bin/measure, and the programs that have them."""
import pathlib
import subprocess

# The columns of the page in their order, and the channel that the others are compared with.
COLUMNS = ("unlocked", "handles", "original", "tokio", "crossbeam")
BASE = "original"

# Senders, receivers, and messages of each sender.
THREADS = ("1 1 20000", "2 3 4000", "4 4 1000", "16 16 50", "64 64 10")
# What is timed with them, and its heading: a channel of 16 messages, or one that keeps all, as tokio's does in both.
KINDS = {"threads": "Threads, of which tokio's senders don't wait",
         "room": "Threads, with room for all messages: no sender waits"}


class Row:
    """A loop of calls, as a line of the file `rows` has it."""

    def __init__(self, line, heading):
        """A line without its end, and the heading over it."""
        title, operations, *name = (part.strip() for part in line.split("|"))
        self.title, self.operations, self.name, self.heading = title, int(operations), "".join(name), heading


class Program:
    """A command that has rows of one column, perhaps with a word before each title."""

    def __init__(self, column, command, before=""):
        """The command is a list of words."""
        self.column, self.command, self.before = column, command, before

    def has(self, row):
        """Whether it knows the row."""
        return bool(self.printed("repeat", "0", self.before + row.title))

    def printed(self, *words):
        """What it prints, which ends with status 0."""
        run = subprocess.run([*self.command, *words], capture_output=True, text=True)
        if run.returncode:
            raise SystemExit(f"{' '.join(self.command)} {' '.join(words)}: {run.stderr.strip()}")
        return run.stdout


def read():
    """All rows."""
    found, heading = [], ""
    for line in (pathlib.Path(__file__).parent / "rows").read_text().splitlines():
        if line.startswith("## "):
            heading = line.removeprefix("## ")
        elif not line.startswith("#"):
            found.append(Row(line, heading))
    return found


def programs(timings, peers, unlocked=None):
    """All programs: the port's `timings`, `peers`, and `peers` that is linked with the port."""
    found = []
    if timings:
        found.append(Program("unlocked", [timings], "unlocked: "))
    if unlocked:
        found.append(Program("unlocked", [unlocked, "unlocked"]))
    if timings:
        found.append(Program("handles", [timings]))
    return [*found, *(Program(name, [peers, name]) for name in ("original", "tokio", "crossbeam"))]
