"""What the parts of the driver share: a call of the program, the judge of its answer, and a folder to try it on."""

import functools
import multiprocessing
import os
import re
import shutil
import subprocess
import tempfile
import time

# After so many seconds a call is taken for one that does not return.
HANG = 600
REFUSALS = b"BadUtf8 BadToken TooDeep Syntax Unknown Repeated Mismatch Impure NoReturn TooMany".split()
TRAPS = b"DivZero Overflow EmptyMin ApplyFail WhenFail ReadFail Assert".split()
STATUSES = {
    "check": {0, 3}, "list": {0, 3}, "eval": {0, 1, 3, 4}, "run": {0, 1, 3, 4, 5}, "init": {0, 3, 5},
    "dump": {0, 5}, "checkpoint": {0, 5}, "widen": {0, 3, 5}, "drill": {0}, "pack": {0, 3},
}
# The words of the commands that not every program has, with a folder D and a file F.
FORMS = {
    "import": ["import", "D", "R", "F"], "export": ["export", "D", "R"], "guard": ["guard", "D", "1", "F", "F"],
    "weave": ["weave", "D", "1", "1", "F"], "pack": ["pack", "F"], "exec": ["exec", "1", "F"],
}


class Wrong(Exception):
    """An answer that no table has."""


def call(program, words, **more):
    """Runs the program, and gives what it prints, what it complains of, and its status (negative for a signal)."""
    if "input" not in more:
        more["stdin"] = subprocess.DEVNULL
    try:
        done = subprocess.run([program, *words], capture_output=True, timeout=HANG, close_fds=False, **more)
    except subprocess.TimeoutExpired:
        return b"", b"", "hang"
    return done.stdout, done.stderr, done.returncode


def last_line(text):
    return text[:-1].rsplit(b"\n", 1)[-1] if text.endswith(b"\n") else b""


def judge(command, size, text, complaint, status):
    """Whether the answer to a command, over a script of this size, is one that the tables have."""
    if status not in STATUSES[command]:
        return f"status {status}"
    if complaint:
        return f"it wrote {complaint[:200]!r} to standard error"
    line = last_line(text)
    if status == 3:
        found = re.fullmatch(rb"refused (\w+) at (\d+)\n", text)
        if not found or found[1] not in REFUSALS or int(found[2]) > size:
            return f"status 3 with {text[:200]!r}"
    if status == 1:
        found = re.fullmatch(rb"trap (\w+) at (\d+)", line)
        if not found or found[1] not in TRAPS or int(found[2]) >= size:
            return f"status 1 with the last line {line!r}"
    if status == 4 and line != b"turns spent":
        return f"status 4 with the last line {line!r}"
    if status == 5 and not re.fullmatch(
        rb"no database\n|database exists\n|damaged (select|left|right) at \d+\n|(differs|narrows) [^\n]+\n", text
    ):
        return f"status 5 with {text[:200]!r}"
    if command == "check" and status == 0 and text != b"accepted\n":
        return f"status 0 with {text[:200]!r}"
    return None


class Folder:
    """A folder of a database, and a script beside it, in memory where the system has a place for that."""

    def __init__(self):
        self.path = tempfile.mkdtemp(dir="/dev/shm" if os.path.isdir("/dev/shm") else None)
        self.script = os.path.join(self.path, "script")
        self.database = os.path.join(self.path, "d")
        os.mkdir(self.database)

    def __enter__(self):
        return self

    def __exit__(self, *_):
        shutil.rmtree(self.path, ignore_errors=True)

    def write(self, name, data):
        with open(os.path.join(self.path, name), "wb") as file:
            file.write(data)

    def put(self, select, left, right=b""):
        for name, data in (("d/select", select), ("d/left", left), ("d/right", right)):
            self.write(name, data)

    def read(self):
        """The files as they are; a missing one is empty."""
        files = []
        for name in ("select", "left", "right"):
            try:
                with open(os.path.join(self.database, name), "rb") as file:
                    files.append(file.read())
            except FileNotFoundError:
                files.append(b"")
        return files


@functools.lru_cache
def has_command(program, name):
    """Whether the program knows this command."""
    with Folder() as folder:
        folder.write("script", b"")
        places = {"D": folder.database, "F": folder.script}
        return call(program, [places.get(word, word) for word in FORMS[name]])[2] != 2


def in_processes(part, unit, work, arguments, processes):
    """A part in several processes: each calls `work` with its arguments, its number and a queue, into which it puts how
    many went well, and what was wrong or None. Gives how many went well in all."""
    answers, begun = multiprocessing.Queue(), time.monotonic()
    workers = [
        multiprocessing.Process(target=work, args=(*arguments, number, answers)) for number in range(processes)
    ]
    for worker in workers:
        worker.start()
    told = [answers.get() for _ in workers]
    for worker in workers:
        worker.join()
    for _, wrong in told:
        if wrong:
            raise Wrong(f"{part}: {wrong}")
    count = sum(count for count, _ in told)
    print(f"{part}: {count} {unit} in {time.monotonic() - begun:.0f} s", flush=True)
    return count
