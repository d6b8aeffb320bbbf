#!/usr/bin/env python3
"""Makes calls of the built program on files fail, and stops the power, and looks at what it answers and what is left.

    bench/faults.py PROGRAM [--processes N] [--seed N] [--only PART] [--chains N]

It stops at the first answer that is not allowed. Its parts:
  calls    each call of `init`, a run of five commits, `checkpoint`, `widen`, `import`, `export`, a guarded run, a weave of
           four scripts and `dump` failing alone with EIO and with ENOSPC, interrupted, short, and as the program's end before and behind it; then
           losses of power, and what further commands find, where all calls go well again
  power    at each call of these commands a loss of power, with `dump` of what may be left
  streams  closed and full standard streams, and a limit on the length of files
  chains   random commands with such failures and losses of power, one after the other

A database's state is the set of its rows; each commit puts in one row that no other has. What may be found is the rows of
the commits that were acknowledged, or these and the next one. The disk of a loss of power is that of bench/disk.py. A
command that the program doesn't have is left out.
"""

import argparse
import os
import random
import resource
import shutil
import signal
import subprocess
import sys

from common import FORMS, Folder, Wrong, call, has_command, in_processes
from disk import INTERRUPTED, NAMES, Disk

BENCH = os.path.dirname(os.path.abspath(__file__))
UNREAD = b"script unread\n"
KILLED = -signal.SIGKILL
RELATION = b"relation R(a int, b text);\n"
# The commands that put rows in.
FILLING = ("run", "guard", "weave", "import")
# Rows with long texts, put in by one commit, so that a half has several pages.
MANY = frozenset(range(10000, 10060))


class Answer:
    """What a command prints, over a database with some state, and its status; and the states that it stores, each before the
    first of its so many lines is printed."""

    def __init__(self, text, status, states, lines=1):
        self.text, self.status, self.states, self.lines = text, status, states, lines

    def behind(self, printed):
        """The states that may be there where so many lines were printed."""
        return self.states[-(-printed // self.lines) :][:2] if len(self.states) > 1 else self.states

    def left_by(self, text, status):
        """The states that may be left where the command answered so, or none where it may not answer so."""
        if (text, status) == (self.text, self.status):
            return self.states[-1:]
        if status == 7 and text == UNREAD:
            return self.states[:1]
        if status in (6, 8, 9, KILLED) and self.text.startswith(text):
            return self.behind(text.count(b"\n"))
        return []


def text_of(row):
    return b"x" * 200 if row in MANY else b""


def dump_text(state):
    rows = b"".join(b'[%d, "%s"]\n' % (row, text_of(row)) for row in sorted(state))
    return RELATION + b"rows %d\n" % len(state) + rows


def script_of(rows):
    """A script that commits each of these rows, or sets of rows, one after the other."""
    text = b""
    for some in rows:
        atoms = b"; ".join(b'apply {+R(%d, "%s")}' % (row, text_of(row)) for row in sorted(some))
        text += atoms + b"; commit;\n"
    return RELATION + b"main {\n" + text + b"}\n"


def file_of(rows):
    """A file of comma-separated values with these rows."""
    return b"a,b\n" + b"".join(b"%d,%s\n" % (row, text_of(row)) for row in sorted(rows))


def wanted(command, state, rows=()):
    """The answer of a command to a database with this state, where nothing fails."""
    if command == "init":
        if state is None:
            return Answer(b"created\n", 0, [None, frozenset()])
        return Answer(b"database exists\n", 5, [state])
    if state is None:
        return Answer(b"no database\n", 5, [None])
    states = [state.union(*rows[:count]) for count in range(len(rows) + 1)]
    if command in ("run", "guard"):
        return Answer(b"".join(b"commit %d\n" % (n + 1) for n in range(len(rows))), 0, states)
    if command == "weave":
        told = b"".join(b"session %d\ncommit 1\n" % n for n in range(len(rows)))
        return Answer(told or b"session 0\n", 0, states, 2)
    if command == "import":
        some = frozenset().union(*rows)
        return Answer(b"imported %d\n" % len(some), 0, [state, state | some])
    if command == "export":
        return Answer(file_of(state), 0, [state])
    # The script's relations are those of the database.
    lines = {"checkpoint": b"checkpointed\n", "widen": b"widened\n"}
    return Answer(lines.get(command) or dump_text(state), 0, [state])


class Box(Folder):
    """A folder for databases and scripts, and the library before the program's calls."""

    def __init__(self, program, library):
        super().__init__()
        self.program, self.library = program, library
        self.folder = os.path.join(self.path, "up", "d")
        self.image = os.path.join(self.path, "image")
        self.log = os.path.join(self.path, "log")
        self.file, self.rules = os.path.join(self.path, "file"), os.path.join(self.path, "rules")
        self.woven = []
        self.made = 0
        self.has = {name: has_command(program, name) for name in FORMS}
        os.mkdir(self.image)
        self.write("script", script_of([]))
        # Lines of guards that no row breaks: there are none.
        self.write("rules", b"// no lines\n")

    def words(self, command, folder):
        words = {name: [name, folder, self.script] for name in ("init", "widen")}
        words["run"] = ["run", folder, "100000", self.script]
        words["guard"] = ["guard", folder, "100000", self.rules, self.script]
        words["weave"] = ["weave", folder, "100000", "0", *self.woven]
        words["import"] = ["import", folder, "R", self.file]
        words["export"] = ["export", folder, "R"]
        return words.get(command, [command, folder])

    def prepare(self, command, rows):
        """Writes the script or the file from which a command takes these rows."""
        if command in ("run", "guard"):
            self.write("script", script_of(rows))
        if command == "weave":
            # A script for each commit, which run one after the other; without one, a script that commits nothing.
            pieces = [[some] for some in rows] or [[]]
            self.woven = [os.path.join(self.path, f"woven{place}") for place in range(len(pieces))]
            for place, piece in enumerate(pieces):
                self.write(f"woven{place}", script_of(piece))
        if command == "import":
            self.write("file", file_of(frozenset().union(*rows)))

    def fill(self, folder, data):
        """Puts files into the folder, and takes away those that are missing."""
        os.makedirs(folder, exist_ok=True)
        for name in NAMES:
            path = os.path.join(folder, name)
            if data.get(name) is not None:
                with open(path, "wb") as file:
                    file.write(data[name])
            elif os.path.exists(path):
                os.unlink(path)

    def data(self):
        """The files of the folder."""
        found = {}
        for name in NAMES:
            path = os.path.join(self.folder, name)
            if os.path.exists(path):
                with open(path, "rb") as file:
                    found[name] = file.read()
        return found

    def clear(self):
        """Takes the folder away, and the one above it."""
        shutil.rmtree(os.path.dirname(self.folder), ignore_errors=True)

    def ask(self, command, rows=(), plan="", **more):
        """Calls the program with a plan of failures, and gives its answer and the lines of its calls."""
        self.prepare(command, rows)
        if os.path.exists(self.log):
            os.unlink(self.log)
        environment = {"LD_PRELOAD": self.library, "FAULTS": plan, "FAULTS_LOG": self.log}
        text, complaint, status = call(self.program, self.words(command, self.folder), env=environment, **more)
        self.made += 1
        if complaint:
            raise Wrong(f"{command} with {plan} wrote {complaint[:200]!r} to standard error")
        with open(self.log) as file:
            return text, status, file.read().splitlines()

    def look(self, data, states, what):
        """What `dump` finds of such files is one of these states."""
        self.fill(self.image, data)
        text, complaint, status = call(self.program, ["dump", self.image])
        self.made += 1
        for state in states:
            answer = wanted("dump", state)
            if (text, status, complaint) == (answer.text, answer.status, b""):
                return
        held = {name: piece and piece.hex()[:200] for name, piece in data.items()}
        raise Wrong(f"{what}: dump found {text[:200]!r} {status}, of {held}, where {len(states)} states may be")


class Session:
    """Commands one after the other on one folder, with the disk under it and the states that may be there."""

    def __init__(self, box, draw, states, data=None):
        self.box, self.draw, self.states = box, draw, states
        self.told, self.story = [], []
        box.clear()
        if data is not None:
            box.fill(box.folder, data)
        self.disk = Disk(box.folder, data or {})

    def do(self, command, rows=(), plan="", **more):
        """One command. Its answer is one that some state that may be there explains, and then tells what may be left."""
        plan = ",".join([name + ":EIO" for name in self.told] + [plan] * bool(plan))
        self.story.append(f"{command} {plan}".strip())
        text, status, lines = self.box.ask(command, rows, plan, **more)
        for line in lines:
            self.follow(line)
        self.disk.end_process()
        left = []
        for state in self.states:
            left += wanted(command, state, rows).left_by(text, status)
        if not left:
            raise Wrong(f"{self.story} answered {text[:200]!r} {status}")
        self.states = list(dict.fromkeys(left))
        return text, status, lines

    def follow(self, line):
        self.disk.follow(line)
        name, descriptor, answer = line.split(" ")[:3]
        path = os.path.basename(self.disk.opened.get(int(descriptor), ""))
        if name == "fsync" and int(answer) not in (0, INTERRUPTED) and path in self.told:
            self.told.remove(path)

    def lose_power(self, most):
        """Looks at what a loss of power may leave."""
        for data in self.disk.images(self.draw, most):
            self.box.look(data, self.states, f"a loss of power behind {self.story}")

    def begin_again(self):
        """Goes on over one of the things that a loss of power may leave."""
        data = self.draw.choice(list(self.disk.images(self.draw, 8)))
        self.story.append("loss of power")
        self.told = []
        self.box.clear()
        if any(piece is not None for piece in data.values()):
            self.box.fill(self.box.folder, data)
        self.disk = Disk(self.box.folder, data)

    def lose_behind(self):
        """The system fails to write what is dirty, and tells the next one who syncs."""
        self.told = sorted(set(self.told) | set(self.disk.lose_behind()))


FIVE = [frozenset([row]) for row in range(1, 6)]


def commands(box):
    """Each command that is tried: its name, its rows, the state before it and the files before it."""
    session = Session(box, random.Random(0), [None])
    found = [("init", (), None, None), ("init", (), None, {}), ("init", (), None, {"left": b"", "select": b""})]
    session.do("init")
    empty = box.data()
    session.do("run", [MANY])
    wide = box.data()
    session.do("run", FIVE[:1])
    session.do("checkpoint")
    moved = box.data()
    state = MANY | FIVE[0]
    found += [("init", (), state, moved), ("run", FIVE, frozenset(), empty), ("run", FIVE[1:], state, moved)]
    for rest, files in ((MANY, wide), (state, moved)):
        found += [(command, (), rest, files) for command in ("checkpoint", "widen", "dump")]
        more = [("import", FIVE[1:], rest, files), ("export", (), rest, files)]
        more += [(command, FIVE[1:], rest, files) for command in ("guard", "weave")]
        found += [case for case in more if box.has[case[0]]]
    return found


def plans(lines):
    """Each failure of each of these calls."""
    for number, line in enumerate(lines, 1):
        name = line.split(" ")[0]
        fates = ["EIO", "ENOSPC", "EINTR", "before", "behind"]
        fates += ["short"] * (name in ("read", "write")) + ["part"] * (name == "write")
        for fate in fates:
            yield number, f"{number}:{fate}"
        if name == "fsync":
            yield number, f"{number}+:EIO"


def blame(box, clean, number):
    """The statuses that may come of a failure of this call alone."""
    text, status, lines = clean
    disk = Disk(box.folder, {})
    for line in lines[: number - 1]:
        disk.follow(line)
    name, descriptor, _, _, payload = lines[number - 1].split(" ")
    path = bytes.fromhex(payload).decode() if name in ("open", "mkdir") else disk.opened.get(int(descriptor), "")
    if name in ("close", "mkdir"):
        return {status, 6}
    if number == 1:
        return {status, 8}
    if descriptor == "1":
        return {8}
    return {7} if path in (box.script, box.file, box.rules, *box.woven) else {6}


def try_call(box, draw, case, plan, clean, number):
    """A failure of one call, losses of power behind it, and further commands."""
    command, rows, state, data = case
    session = Session(box, draw, [state], data)
    text, status, _ = session.do(command, rows, plan)
    fate = plan.split(":")[1]
    if fate in ("EINTR", "short") and (text, status) != clean[:2]:
        raise Wrong(f"{session.story}: {text[:200]!r} {status} in place of {clean[:2]}")
    if fate in ("EIO", "ENOSPC") and status not in blame(box, clean, number):
        raise Wrong(f"{session.story}: status {status}")
    session.lose_power(3)
    session.do("dump")
    session.lose_power(2)
    if session.states == [None]:
        session.do("init")
    session.do("run", [frozenset([77])])
    session.lose_power(2)


def try_calls(box, options, number, processes):
    """Each failure of each call of each command."""
    for place, case in enumerate(commands(box)):
        command, rows, state, data = case
        clean = Session(box, random.Random(0), [state], data).do(command, rows)
        for count, (at, plan) in enumerate(plans(clean[2])):
            if count % processes == number:
                try_call(box, random.Random(f"{options.seed} {place} {plan}"), case, plan, clean, at)


def try_power(box, options, number, processes):
    """A loss of power behind each call of each command."""
    for place, (command, rows, state, data) in enumerate(commands(box)):
        session = Session(box, random.Random(0), [state], data)
        text, status, lines = session.do(command, rows)
        answer, printed = wanted(command, state, rows), 0
        disk = Disk(box.folder, data or {})
        for count, line in enumerate(lines):
            disk.follow(line)
            name, descriptor, _, _, payload = line.split(" ")
            if name == "write" and descriptor == "1":
                printed += bytes.fromhex(payload).count(b"\n")
            if count % processes != number:
                continue
            states = answer.behind(printed)
            draw = random.Random(f"{options.seed} {place} {count}")
            for image in disk.images(draw, 40):
                box.look(image, states, f"a loss of power behind call {count + 1} of {command}")


def closing(closed):
    """Closes these standard streams of a process that begins."""

    def close():
        for descriptor in closed:
            os.close(descriptor)

    return close


def limiting(length):
    """Lets files of a process that begins grow to this length alone, and no signal come where one would pass it."""

    def limit():
        signal.signal(signal.SIGXFSZ, signal.SIG_IGN)
        resource.setrlimit(resource.RLIMIT_FSIZE, (length, length))

    return limit


def try_stream(box, case, what, **more):
    """A command with standard streams of this kind, or such a limit, and what it leaves."""
    command, rows, state, data = case
    session = Session(box, random.Random(0), [state], data)
    box.prepare(command, rows)
    streams = {"stdin": subprocess.DEVNULL, "stdout": subprocess.PIPE, "stderr": subprocess.PIPE, **more}
    done = subprocess.run([box.program, *box.words(command, box.folder)], **streams)
    text, status = done.stdout or b"", done.returncode
    box.made += 1
    states = wanted(command, state, rows).left_by(text, status)
    if not states or done.stderr:
        raise Wrong(f"{command} with {what}: {text[:200]!r} {status}")
    for name, piece in box.data().items():
        if len(piece) > 1 and name == "select":
            raise Wrong(f"{command} with {what} left {piece[:200]!r} in select")
    box.look(box.data(), states, f"{command} with {what}")
    return status


def try_streams(box, options, number, processes):
    """Closed and full standard streams, and limits on the length of files."""
    for place, case in enumerate(commands(box)):
        if place % processes != number:
            continue
        for closed in ([0], [1], [2], [0, 1], [0, 2], [1, 2], [0, 1, 2]):
            streams = {"preexec_fn": closing(closed)}
            status = try_stream(box, case, f"closed {closed}", **streams)
            if (status == 8) != (1 in closed):
                raise Wrong(f"{case[0]} with closed {closed}: status {status}")
        with open("/dev/full", "wb") as full:
            if try_stream(box, case, "a full output", stdout=full) != 8:
                raise Wrong(f"{case[0]} with a full output")
        for length in (0, 1, 20, 30, 43, 60, 100, 8191, 8192, 20000):
            try_stream(box, case, f"a limit of {length}", preexec_fn=limiting(length))


def random_plan(draw):
    fate = draw.choice(["EIO", "EIO+", "ENOSPC", "EINTR", "short", "part", "before", "behind"])
    return f"{draw.randint(1, 60)}{'+' * fate.count('+')}:{fate.strip('+')}"


def try_chain(box, draw):
    """Random commands on one folder, with failures and losses of power."""
    session, row = Session(box, draw, [None]), 0
    known = ["init", "run", "run", "run", "checkpoint", "widen", "dump"]
    known += [name for name in ("import", "import", "export", "guard", "weave") if box.has[name]]
    for _ in range(draw.randint(4, 10)):
        command = draw.choice(known)
        rows = []
        for _ in range(draw.randint(0, 4) if command in FILLING else 0):
            rows.append(frozenset(range(row, row + draw.choice([1, 1, 2, 30]))))
            row = max(rows[-1]) + 1
        session.do(command, rows, random_plan(draw) if draw.random() < 0.6 else "")
        if draw.random() < 0.2:
            session.lose_power(2)
        if draw.random() < 0.2:
            session.begin_again()
        elif draw.random() < 0.3:
            session.lose_behind()
    while session.told:
        session.do("dump")
    session.do("dump")
    session.lose_power(3)


def try_chains(box, options, number, processes):
    for chain in range(number, options.chains, processes):
        try:
            try_chain(box, random.Random(f"{options.seed} {chain}"))
        except Wrong as wrong:
            raise Wrong(f"chain {chain}: {wrong}")


PARTS = {"calls": try_calls, "power": try_power, "streams": try_streams, "chains": try_chains}


def work(part, options, library, number, answers):
    """One process of a part."""
    signal.signal(signal.SIGINT, signal.SIG_IGN)
    with Box(options.program, library) as box:
        try:
            PARTS[part](box, options, number, options.processes)
            answers.put((box.made, None))
        except Exception as wrong:
            answers.put((box.made, str(wrong) or repr(wrong)))


def run_part(part, options, library):
    """A part in several processes. Gives how many answers of the program were right."""
    return in_processes(part, "answers", work, (part, options, library), options.processes)


def main():
    parser = argparse.ArgumentParser()
    parser.add_argument("program")
    parser.add_argument("--processes", type=int, default=4)
    parser.add_argument("--seed", default="1")
    parser.add_argument("--only", choices=PARTS)
    parser.add_argument("--chains", type=int, default=1000)
    options = parser.parse_args()
    options.program = os.path.abspath(options.program)
    with Folder() as room:
        library = os.path.join(room.path, "faults.so")
        source = os.path.join(BENCH, "faults.c")
        subprocess.run(["gcc", "-O2", "-shared", "-fPIC", "-o", library, source], check=True)
        try:
            made = sum(run_part(part, options, library) for part in PARTS if options.only in (None, part))
        except Wrong as wrong:
            print(f"WRONG: {str(wrong)[:2000]}")
            return 1
    print(f"{made} answers, each as it may be")
    return 0


if __name__ == "__main__":
    sys.exit(main())
