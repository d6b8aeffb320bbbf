#!/usr/bin/env python3
"""Times built programs of hera beside CPython 3, and prints a table.

    bench/run.py [--times N] [--only WORD] [--stored] PROGRAM [PROGRAM ..]

A time is the processor time (user and system) of a whole process in seconds, the best of five. From a loop's time the
time of an empty script is taken, and from that of a walk over rows the time of the script that only makes the rows, for
CPython as for hera. `x` is the time over CPython's. `--stored` also makes a folder of 1,000,000 rows, asks
over it, writes it anew and widens it; and one of 20,000 rows with text keys, in which it seeks.
"""

import argparse
import os
import random
import shutil
import subprocess
import sys
import tempfile

HERE = os.path.dirname(os.path.abspath(__file__))
SCRIPTS = os.path.join(HERE, "scripts")
TURNS = "1000000000"


def once(words):
    """The processor time of a process in seconds, its peak memory in MB, its status and its output."""
    process = subprocess.Popen(words, stdout=subprocess.PIPE, stderr=subprocess.DEVNULL)
    output = process.stdout.read()
    _, status, usage = os.wait4(process.pid, 0)
    process.returncode = os.waitstatus_to_exitcode(status)
    return usage.ru_utime + usage.ru_stime, usage.ru_maxrss / 1024, process.returncode, output.decode(errors="replace")


def best(words, times, statuses=(0,)):
    """The best of some runs: seconds, and the peak memory of that run. None where it ends in another status."""
    runs = []
    for _ in range(times):
        seconds, peak, status, output = once(words)
        if status not in statuses:
            return None
        runs.append((seconds, peak, output))
    return min(runs)


def script(name):
    return os.path.join(SCRIPTS, name)


def hera(program, name, turns=TURNS):
    return [program, "eval", turns, script(name)]


def python(name):
    return [sys.executable, "-I", script(name)]


def less(run, base):
    """A time without that of its base."""
    return None if run is None or base is None else max(run[0] - base[0], 0.0)


def shown(seconds):
    return "-" if seconds is None else f"{seconds:.3f}"


class Bench:
    """A folder with files and databases, the program, and how often and of which rows its times are taken."""

    def __init__(self, program, times, only, folder):
        self.program, self.times, self.only, self.folder = program, times, only, folder

    def at(self, name):
        return os.path.join(self.folder, name)

    def write(self, name, text):
        with open(self.at(name), "w") as target:
            target.write(text)
        return self.at(name)

    def is_wanted(self, title):
        return self.only is None or self.only in title


def beside(title, ours, peers):
    """Prints a line of a table: a peer's seconds and peak, ours, and how many times its time ours is."""
    print(
        f"| {title} | {peers[0]:.3f} s, {peers[1]:.0f} MB | {ours[0]:.3f} s, {ours[1]:.0f} MB | {ours[0] / peers[0]:.2f} |",
        flush=True,
    )


class Table:
    """Rows of figures, a column a program."""

    def __init__(self, programs, times, only):
        self.programs, self.times, self.only = programs, times, only

    def wanted(self, title):
        return self.only is None or self.only in title

    def row(self, title, figures):
        print("| " + " | ".join([title] + figures) + " |", flush=True)

    def beside(self, title, name, base, python_name, python_base):
        """A script beside CPython's, each less its base, in the same run."""
        if not self.wanted(title):
            return
        ours = less(best(python(python_name), self.times), best(python(python_base), self.times))
        figures = [shown(ours)]
        for program in self.programs:
            run, bare = best(hera(program, name), self.times), best(hera(program, base), self.times)
            theirs = less(run, bare)
            ratio = "" if theirs is None or not ours else f" ({theirs / ours:.2f} x)"
            figures.append(shown(theirs) + ratio)
        self.row(title, figures)

    def alone(self, title, words_of, statuses=(0,), times=None):
        """The time and the peak memory of a run of each program."""
        if not self.wanted(title):
            return
        runs = [best(words_of(program), times or self.times, statuses) for program in self.programs]
        self.row(title, [""] + [seconds_and_peak(run) for run in runs])

    def changing(self, title, folders, words):
        """The same of a command that changes its folder: each time over a copy."""
        if not self.wanted(title):
            return
        figures = [""]
        for program in self.programs:
            runs = []
            for _ in range(self.times):
                copy = folders[program] + "_copy"
                shutil.rmtree(copy, ignore_errors=True)
                shutil.copytree(folders[program], copy)
                runs.append(best([program, words[0], copy, *words[1:]], 1))
            figures.append(seconds_and_peak(None if None in runs else min(runs)))
        self.row(title, figures)


def seconds_and_peak(run):
    return "-" if run is None else f"{run[0]:.3f}, {run[1]:.0f} MB"


def drill(table, folder, n):
    """The drill's script for n rows."""
    with open(script("drill.hera")) as source:
        text = source.read().replace("N", str(n))
    path = os.path.join(folder, f"drill_{n}.hera")
    with open(path, "w") as target:
        target.write(text)
    table.alone(f"drill, N = {n:,}", lambda program: [program, "eval", TURNS, path])


def stored(table, folder):
    """Questions over a folder of 1,000,000 rows."""
    folders = {}
    for number, program in enumerate(table.programs):
        folders[program] = os.path.join(folder, f"stored_{number}")
        once([program, "init", folders[program], script("stored.hera")])
        once([program, "run", folders[program], TURNS, script("stored_fill.hera")])
        once([program, "checkpoint", folders[program]])
    for title, name in [
        ("a folder of 1,000,000 rows opened", "stored_open.hera"),
        ("`count(R when {+R(0, 0)})` over 1,000,000 stored rows", "stored_count.hera"),
        ("`join` of 1,000 rows with 1,000,000 stored ones", "stored_join.hera"),
        ("`foreach` over 1,000,000 stored rows under a delta", "stored_walk.hera"),
    ]:
        table.alone(title, lambda program: [program, "run", folders[program], TURNS, script(name)])
    table.changing("`checkpoint` of 1,000,000 rows", folders, ["checkpoint"])
    table.changing("`widen` of them by an int and a text", folders, ["widen", script("stored_wide.hera")])


# A relation with a text key, and another with its keys in another order.
TEXTS = "relation T(k text, n int);\nrelation P(i int, k text, n int);\n"


def texts(table, folder):
    """Seeks by a text key: 40,000 in 20,000 stored rows, and the walks alone."""
    keys = list(range(20000))
    other = random.Random(1).sample(keys, len(keys))
    atoms = [f'+T("item-{key:05d}", {key})' for key in keys]
    atoms += [f'+P({i}, "item-{key:05d}", {key})' for i, key in enumerate(other)]
    applies = "\n".join("apply {" + ", ".join(atoms[i : i + 200]) + "};" for i in range(0, len(atoms), 200))
    half = len(applies) // 2 + applies[len(applies) // 2 :].index("\n")
    walk = "foreach (p in P) { if (%s) { c = c + 1; } } "
    works = {
        "texts_0": applies[:half] + " commit;",
        "texts_1": applies[half:] + " commit;",
        "texts_walk": "int c = 0; " + walk % "p.n == p.n" * 2 + "print c;",
        "texts_seek": "int c = 0; " + walk % "[k = p.k, n = p.n] in T" * 2 + "print c;",
    }
    paths = {name: os.path.join(folder, name + ".hera") for name in works}
    for name, text in works.items():
        with open(paths[name], "w") as target:
            target.write(TEXTS + "main {\n" + text + "\n}\n")
    folders = {}
    for number, program in enumerate(table.programs):
        folders[program] = os.path.join(folder, f"texts_{number}")
        once([program, "init", folders[program], paths["texts_0"]])
        for name in ("texts_0", "texts_1"):
            once([program, "run", folders[program], TURNS, paths[name]])
        once([program, "checkpoint", folders[program]])
    for title, name in [
        ("two walks over 20,000 stored rows", "texts_walk"),
        ("the same with a seek by a text key for each row", "texts_seek"),
    ]:
        table.alone(title, lambda program: [program, "run", folders[program], TURNS, paths[name]])


def main():
    parser = argparse.ArgumentParser()
    parser.add_argument("--times", type=int, default=5)
    parser.add_argument("--only")
    parser.add_argument("--stored", action="store_true")
    parser.add_argument("programs", nargs="+")
    options = parser.parse_args()
    programs = [os.path.abspath(program) for program in options.programs]
    table = Table(programs, options.times, options.only)
    print(f"CPython {sys.version.split()[0]}; best of {options.times}; processor seconds\n")
    table.row("", ["CPython"] + [f"program {number + 1}" for number in range(len(programs))])
    table.row("---", ["---"] * (len(programs) + 1))
    table.beside("a `while` of 1,000,000 rounds", "loop.hera", "empty.hera", "loop.py", "empty.py")
    table.beside("the same with a call in each round", "call.hera", "empty.hera", "call.py", "empty.py")
    table.beside("`foreach` over 100,000 tuples, ten times", "foreach.hera", "rows.hera", "comprehension.py", "rows.py")
    table.beside("`select` over 100,000 tuples, ten times", "select.hera", "rows.hera", "comprehension.py", "rows.py")
    table.alone("200,000 open calls", lambda program: hera(program, "open_calls.hera", "200000"), statuses=(4,))
    table.alone("1,000,000 host calls in a `while`", lambda program: hera(program, "host.hera"))
    table.alone("the same with `i % 10` in place of the call", lambda program: hera(program, "host_without.hera"))
    with tempfile.TemporaryDirectory() as folder:
        for n in (1000, 10000, 100000):
            drill(table, folder, n)
        if options.stored:
            stored(table, folder)
            texts(table, folder)


if __name__ == "__main__":
    main()
