#!/usr/bin/env python3
"""Times import and export of CSV files by a built program of hera beside the `sqlite3` shell, and prints a table.

    bench/transfer.py [--times N] [--only WORD] PROGRAM

A time is the processor time (user and system) of a whole process in seconds, the best of five, and beside it stands the
peak memory. The shell imports into a table with a primary key, in a file. The rows that both export are compared with those
that Python's `csv` reads of the file. Rows are made and compared in processes of their own, since a process begins with the
peak of the one that starts it.
"""

import argparse
import csv
import multiprocessing
import os
import random
import shutil
import subprocess
import tempfile

import run

ROWS = 1000000
INTS = ("relation R(a int, b int);", "create table R(a integer primary key, b integer) without rowid;")
TEXTS = ("relation R(a text, b int);", "create table R(a text primary key, b integer) without rowid;")


def ints():
    return [(i, i * 7919 % 100003) for i in range(ROWS)]


def texts():
    """Rows of a text and an int, with 16,000,000 bytes of lines in all."""
    rows, written = [], 0
    while written < 16000000:
        row = (f"part {len(rows):07}, painted", len(rows) % 1000)
        written += len(row[0]) + 2 + len(str(row[1])) + 2
        rows.append(row)
    return rows


def write(path, make, shuffled):
    """A file of these rows behind a head."""
    rows = make()
    if shuffled:
        random.Random(1).shuffle(rows)
    with open(path, "w", newline="") as target:
        writer = csv.writer(target, lineterminator="\n")
        writer.writerow(("a", "b"))
        writer.writerows(rows)


def rows_of(path):
    with open(path, newline="") as source:
        head, *rows = csv.reader(source)
    return head, sorted(rows)


def compare(title, path, exports):
    """Says which of the exports has other rows than the file."""
    wanted = rows_of(path)
    for name in exports:
        if rows_of(name) != wanted:
            print(f"| {title} | {os.path.basename(name)} has other rows than the file |", flush=True)


def apart(work, *words):
    """Does the work in a process of its own."""
    process = multiprocessing.Process(target=work, args=words)
    process.start()
    process.join()


def once(words, output):
    """The processor time of a process in seconds, its peak memory in MB and its status; it prints into a file."""
    with open(output, "wb") as target:
        process = subprocess.Popen(words, stdout=target, stderr=subprocess.DEVNULL)
        _, status, usage = os.wait4(process.pid, 0)
    process.returncode = os.waitstatus_to_exitcode(status)
    return usage.ru_utime + usage.ru_stime, usage.ru_maxrss / 1024, process.returncode


class Bench(run.Bench):
    """A folder with files of rows and databases."""

    def empty(self, declarations):
        """Both databases, without rows."""
        shutil.rmtree(self.at("ours"), ignore_errors=True)
        if os.path.exists(self.at("peer")):
            os.remove(self.at("peer"))
        script = self.write("script.hera", declarations[0] + "\nmain { }\n")
        run.once([self.program, "init", self.at("ours"), script])
        run.once(["sqlite3", self.at("peer"), declarations[1]])

    def best(self, words, before, output="printed"):
        runs = []
        for _ in range(self.times):
            before()
            runs.append(once(words, self.at(output)))
        return None if any(it[2] for it in runs) else min(runs)

    def row(self, title, ours, peers):
        if ours is None or peers is None:
            print(f"| {title} | one of the two failed |", flush=True)
            return
        run.beside(title, ours, peers)

    def both(self, title, declarations, make, shuffled):
        """An import of the rows into empty databases, and an export of them."""
        if not self.is_wanted(title):
            return
        path = self.at("rows.csv")
        apart(write, path, make, shuffled)
        ours = [self.program, "import", self.at("ours"), "R", path]
        peers = ["sqlite3", self.at("peer"), ".mode csv", f".import --skip 1 {path} R"]
        fresh = lambda: self.empty(declarations)
        self.row(f"import of {title}, {os.path.getsize(path):,} bytes", self.best(ours, fresh), self.best(peers, fresh))
        fresh()
        once(ours, self.at("printed"))
        once(peers, self.at("printed"))
        ours = [self.program, "export", self.at("ours"), "R"]
        peers = ["sqlite3", self.at("peer"), ".mode csv", ".headers on", "select * from R;"]
        nothing = lambda: None
        self.row(f"export of {title}", self.best(ours, nothing, "hera.csv"), self.best(peers, nothing, "sqlite3.csv"))
        apart(compare, title, path, [self.at("hera.csv"), self.at("sqlite3.csv")])


def main():
    parser = argparse.ArgumentParser()
    parser.add_argument("--times", type=int, default=5)
    parser.add_argument("--only")
    parser.add_argument("program")
    options = parser.parse_args()
    print("| What | sqlite3 | hera | times |\n|---|---|---|---|")
    with tempfile.TemporaryDirectory() as folder:
        bench = Bench(os.path.abspath(options.program), options.times, options.only, folder)
        bench.both(f"{ROWS:,} rows of two ints in order", INTS, ints, False)
        bench.both(f"{ROWS:,} rows of two ints in random order", INTS, ints, True)
        bench.both("rows of a text and an int in order", TEXTS, texts, False)
        bench.both("rows of a text and an int in random order", TEXTS, texts, True)


if __name__ == "__main__":
    main()
