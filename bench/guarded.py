#!/usr/bin/env python3
"""Times guarded runs by a built program of hera beside runs without guards, over a folder of many rows, and prints a table.

    bench/guarded.py [--times N] [--rows N] [--commits N] PROGRAM

A time is the processor time (user and system) of a whole process in seconds, the best of five. What opens the folder is
taken off: of both runs a script that does nothing, under guards for the guarded one. So the first line is the cost of the
commits alone, and the second that of the test of what is stored, beside a `sum` over the same rows.
"""

import argparse
import os
import shutil
import tempfile

import run

DECLARATION = "relation R(k int, n int);"
NOTHING = DECLARATION + "\nmain { }\n"
SUM = DECLARATION + "\nmain { print sum(R, n); }\n"
COMMITS = DECLARATION + "\nmain {{ int i = 0; while (i < {count}) {{ apply {{+R({rows} + i, i % 101)}}; commit; i = i + 1; }} }}\n"
RULES = "R.n: band;\n"


class Folder(run.Bench):
    """A folder with a database of rows that no guard refuses, and scripts."""

    def fill(self, rows):
        lines = "".join(f"{i},{i % 101}\n" for i in range(rows))
        run.once([self.program, "init", self.at("full"), self.write("nothing.hera", NOTHING)])
        run.once([self.program, "import", self.at("full"), "R", self.write("rows.csv", "k,n\n" + lines)])
        run.once([self.program, "checkpoint", self.at("full")])

    def fresh(self):
        shutil.rmtree(self.at("used"), ignore_errors=True)
        shutil.copytree(self.at("full"), self.at("used"))

    def best(self, words, status):
        """The least time of the command, each over a copy of the folder."""
        runs = []
        for _ in range(self.times):
            self.fresh()
            runs.append(run.once([self.program, *words]))
        wrong = [it[2] for it in runs if it[2] != status]
        if wrong:
            raise SystemExit(f"{words[0]}: status {wrong[0]}")
        return min(runs)[0]

    def run(self, script):
        return self.best(["run", self.at("used"), "1000000", script], 0)

    def guard(self, script):
        return self.best(["guard", self.at("used"), "1000000", self.at("rules"), script], 0)


def main():
    parser = argparse.ArgumentParser()
    parser.add_argument("--times", type=int, default=5)
    parser.add_argument("--rows", type=int, default=1000000)
    parser.add_argument("--commits", type=int, default=10000)
    parser.add_argument("program")
    options = parser.parse_args()
    with tempfile.TemporaryDirectory() as name:
        folder = Folder(os.path.abspath(options.program), options.times, None, name)
        folder.fill(options.rows)
        folder.write("rules", RULES)
        commits = folder.write("commits.hera", COMMITS.format(count=options.commits, rows=options.rows))
        total = folder.write("sum.hera", SUM)
        nothing = folder.at("nothing.hera")
        opened, tested = folder.run(nothing), folder.guard(nothing)
        plain, guarded = folder.run(commits) - opened, folder.guard(commits) - tested
        summed = folder.run(total) - opened
    print("| What | run | guard | times |\n|---|---|---|---|")
    print(f"| {options.commits:,} commits of a row, over {options.rows:,} | {plain:.3f} s | {guarded:.3f} s | {guarded / plain:.2f} |")
    print(f"| a `sum` over these, and the test of them | {summed:.3f} s | {tested - opened:.3f} s | {(tested - opened) / summed:.2f} |")


if __name__ == "__main__":
    main()
