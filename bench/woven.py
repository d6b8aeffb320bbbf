#!/usr/bin/env python3
"""Times woven sessions by a built program of hera beside the same scripts run one after another, and prints a table.

    bench/woven.py [--times N] [--rows N] [--sessions N] [--rounds N] [--order N] PROGRAM

A time is the processor time (user and system) of whole processes in seconds, the best of five: of `weave` over a folder of
many rows, and of `run` over a copy of it, once for each script. The second figure of a time is without what opens the folder:
a script that does nothing, taken off once of the weave and once for each run. A round is some 15 instructions, so 700 are some
10,000 steps. The peak of the runs is that of the one with the most.
"""

import argparse
import os
import tempfile

import guarded
import run

# What the sessions do, behind a loop of so many rounds: each puts in a row of its own, and none reads. Or each looks for a
# row in each round, and none commits.
WRITES = "int i = 0; int s = 0; while (i < {rounds}) {{ s = s + i % 7; i = i + 1; }} apply {{+R(-1 - {number}, s)}}; commit;"
READS = "int i = 0; int c = 0; while (i < {rounds}) {{ if ([k = i, n = i % 101] in R) {{ c = c + 1; }} i = i + 1; }} print c;"
TURNS = "1000000"


class Sessions(guarded.Folder):
    """A folder with a database of rows, and a script for each session."""

    def scripts(self, work, sessions, rounds):
        text = guarded.DECLARATION + "\nmain {{ " + work + " }}\n"
        return [self.write(f"session_{number}.hera", text.format(number=number, rounds=rounds)) for number in range(sessions)]

    def once(self, words):
        """The processor time and the peak memory of a command that ends well."""
        seconds, peak, status, _ = run.once([self.program, *words])
        if status:
            raise SystemExit(f"{words[0]}: status {status}")
        return seconds, peak

    def one_by_one(self, scripts):
        """The least time of the runs, and the greatest peak among these."""
        found = []
        for _ in range(self.times):
            self.fresh()
            runs = [self.once(["run", self.at("used"), TURNS, script]) for script in scripts]
            found.append((sum(seconds for seconds, _ in runs), max(peak for _, peak in runs)))
        return min(found)

    def woven(self, order, scripts):
        found = []
        for _ in range(self.times):
            self.fresh()
            found.append(self.once(["weave", self.at("used"), TURNS, order, *scripts]))
        return min(found)


def main():
    parser = argparse.ArgumentParser()
    parser.add_argument("--times", type=int, default=5)
    parser.add_argument("--rows", type=int, default=100000)
    parser.add_argument("--sessions", type=int, default=64)
    parser.add_argument("--rounds", type=int, default=700)
    parser.add_argument("--order", default="11400714819323198485")
    parser.add_argument("program")
    options = parser.parse_args()
    print("| What | run | weave | times |\n|---|---|---|---|")
    with tempfile.TemporaryDirectory() as name:
        folder = Sessions(os.path.abspath(options.program), options.times, None, name)
        folder.fill(options.rows)
        nothing = [folder.at("nothing.hera")]
        opened, opened_once = folder.one_by_one(nothing)[0] * options.sessions, folder.woven(options.order, nothing)[0]
        for title, work in [("a commit of a row each", WRITES), ("a row sought in each round", READS)]:
            scripts = folder.scripts(work, options.sessions, options.rounds)
            (seconds, peak), (woven, most) = folder.one_by_one(scripts), folder.woven(options.order, scripts)
            own, woven_own = max(seconds - opened, 0.001), woven - opened_once
            title = f"{options.sessions} sessions of {options.rounds:,} rounds over {options.rows:,} rows, {title}"
            print(f"| {title} | {seconds:.3f} s | {woven:.3f} s | {woven / seconds:.2f} |")
            print(f"| without what opens the folder | {own:.3f} s | {woven_own:.3f} s | {woven_own / own:.2f} |")
            print(f"| the peak of memory | {peak:.0f} MB | {most:.0f} MB | {most / peak:.2f} |")


if __name__ == "__main__":
    main()
