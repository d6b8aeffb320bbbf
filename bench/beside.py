#!/usr/bin/env python3
"""Times a built program of hera beside SQLite, called from Python, on the same work, and prints a table.

    bench/beside.py [--times N] [--only WORD] PROGRAM

A time is the processor time (user and system) of a whole process in seconds, the start of Python included, the best of
five. What both print is compared where both print the same.
"""

import argparse
import os
import shutil
import sys
import tempfile

import growth
import run

PEER = os.path.join(run.HERE, "sqlite_peer.py")
PAIR = "relation P(k int, v int);\nrelation Q(k int, w int);\n"
PLAN = "relation Stock(item int, n int);\nrelation Orders(item int, q int);\nrelation Probe(item int);\n"
PLAN_FILL = PLAN + growth.loop(100000, "apply {+Stock(i, i * 7919 % 40)};", after="commit;")
PAIR_FILL = PAIR + growth.loop(200000, "apply {+P(i, i * 7 % 11), +Q(i * 3, i)};", after="commit;")
WHAT_IFS = (
    PLAN
    + "func bool covered(int i) {\n"
    + "  return sum(join(rows(Probe){(i)}, Orders), q) <= sum(join(rows(Probe){(i)}, Stock), n);\n}\n"
    + growth.loop(
        20000,
        "int item = i * 37 % 5000; delta d = {+Orders(item, i % 9 + 1)}; "
        "if (covered(item) when d) { apply d; taken = taken + 1; }",
        "int taken = 0;",
        "commit; print taken;",
    )
)
QUERIES = {
    "select": "count(select(t in P : t.v < 5))",
    "sum": "sum(P, v)",
    "min": "min(P, v)",
    "project": "count(project(P; v))",
    "group": "count(group(P; by v; n = count))",
}
JOIN = PAIR + "main { print count(join(P, Q)); print count(join(P, Q)) when {+P(1, 99999), -Q(5, 5)}; }"


class Bench(run.Bench):
    """A folder with scripts and databases."""

    def script(self, text):
        return self.write("script.hera", text)

    def fill(self, name, text, work, checkpointed):
        """Makes a database of hera's and one of SQLite's, each in a folder."""
        path = self.script(text)
        run.once([self.program, "init", self.at(name), path])
        run.once([self.program, "run", self.at(name), run.TURNS, path])
        if checkpointed:
            run.once([self.program, "checkpoint", self.at(name)])
        os.mkdir(self.at(name + ".peer"))
        run.once([sys.executable, PEER, work, self.at(name + ".peer")])

    def fresh(self, name):
        """A copy of both databases, since the work changes them."""
        for it in (name, name + ".peer"):
            shutil.rmtree(self.at("now " + it), ignore_errors=True)
            shutil.copytree(self.at(it), self.at("now " + it))

    def row(self, title, ours, peers, before=lambda: None):
        """A line of the table: both times, the ratio, both peaks."""
        if not self.is_wanted(title):
            return
        runs = {"ours": [], "peers": []}
        for _ in range(self.times):
            for name, words in (("ours", ours), ("peers", peers)):
                before()
                runs[name].append(run.once(words))
        if any(it[2] for it in runs["ours"] + runs["peers"]) or runs["ours"][0][3] != runs["peers"][0][3]:
            print(f"| {title} | the two differ: {runs['ours'][0][2:]} and {runs['peers'][0][2:]} |"[:300])
            return
        run.beside(title, min(runs["ours"]), min(runs["peers"]))

    def stored(self, title, name, text, work):
        """The same work over a copy of a stored database."""
        path = self.script(text)
        self.row(
            title,
            [self.program, "run", self.at("now " + name), run.TURNS, path],
            [sys.executable, PEER, work, self.at("now " + name + ".peer")],
            lambda: self.fresh(name),
        )

    def in_memory(self, title, text, work, number):
        path = self.script(text)
        self.row(
            title, [self.program, "eval", run.TURNS, path], [sys.executable, PEER, work, "-", str(number)]
        )


def all_rows(bench):
    bench.fill("pages", PLAN_FILL, "plan_fill", True)
    bench.stored("20,000 what-ifs over 100,000 rows in pages", "pages", WHAT_IFS, "plan")
    bench.fill("journal", PLAN_FILL, "plan_fill", False)
    bench.stored("the same in the journal", "journal", WHAT_IFS, "plan")
    bench.fill("pair", PAIR_FILL, "pair_fill", True)
    for name, query in QUERIES.items():
        bench.stored(f"`{query}`, 200,000 stored rows", "pair", PAIR + f"main {{ print {query}; }}", name)
    bench.stored("`join` of 200,000 with 200,000, twice", "pair", JOIN, "join")
    with open(run.script("drill.hera")) as source:
        text = source.read()
    for number in (1000, 10000, 100000):
        bench.in_memory(f"drill, N = {number:,}", text.replace("N", str(number)), "drill", number)
    for number in (1000, 4000):
        bench.in_memory(f"{number:,} commits with a count behind each", growth.commits(number), "commits", number)
    for number in (80000, 320000):
        bench.in_memory(f"{number:,} applies in random order", growth.shuffled(number), "shuffled", number)


def main():
    parser = argparse.ArgumentParser()
    parser.add_argument("--times", type=int, default=5)
    parser.add_argument("--only")
    parser.add_argument("program")
    options = parser.parse_args()
    print("| What | SQLite from Python | hera | times |\n|---|---|---|---|")
    with tempfile.TemporaryDirectory() as folder:
        all_rows(Bench(os.path.abspath(options.program), options.times, options.only, folder))


if __name__ == "__main__":
    main()
