#!/usr/bin/env python3
"""Times the same works done in four ways, and draws the times as bars.

    bench/picture.py --measure PROGRAM    measures in one run, writes docs/beside.tsv and draws
    bench/picture.py --measure -          the same without the program, whose figures stay
    bench/picture.py                      draws docs/beside.svg of docs/beside.tsv, and prints the bars

A time is the processor time (user and system) of a whole process, the best of three, over that of SQLite called from Python
with its tables in memory: of `hera eval`, of SWI-Prolog where `swipl` is there, and of CPython with sets and dicts. The last
line that they print has to be the same. The works' scripts are in bench/peers and bench/sqlite_peer.py.
"""

import argparse
import os
import shutil
import sys
import tempfile

import beside
import growth
import run

TOP = os.path.dirname(run.HERE)
FIGURES = os.path.join(TOP, "docs", "beside.tsv")
PICTURE = os.path.join(TOP, "docs", "beside.svg")
TIMES = 3
WHAT_IFS = "20,000 what-ifs over 100,000 rows"
DRILL = "the drill's work, {:,} rows"


def what_ifs():
    """The script of the what-ifs, which first makes its rows."""
    start, main = beside.WHAT_IFS.split("main {", 1)
    fill = growth.loop(100000, "apply {+Stock(i, i * 7919 % 40)};", after="commit;").split("main {", 1)[1]
    return start + "proc fill() {" + fill + " main { fill();" + main


def drill(rows):
    with open(run.script("drill.hera")) as source:
        return source.read().replace("N", str(rows))


WORKS = [
    (WHAT_IFS, "plan", what_ifs(), []),
    *((DRILL.format(rows), "drill", drill(rows), [str(rows)]) for rows in (10_000, 100_000)),
]


def ways(program, folder, name, script, arguments):
    """For each of the four, the words that do this work."""
    path = os.path.join(folder, name + ".hera")
    with open(path, "w") as target:
        target.write(script)
    peers = os.path.join(run.HERE, "peers", name)
    if program:
        yield "hera", [program, "eval", run.TURNS, path]
    yield "SQLite", [sys.executable, beside.PEER, {"plan": "plan_whole"}.get(name, name), "-", *(arguments or ["0"])]
    if shutil.which("swipl"):
        yield "SWI-Prolog", ["swipl", peers + ".pl", *arguments]
    yield "CPython", [sys.executable, "-I", peers + ".py", *arguments]


def measured(program, folder):
    """For each work, who does it, with the seconds over SQLite's."""
    for title, name, script, arguments in WORKS:
        best, last = {}, {}
        words = dict(ways(program, folder, name, script, arguments))
        for _ in range(TIMES):
            for who, command in words.items():
                seconds, _, status, output = run.once(command)
                if status:
                    sys.exit(f"{who} ends with {status}: {output[-200:]}")
                best[who] = min(best.get(who, seconds), seconds)
                last[who] = output.splitlines()[-1]
        if len(set(last.values())) > 1:
            sys.exit(f"they differ: {last}")
        print(title, {who: round(seconds, 3) for who, seconds in best.items()}, flush=True)
        yield title, {who: seconds / best["SQLite"] for who, seconds in best.items()}


def figures():
    """For each work those who did it, with their times over SQLite's."""
    works = {}
    if os.path.exists(FIGURES):
        with open(FIGURES) as source:
            for line in source:
                work, who, times = line.rstrip("\n").split("\t")
                works.setdefault(work, {})[who] = float(times)
    return works


def bars(works):
    """The bars in plain text."""
    most = max(seconds for those in works.values() for seconds in those.values())
    for work, those in works.items():
        yield work
        for who, seconds in those.items():
            yield f"  {who:<11}{'█' * max(1, round(40 * seconds / most))} {seconds:.2f}"


def svg(works):
    """The bars as a picture."""
    most = max(seconds for those in works.values() for seconds in those.values())
    parts, y = [], 20
    for work, those in works.items():
        parts.append(f'<text x="10" y="{y}" font-weight="bold">{work}</text>')
        for who, seconds in those.items():
            y += 22
            width = max(2, round(380 * seconds / most))
            colour = "#2f6f9f" if who == "hera" else "#b9c4cc"
            parts.append(f'<text x="10" y="{y}">{who}</text>')
            parts.append(f'<rect x="110" y="{y - 12}" width="{width}" height="15" fill="{colour}"/>')
            parts.append(f'<text x="{118 + width}" y="{y}">{seconds:.2f}</text>')
        y += 34
    head = f'<svg xmlns="http://www.w3.org/2000/svg" width="600" height="{y - 14}" font-family="sans-serif" font-size="13">'
    return "\n".join([head, '<rect width="100%" height="100%" fill="white"/>', *parts, "</svg>", ""])


def main():
    parser = argparse.ArgumentParser()
    parser.add_argument("--measure", metavar="PROGRAM")
    options = parser.parse_args()
    if options.measure:
        program = None if options.measure == "-" else os.path.abspath(options.measure)
        works = figures()
        with tempfile.TemporaryDirectory() as folder:
            for work, those in measured(program, folder):
                # Who was not measured keeps the figures of an earlier run.
                works[work] = {**works.get(work, {}), **those}
        with open(FIGURES, "w") as target:
            target.writelines(f"{work}\t{who}\t{it:.2f}\n" for work, those in works.items() for who, it in those.items())
    with open(PICTURE, "w") as target:
        target.write(svg(figures()))
    print("\n".join(bars(figures())))


if __name__ == "__main__":
    main()
