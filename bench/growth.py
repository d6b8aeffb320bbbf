#!/usr/bin/env python3
"""Shows how the time of what a script can do many times grows with how often it does it.

    bench/growth.py [--times N] [--only WORD] [--steps S] PROGRAM

Each case is a script made for k, 2k and 4k. A line has, for each size, the processor seconds of the whole process and
its peak memory in MB, and the exponent by which the time grew between the last two sizes (1 is in proportion to k, 2 is
with its square). Times below 0.03 s tell no exponent.
"""

import argparse
import math
import os
import tempfile

import run

LEAST = 0.03


def loop(k, body, before="", after=""):
    return f"main {{ {before} int i = 0; while (i < {k}) {{ {body} i = i + 1; }} {after} }}"


def commits(k):
    return "relation R(a int);\n" + loop(k, "apply {+R(i)}; commit; print count(R);")


def smashes(k):
    return "relation R(a int);\n" + loop(k, "d = d ! {+R(i)};", "delta d = {};", "apply d; print count(R);")


def merges(k):
    return "relation R(a int);\n" + loop(k, "d = d & {+R(i)};", "delta d = {};", "apply d; print count(R);")


def literal(k):
    atoms = ", ".join(f"+R({i * 7919 % k})" for i in range(k))
    return f"relation R(a int);\nmain {{ apply {{{atoms}}}; print count(R); }}"


def shuffled(k):
    """Applies in an order that jumps about: 7919 is a prime that divides no k, so each row comes once."""
    return "relation R(a int);\n" + loop(k, f"apply {{+R(i * 7919 % {k})}};", after="print count(R);")


def gathered(k):
    return (
        "relation R(a int);\n"
        + loop(k, "apply {+R(i)};", after=f"print count(map(t in R : [b = t.a * 7919 % {k}]));")
    )


def taken_out(k):
    return "relation R(a int);\n" + (
        f"main {{ int i = 0; while (i < {k}) {{ apply {{+R(i)}}; i = i + 1; }} "
        f"i = 0; while (i < {k}) {{ apply {{-R(i * 7919 % {k})}}; i = i + 1; }} print count(R); }}"
    )


def counted(k):
    return "relation R(a int);\n" + loop(k, "apply {+R(i)}; n = n + count(R);", "int n = 0;", "print n;")


def sought(k):
    return "relation R(a int);\nrelation Key(a int);\n" + loop(
        k, "apply {+R(i)}; n = n + count(join(rows(Key){(i / 2)}, R));", "int n = 0;", "print n;"
    )


def tested(k):
    return "relation R(a int);\n" + (
        f"main {{ int i = 0; while (i < {k}) {{ apply {{+R(i)}}; i = i + 1; }} rel R own = R; int n = 0; i = 0; "
        f"while (i < {k}) {{ if ([a = i * 2] in own) {{ n = n + 1; }} i = i + 1; }} print n; }}"
    )


def nested(k):
    """A func that supposes one delta more each time it calls itself, and looks one row up at the bottom."""
    return (
        "relation R(a int);\nrelation Key(a int);\n"
        "func int deep(int n) { if (n < 1) { return count(join(rows(Key){(1)}, R)); } "
        "return deep(n - 1) when {+R(n)}; }\n"
        f"main {{ print deep({k}); }}"
    )


def joined(k, schema, expression):
    return f"relation A(k int, v int);\nrelation B({schema});\n" + (
        f"main {{ int i = 0; while (i < {k}) {{ apply {{+A(i, i * 7 % 11), +B(i * 3, i)}}; i = i + 1; }} "
        f"print count({expression}); }}"
    )


def led(k):
    return joined(k, "k int, w int", "join(A, B)")


def not_led(k):
    return joined(k, "x int, k int", "join(A, B)")


def turned(k):
    return joined(k, "x int, k int", "join(B, A)")


def supposed(k):
    return "relation R(a int, v int);\n" + (
        f"main {{ int i = 0; while (i < {k}) {{ apply {{+R(i, i % 9)}}; i = i + 1; }} i = 0; int n = 0; "
        "while (i < 50) { n = n + (sum(R, v) when {-R(i, i % 9)}); i = i + 1; } print n; }"
    )


CASES = [
    ("k commits with a count behind each", commits, 1000),
    ("k smashes of one atom", smashes, 8000),
    ("k merges of one atom", merges, 8000),
    ("a literal of k atoms", literal, 6000),
    ("k applies in random order", shuffled, 40000),
    ("k rows taken out in random order", taken_out, 40000),
    ("k rows gathered in random order", gathered, 40000),
    ("k applies with a count behind each", counted, 10000),
    ("k applies with a seek behind each", sought, 10000),
    ("k tests in a local relation of k rows", tested, 10000),
    ("`when` nested k deep with a seek", nested, 2000),
    ("a join of k and k that the common attribute leads", led, 20000),
    ("a join of k and k that it leads on the left alone", not_led, 20000),
    ("a join of k and k that it leads on the right alone", turned, 20000),
    ("50 sums of k rows under a delta", supposed, 10000),
]


def row(program, title, make, sizes, times, folder):
    """The figures of one case: a size each, and the last exponent."""
    seconds, parts = [], []
    for size in sizes:
        path = os.path.join(folder, "case.hera")
        with open(path, "w") as target:
            target.write(make(size))
        told = run.best([program, "eval", run.TURNS, path], times)
        if told is None:
            return f"| {title} | {size:,}: another status than 0 |"
        seconds.append(told[0])
        parts.append(f"{size:,}: {told[0]:.3f} s, {told[1]:.0f} MB")
    exponent = "-"
    if len(seconds) > 1 and seconds[-2] >= LEAST:
        exponent = f"{math.log(seconds[-1] / seconds[-2]) / math.log(sizes[-1] / sizes[-2]):.2f}"
    return f"| {title} | {'; '.join(parts)} | {exponent} |"


def main():
    parser = argparse.ArgumentParser()
    parser.add_argument("--times", type=int, default=2)
    parser.add_argument("--only")
    parser.add_argument("--steps", type=int, default=3, help="how many sizes, each twice the one before")
    parser.add_argument("program")
    options = parser.parse_args()
    print("| What | k: processor seconds of a whole process, peak memory | last exponent |\n|---|---|---|")
    with tempfile.TemporaryDirectory() as folder:
        for title, make, least in CASES:
            if options.only is None or options.only in title:
                sizes = [least * 2**step for step in range(options.steps)]
                print(row(os.path.abspath(options.program), title, make, sizes, options.times, folder), flush=True)


if __name__ == "__main__":
    main()
