#!/usr/bin/env python3
"""The work of `beside.py` as one who uses SQLite from Python writes it: sqlite_peer.py WORK FOLDER [N]."""

import os
import sqlite3
import sys

WORK, FOLDER = sys.argv[1:3]
NUMBER = int(sys.argv[3]) if len(sys.argv) > 3 else 0
FILE = ":memory:" if FOLDER == "-" else os.path.join(FOLDER, "peer.db")
CURSOR = sqlite3.connect(FILE, isolation_level=None).cursor()
run = CURSOR.execute


def one(query, *values):
    return run(query, values).fetchone()[0]


def table(name, first, second):
    run(f"create table {name}({first} integer, {second} integer, primary key({first}, {second})) without rowid")


def put(name, rows):
    CURSOR.executemany(f"insert or ignore into {name} values(?, ?)", rows)


def supposed(steps, query):
    """What the query answers behind these steps, which are then taken back."""
    run("savepoint supposed")
    for step in steps:
        run(step)
    answer = one(query)
    run("rollback to supposed")
    run("release supposed")
    return answer


def plan_fill():
    table("Stock", "item", "n")
    table("Orders", "item", "q")
    run("begin")
    put("Stock", ((i, i * 7919 % 40) for i in range(100000)))
    run("commit")


def plan():
    taken = 0
    run("begin")
    for i in range(20000):
        item = i * 37 % 5000
        run("savepoint supposed")
        run("insert or ignore into Orders values(?, ?)", (item, i % 9 + 1))
        wanted = one("select coalesce(sum(q), 0) from Orders where item = ?", item)
        there = one("select coalesce(sum(n), 0) from Stock where item = ?", item)
        if wanted <= there:
            taken += 1
        else:
            run("rollback to supposed")
        run("release supposed")
    run("commit")
    print("commit 1")
    print(taken)


def plan_whole():
    plan_fill()
    plan()


def pair_fill():
    table("P", "k", "v")
    table("Q", "k", "w")
    run("begin")
    put("P", ((i, i * 7 % 11) for i in range(200000)))
    put("Q", ((i * 3, i) for i in range(200000)))
    run("commit")


def join():
    query = "select count(*) from P join Q using (k)"
    print(one(query))
    print(supposed(["insert into P values(1, 99999)", "delete from Q where k = 5 and w = 5"], query))


def drill():
    table("P", "k", "v")
    run("begin")
    for i in range(NUMBER):
        run("insert or ignore into P values(?, ?)", (i, i * 7 % 11))
    run("commit")
    print("commit 1")
    print(one("select count(*) from P"))
    print(one("select sum(v) from P"))
    run(f"create temp table Up as select k + {NUMBER} as k, v from P")
    low, count = "delete from P where v < 5", "select count(*) from P"
    print(supposed([low], count))
    print(supposed([low, "insert or ignore into P select k, v from Up"], count))
    print(supposed([low, f"insert or ignore into P select k + {NUMBER}, v from P"], count))


def commits():
    run("create table R(a integer primary key)")
    for i in range(NUMBER):
        run("insert into R values(?)", (i,))
        print(f"commit {i + 1}")
        print(one("select count(*) from R"))


def shuffled():
    run("create table R(a integer primary key)")
    run("begin")
    for i in range(NUMBER):
        run("insert into R values(?)", (i * 7919 % NUMBER,))
    run("commit")
    print(one("select count(*) from R"))


QUERIES = {
    "select": "select count(*) from P where v < 5",
    "sum": "select sum(v) from P",
    "min": "select min(v) from P",
    "project": "select count(*) from (select distinct v from P)",
    "group": "select count(*) from (select v, count(*) from P group by v)",
}
WORKS = {
    it.__name__: it for it in (plan_fill, plan, plan_whole, pair_fill, join, drill, commits, shuffled)
}
if WORK in QUERIES:
    print(one(QUERIES[WORK]))
else:
    WORKS[WORK]()
