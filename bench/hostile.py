#!/usr/bin/env python3
"""Feeds hostile scripts, folders, files and refused allocations to the built program, and stops at the first answer that
the table of statuses in docs/LANGUAGE.md has not: a crash, a hang, another status, or a text that does not belong to it.

    bench/hostile.py PROGRAM [--seconds N] [--count N] [--processes N] [--seed N] [--only PART] [--cases PROGRAM]

Its parts:
  bytes    each byte of the 43-byte half of docs/FORMATS.md, in either format, set to each of 256 values, and each cut of it,
           by `dump`
  halves   databases well formed and damaged, by `dump` and `checkpoint`
  scripts  random bytes, token soups, broken examples and phrases of the grammar, by `check`, `list`, `eval`, `init`, `run`
  folders  random commands one after the other on one folder, with each byte of its files
  csv      files of comma-separated values, good and bad, by `import` and `export`
  rules    scripts of guards over databases and runs, by `guard`
  orders   words for ORDER and woven scripts, by `weave`: those that commit are as runs one after another
  code     packed scripts, whole and spoiled, by `pack` and `exec`
  full     a half with no room for what `run`, `guard`, `import` and `checkpoint` write, and a file of 2^20 records
  memory   each allocation of a command refused in turn: on a script, and on init, run, dump and checkpoint of a folder
  crash    the same over files in memory, with a crash behind each (with --cases, the built program of hera_cases)

What the program says is compared with readers that are written from the documents alone: of halves bench/reader.py, of
scripts bench/script.py, bench/rules.py and bench/meaning.py, of files and guards bench/tables.py (with Python's `csv`),
of code bench/code_file.py, code_rules.py and code_meaning.py, of all commands together bench/commands.py. The parts from halves on take N seconds each, or
with --count go on until they have tried N inputs, in N processes at a time. A part whose command the program doesn't have
is left out.
"""

import argparse
import os
import random
import resource
import signal
import sys
import time

import beside_scripts
import code_meaning
import full
import meaning
import memory
import reader
import rules
from common import Folder, Wrong, call, has_command, in_processes, judge
from inputs import Halves, Scripts


def compare_dump(program, folder, select, left, right=b""):
    """The program and the reader say the same of a folder, and `dump` leaves its files."""
    folder.put(select, left, right)
    text, complaint, status = call(program, ["dump", folder.database])
    wanted = reader.dump(select, left, right)
    if (text, status) != wanted or complaint:
        raise Wrong(f"dump of select {select.hex()} left {left.hex()} right {right.hex()}: {text!r} {status}, wanted {wanted}")
    if folder.read() != [select, left, right]:
        raise Wrong(f"dump changed a file of {left.hex()}")
    return 1


def try_bytes(program, folder, draw, number, processes):
    """Each byte of the example set to each value, and each cut of it; a share of these, by `number`."""
    count, changed = 0, []
    for half in reader.EXAMPLES:
        changed += [half[:place] for place in range(len(half) + 1)]
        for place in range(len(half)):
            changed += [half[:place] + bytes([byte]) + half[place + 1 :] for byte in range(256)]
    for left in changed[number::processes]:
        count += compare_dump(program, folder, b"\0", left)
    if number == 0:
        for select in [b"", b"\0\0", b"\1\1\1"] + [bytes([byte]) for byte in range(256)]:
            count += compare_dump(program, folder, select, half, half[:30] + b"\2" + half[31:])
    yield count


def try_halves(program, folder, draw, number, processes):
    """Halves drawn at random, on both sides, and then a checkpoint of some."""
    halves = Halves(draw)
    while True:
        select = draw.choice([b"\0", b"\1", bytes([draw.randrange(256)])])
        left, right = halves.draw_one(), halves.draw_one()
        yield compare_dump(program, folder, select, left, right)
        if draw.random() < 0.1:
            yield try_checkpoint(program, folder, select, left, right)


def try_checkpoint(program, folder, select, left, right):
    """After a checkpoint the other half is selected, and `dump` prints the same; a refusal leaves the files."""
    before = reader.dump(select, left, right)
    text, complaint, status = call(program, ["checkpoint", folder.database])
    files = folder.read()
    if before[1] == 5:
        good = (text, status) == before and files == [select, left, right]
    else:
        other = b"\0" if select == b"\1" else b"\1"
        good = (text, status) == (b"checkpointed\n", 0) and files[0] == other and reader.dump(*files) == before
    if not good or complaint:
        raise Wrong(f"checkpoint of {select.hex()} {left.hex()} {right.hex()}: {text!r} {status}")
    return 1


def try_scripts(program, folder, draw, number, processes):
    """Scripts drawn at random: by `check` or `eval` all, by the other commands some."""
    scripts = Scripts(draw)
    while True:
        script = scripts.draw_one()
        folder.write("script", script)
        # A script without loops and calls ends by itself.
        ends = not any(word in script for word in (b"while", b"func", b"proc"))
        turns = draw.choice(["0", "7", "300", "18446744073709551615" if ends else "5000"])
        yield try_script(program, folder, script, turns)
        if draw.random() < 0.05:
            yield try_run(program, folder, script, turns)


def ask(program, script, words):
    text, complaint, status = call(program, words)
    wrong = judge(words[0], len(script), text, complaint, status)
    if wrong:
        raise Wrong(f"{words[0]} {words[1:-1]} of the script {script!r}: {wrong}")
    return text, status


def try_script(program, folder, script, turns):
    """`eval` and `check` agree on whether the script is accepted, and on its refusal; `list` too, now and then."""
    ran, status = ask(program, script, ["eval", turns, folder.script])
    checked = ask(program, script, ["check", folder.script])
    if (status == 3) != (checked[1] == 3) or (status == 3 and ran != checked[0]):
        raise Wrong(f"eval and check of the script {script!r}: {ran!r} {status}, {checked}")
    compare_script(script, turns, ran, status)
    if checked[1] == 3:
        return 2
    if has_command(program, "pack"):
        try_packed(program, folder, script, turns, (ran, status))
    if ask(program, script, ["list", folder.script])[1] != 0:
        raise Wrong(f"list of the script {script!r}")
    return 3


def try_packed(program, folder, script, turns, wanted):
    """What is packed does what the script does, by the program and by the reader of code files."""
    packed, _ = ask(program, script, ["pack", folder.script])
    folder.write("code", packed)
    found = beside_scripts.answered(program, ["exec", turns, folder.path + "/code"], f"exec of the packed {script!r}")
    if found != wanted or code_meaning.execute(packed, int(turns)) != wanted:
        raise Wrong(f"exec {turns} of the packed {script!r}, {packed.hex()}: {found}, wanted {wanted}")


def compare_script(script, turns, ran, status):
    """The readers refuse the script for the same fault at the same place, or accept it with the same meaning."""
    wanted = rules.check(script)
    if wanted[1] == 0:
        wanted = meaning.evaluate(script, int(turns))[:2]
    if (ran, status) != wanted:
        raise Wrong(f"eval {turns} of the script {script!r}: {ran!r} {status}, wanted {wanted}")


def try_run(program, folder, script, turns):
    """The script makes a database, and runs on it as it runs on an empty one; what is found then is a database."""
    folder.put(b"", b"")
    if ask(program, script, ["init", folder.database, folder.script])[1] != 0:
        if folder.read() != [b"", b"", b""]:
            raise Wrong(f"init refused the script {script!r} and changed a file")
        return 1
    in_folder = ask(program, script, ["run", folder.database, turns, folder.script])
    in_memory = ask(program, script, ["eval", turns, folder.script])
    if in_folder != in_memory:
        raise Wrong(f"run and eval of the script {script!r}: {in_folder}, {in_memory}")
    if ask(program, script, ["dump", folder.database]) != reader.dump(*folder.read()):
        raise Wrong(f"dump behind a run of the script {script!r}")
    return 4


# What a call may take of memory, in bytes: far more than any of these scripts wants.
MEMORY = 4 << 30
PARTS = {"bytes": try_bytes, "halves": try_halves, "scripts": try_scripts, **beside_scripts.PARTS, **full.PARTS}
# The parts that have an end of their own.
ENDING = ("bytes", "full")
# The command without which a part is left out.
NEEDS = {"csv": "import", "rules": "guard", "orders": "weave", "code": "exec", "full": "import"}


def work(part, options, number, answers):
    """One process of a part: counts its inputs until it has enough of them, or something is wrong."""
    signal.signal(signal.SIGINT, signal.SIG_IGN)
    draw, count, end = random.Random(f"{options.seed} {number}"), 0, time.monotonic() + options.seconds
    share = options.count and -(-options.count // options.processes)
    with Folder() as folder:
        try:
            for inputs in PARTS[part](options.program, folder, draw, number, options.processes):
                count += inputs
                if count >= share if share else time.monotonic() > end:
                    if part not in ENDING:
                        break
            answers.put((count, None))
        except Wrong as wrong:
            answers.put((count, str(wrong)))
        except Exception as fault:
            answers.put((count, f"the driver failed: {fault!r}"))


def run_part(part, options):
    """A part in several processes."""
    if part in NEEDS and not has_command(options.program, NEEDS[part]):
        print(f"{part}: left out, the program has no `{NEEDS[part]}`", flush=True)
        return
    in_processes(part, "inputs", work, (part, options), options.processes)


def main():
    parser = argparse.ArgumentParser()
    parser.add_argument("program")
    parser.add_argument("--seconds", type=float, default=120)
    parser.add_argument("--count", type=int, default=0)
    parser.add_argument("--processes", type=int, default=2)
    parser.add_argument("--seed", default="1")
    parser.add_argument("--only", choices=[*PARTS, "memory", "crash"])
    parser.add_argument("--cases")
    options = parser.parse_args()
    options.program = os.path.abspath(options.program)
    resource.setrlimit(resource.RLIMIT_AS, (MEMORY, MEMORY))
    reader.check_itself()
    code_meaning.check_itself()
    try:
        for part in PARTS:
            if options.only in (None, part):
                run_part(part, options)
        if options.only in (None, "memory"):
            memory.try_program(options.program)
        if options.cases and options.only in (None, "crash"):
            memory.try_cases(os.path.abspath(options.cases))
    except Wrong as wrong:
        with open("hostile-input", "w") as file:
            file.write(f"{wrong}\n")
        print(f"WRONG: {str(wrong)[:500]}\n(the whole of it is in the file hostile-input)")
        return 1
    return 0


if __name__ == "__main__":
    sys.exit(main())
