#!/usr/bin/env python3
"""Tries code files on the built program: each byte of ten packed scripts set to each value, files as large as they may be, and
times of `pack` and `exec`.

    bench/codefiles.py PROGRAM [--cases PROGRAM] [--only PART] [--sample N] [--processes N] [--times N]

Its parts:
  bytes    ten packed scripts, each byte of them set to each of 256 values, by `exec`; each is bad at its place, rejected at its
           address, or does what its instructions tell, by the readers of bench/code_meaning.py. With --cases (the built program
           of hera_cases) all of them, and by the program itself one in N
  large    files of 16 MiB with 65,535 slots and some three million instructions, good and rejected, by `exec`
  speed    `exec` of packed scripts beside `eval` of the scripts, less what a script that does nothing takes; and `pack` and
           `exec` without a run beside `check` of scripts of 1,048,576 bytes

It stops at the first wrong answer. Times are processor seconds of whole processes, the best of some.
"""

import argparse
import multiprocessing
import os
import sys

import code_meaning
import run
from common import Folder, Wrong, call, in_processes

TURNS = 300
SCRIPTS = [
    "main { print 2 + 3 * 4; }",
    "relation R(a int); main { apply {+R(1), -R(2)}; commit; print R; rollback; }",
    "func int f(int n) { return n + 1; } main { print f(2); }",
    'relation R(a int, b text); main { foreach (t in rows(R){(2, "x"), (1, "")}) { print t; } }',
    "relation R(a int); main { rel R r = select(t in rows(R){(1), (2)} : t.a > 1); print map(t in r : [b = -t.a]); }",
    "main { int i = 0; while (i < 3) { i = i + 1; } print i; }",
    "relation R(a int); main { print count(R) when {+R(7)}; assert isfail(fail); }",
    "relation R(a int); proc p(delta d) { apply d; } main { p({+R(1)} ! {}); print ins(R, {+R(2)} & {}); print 1 / 0; }",
    "relation R(a int, b int); main { print group(R; by a; n = count, s = sum(b)); print project(join(R, R); b); }",
    'main { print is_sku("SKU-1") && !band(7); print bucket(9 % 4); if ("a" == "b") { return; } }',
]
LONGEST = 16_777_216
SLOTS = 65_535


def packed(program, folder, text):
    folder.write("script", text.encode())
    data, complaint, status = call(program, ["pack", folder.script])
    if status or complaint:
        raise Wrong(f"pack of {text[:500]!r}: {data[:500]!r} {status}")
    return data


# ---- each byte set to each value


def changed(data):
    """The file with each byte set to each other value."""
    for place, byte in enumerate(data):
        for value in range(256):
            if value != byte:
                yield data[:place] + bytes([value]) + data[place + 1 :]


def by_cases(cases, files):
    """What `exec` prints of each of these files, and its status, by one run of the program of hera_cases."""
    lines = b"".join(b"== %d: exec %d -\n=> code %s\n" % (number, TURNS, it.hex().encode()) for number, it in enumerate(files))
    text, complaint, status = call(cases, [], input=lines)
    if status or complaint:
        raise Wrong(f"the cases of {files[0].hex()} and those behind it: {status} {complaint[:200]!r}")
    for number in range(len(files)):
        head, behind = b"== %d: exec %d -\n" % (number, TURNS), b"== %d: exec %d -\n" % (number + 1, TURNS)
        if not text.startswith(head):
            raise Wrong(f"the case of {files[number].hex()} is not there: {text[:500]!r}")
        end = text.find(behind) if number + 1 < len(files) else len(text)
        said, _, last = text[len(head) : end].rpartition(b"-- ")
        yield said, int(last)
        text = text[end:]


def compare(data, found):
    wanted = code_meaning.execute(data, TURNS)
    if found != wanted:
        raise Wrong(f"exec of {data.hex()}: {found}, wanted {wanted}")


def try_files(options, number, answers):
    """One process of a part: a share of the files."""
    count = 0
    try:
        with Folder() as folder:
            for text in SCRIPTS:
                data = packed(options.program, folder, text)
                if code_meaning.execute(data, TURNS)[1] not in (0, 1):
                    raise Wrong(f"pack of {text!r}: {data.hex()}")
                files = [it for place, it in enumerate(changed(data)) if place % options.processes == number]
                if options.cases:
                    for start in range(0, len(files), 500):
                        some = files[start : start + 500]
                        for it, found in zip(some, by_cases(options.cases, some)):
                            compare(it, found)
                            count += 1
                for it in files[:: options.sample]:
                    folder.write("code", it)
                    said, complaint, status = call(options.program, ["exec", str(TURNS), folder.path + "/code"])
                    compare(it, (said + complaint, status))
                    count += 1
        answers.put((count, None))
    except Wrong as wrong:
        answers.put((count, str(wrong)))
    except Exception as fault:
        answers.put((count, f"the driver failed: {fault!r}"))


def try_bytes(options):
    in_processes("bytes", "files", try_files, (options,), options.processes)


# ---- files as large as they may be


def number(value):
    return value.to_bytes(4, "big")


PUSH, TRUE, NOT, HALT, RET = b"\0\0" + bytes(8), b"\0\1\1", b"\4\1" + bytes(4), b"\x19", b"\x12"


def store(place):
    return b"\2" + number(place)


def jump(target):
    return b"\6" + number(target)


def unless(target):
    return b"\7" + number(target)


def call_of(body):
    return b"\x11" + number(body)


def slots_of(count, first, end):
    """Slots of a bool, each of which is set from an address up to an end."""
    return [b"\1" + number(first(place)) + number(end) + b"\0" for place in range(count)]


def body_of(start, params, slots):
    return number(start) + number(params) + b"\0\0" + number(len(slots)) + b"".join(slots)


def file_of(bodies, instructions):
    head = b"HERACODE\0\0" + number(len(bodies)) + b"".join(bodies)
    return head + number(len(instructions)) + b"".join(instructions)


def filled(begin, some, end):
    """Instructions of a file of 65,535 slots that is as long as it may be: those at the beginning, then as many rounds as fit,
    of which each is told its address, then those at the end."""
    room = LONGEST - 100 - 10 * SLOTS - sum(map(len, begin)) - sum(map(len, end))
    code = list(begin)
    for _ in range(room // sum(map(len, some(0)))):
        code += some(len(code))
    return code + end


def of_slots(begin, some, end):
    """A file of one body that sets all slots and goes on so; their ranges go from behind each store up to the end. And how many
    instructions it has."""
    stores = [it for place in range(SLOTS) for it in (TRUE, store(place))]
    code = filled(begin + stores, some, end)
    return file_of([body_of(0, 0, slots_of(SLOTS, lambda place: len(begin) + 2 * place + 2, len(code)))], code), len(code)


def jumps_and_no_operand():
    data, count = of_slots([], near, [NOT, HALT])
    return data, (b"refused Rejected at %d\n" % (count - 2), 3)


def branches_half_ahead():
    """A million places behind, which all wait for their state at once."""
    rounds = (LONGEST - 100) // 18
    code = [it for place in range(rounds) for it in (TRUE, unless(2 * rounds + 2 * place))]
    code += [jump(2 * rounds + place + 1) for place in range(2 * rounds)] + [HALT]
    return file_of([body_of(0, 0, [])], code), (b"", 0)


def many_calls():
    """Of 65,535 operands, which are all taken by a call in each of so many branches."""
    code = [TRUE] * SLOTS
    for _ in range(2000):
        code += [TRUE, unless(len(code) + 4), call_of(1), HALT]
    bodies = [body_of(0, 0, []), body_of(len(code) + 1, SLOTS, slots_of(SLOTS, lambda place: 0, 0))]
    return file_of(bodies, code + [HALT, RET]), (b"turns spent\n", 4)


def calls_of_others():
    """The same with one operand more below each next branch: more looks at operands than are taken."""
    code = [TRUE] * SLOTS
    for _ in range(2000):
        code += [TRUE, TRUE, unless(len(code) + 5), call_of(1), HALT]
    bodies = [body_of(0, 0, []), body_of(len(code) + 1, SLOTS, slots_of(SLOTS, lambda place: 0, 0))]
    return file_of(bodies, code + [HALT, RET]), (b"", 9)


def near(at):
    return [jump(at + 1)]


def branch(at):
    return [TRUE, unless(at + 2)]


def alone(some):
    return file_of([body_of(0, 0, [])], filled([], lambda at: [some], [HALT]))


# A name, and what makes the file and what `exec 0` is to say of it.
LARGE = {
    "jumps to the next address": lambda: (of_slots([], near, [HALT])[0], (b"", 0)),
    "the same, and an operand is missing at the end": jumps_and_no_operand,
    "the same, and a jump far behind the code": lambda: (
        of_slots([], near, [jump(2**32 - 1)])[0], (b"refused Rejected at %d\n" % (2**32 - 1), 3)),
    "branches": lambda: (of_slots([], branch, [HALT])[0], (b"", 0)),
    "a branch over all stores": lambda: (of_slots([TRUE, unless(200_000)], branch, [HALT])[0], (b"refused Rejected at 4\n", 3)),
    "branches half of the code ahead": branches_half_ahead,
    "instructions of a byte": lambda: (alone(HALT), (b"", 0)),
    "1,600,000 operands": lambda: (alone(PUSH), (b"", 0)),
    "65,535 operands, taken in each of 2,000 branches": many_calls,
    "65,535 others, taken in each of 2,000 branches": calls_of_others,
}


def make(name, folder, made):
    """Writes the file, in a process of its own: a process that is begun by a large one counts that one's memory as its own."""
    data, wanted = LARGE[name]()
    folder.write("code", data)
    made.put((len(data), wanted))


def try_large(options):
    made = multiprocessing.Queue()
    with Folder() as folder:
        for name in LARGE:
            maker = multiprocessing.Process(target=make, args=(name, folder, made))
            maker.start()
            length, wanted = made.get()
            maker.join()
            seconds, peak, status, text = run.once([options.program, "exec", "0", folder.path + "/code"])
            if (text.encode(), status) != wanted:
                raise Wrong(f"{name}: {text[:500]!r} {status}, wanted {wanted}")
            print(f"large: {name}, {length} bytes: {seconds:.2f} s, {peak:.0f} MB", flush=True)
        folder.write("code", bytes(LONGEST + 1))
        found = call(options.program, ["exec", "0", folder.path + "/code"])
        if found != (b"refused TooLong at %d\n" % LONGEST, b"", 3):
            raise Wrong(f"a file of {LONGEST + 1} bytes: {found}")


# ---- times

LOOPS = {
    "a `while` of 1,000,000 rounds": "main { int i = 0; int s = 0; while (i < 1000000) { s = s + i % 7; i = i + 1; } print s; }",
    "1,000,000 calls": "func int f(int n) { return n + 1; } main { int i = 0; while (i < 1000000) { i = f(i); } print i; }",
    "applies of 100,000 rows, and a `select`": "relation R(a int, b int); main { int i = 0; while (i < 100000) { "
    "apply {+R(i, i % 9)}; i = i + 1; } commit; print count(select(t in R : t.b > 4)); }",
}
LARGEST = 1_048_576


def largest(head, some, tail):
    """A script of the greatest length: the head, as many pieces as fit, the tail, and blanks."""
    pieces, length, place = [], len(head) + len(tail), 0
    while length + len(some(place)) <= LARGEST:
        pieces.append(some(place))
        length += len(pieces[-1])
        place += 1
    return (head + "".join(pieces) + tail).ljust(LARGEST)


def largest_scripts():
    yield "assignments", largest("main { int x = 1; ", lambda at: f"x = x * 3 % 1000 + {at}; ", "}")
    yield "funcs", largest("", lambda at: f"func int f{at}(int n) {{ int m = n + 1; if (n < 3) {{ return m; }} return n * m; }} ", "")
    yield "procs with walks", largest(
        "relation R(a int, b text); ",
        lambda at: f"proc p{at}(rel R r) {{ foreach (t in select(u in r : u.a > {at})) {{ print [a = t.a]; apply {{-R(t.a, t.b)}}; }} }} ",
        "main { }",
    )
    yield "locals", largest("main { ", lambda at: f"int x{at} = {at}; ", "}")
    yield "blocks of locals", largest("main { ", lambda at: f"if (true) {{ int x = {at}; print x; }} ", "}")


def seconds_of(words, times):
    """The least processor time, and the peak memory of that run."""
    best = run.best(words, times, (0, 1, 4))
    if best is None:
        raise Wrong(f"{words} does not end well")
    return best[:2]


def try_speed(options):
    with Folder() as folder:
        at = lambda name: os.path.join(folder.path, name)
        turns = str(10**12)
        folder.write("nothing", b"main { }")
        folder.write("nothing.code", packed(options.program, folder, "main { }"))
        empty = [seconds_of([options.program, *words], options.times)[0] for words in (
            ["eval", turns, at("nothing")], ["exec", turns, at("nothing.code")])]
        for name, text in LOOPS.items():
            folder.write("code", packed(options.program, folder, text))
            evaluated = seconds_of([options.program, "eval", turns, folder.script], options.times)[0] - empty[0]
            executed = seconds_of([options.program, "exec", turns, at("code")], options.times)[0] - empty[1]
            print(f"speed: {name}: eval {evaluated:.3f} s, exec {executed:.3f} s: {executed / evaluated:.2f} times", flush=True)
        for name, text in largest_scripts():
            data = packed(options.program, folder, text)
            folder.write("code", data)
            words = [["check", folder.script], ["pack", folder.script], ["exec", "0", at("code")]]
            check, pack, verify = [seconds_of([options.program, *it], options.times) for it in words]
            print(
                f"speed: {name}, {len(text)} bytes and {len(data)} of code: check {check[0]:.2f} s, {check[1]:.0f} MB; "
                f"pack {pack[0]:.2f} s, {pack[1]:.0f} MB: {pack[0] / check[0]:.2f} times; "
                f"exec 0 {verify[0]:.2f} s, {verify[1]:.0f} MB: {verify[0] / check[0]:.2f} times",
                flush=True,
            )


PARTS = {"bytes": try_bytes, "large": try_large, "speed": try_speed}


def main():
    parser = argparse.ArgumentParser()
    parser.add_argument("program")
    parser.add_argument("--cases")
    parser.add_argument("--only", choices=PARTS)
    parser.add_argument("--sample", type=int, default=1)
    parser.add_argument("--processes", type=int, default=2)
    parser.add_argument("--times", type=int, default=5)
    options = parser.parse_args()
    options.program = os.path.abspath(options.program)
    options.cases = options.cases and os.path.abspath(options.cases)
    code_meaning.check_itself()
    try:
        for part in PARTS:
            if options.only in (None, part):
                PARTS[part](options)
    except Wrong as wrong:
        print(f"WRONG: {str(wrong)[:2000]}")
        return 1
    return 0


if __name__ == "__main__":
    sys.exit(main())
