"""The part of hostile.py that tries halves with no room for more, and a file of 2^20 records. What is wanted of each command
follows from the lengths that docs/FORMATS.md gives.
"""

import hashlib

import reader
import tables
from common import Wrong, call, has_command

LIMIT = 268_435_456
NAMES = "abcdefghijklmo"
LONG = b"x" * 1023
DECLARED = "relation A(v int); relation T(k text, n int); relation R(n int, %s); " % ", ".join(f"{name} text" for name in NAMES)
# A sign, a relation's number, an int, and texts that end in a zero.
ATOM = 3 + 8 + len(NAMES) * (len(LONG) + 1)
# How many of these fit behind a gate, with the gates and the count.
FIRST = 18_432
RECORDS = 1 << 20


def put_in(first, rows, more):
    """A script that commits so many long rows, doubled from the first so many, and what else is in `more`."""
    one = ", ".join(f"{name} = t.k" for name in NAMES)
    each = ", ".join(f"{name} = t.{name}" for name in NAMES)
    return (
        DECLARED
        + "main { rel R wide = rows(R){}; int n = 0; "
        + f"while (n < {first}) {{ wide = union(wide, map(t in T : [n = n, {one}])); n = n + 1; }} "
        + f"while (n < {rows}) {{ wide = union(wide, map(t in wide : [n = t.n + n, {each}])); n = n * 2; }} "
        + f"{more} apply bulk(+R, wide); commit; }}"
    ).encode()


def digest(folder):
    return [(len(data), hashlib.sha256(data).digest()) for data in folder.read()]


def ask(program, folder, words, source, wanted, stays):
    """A command answers so, and leaves the files where it is to."""
    places = {"D": folder.database, "F": folder.script, "RULES": folder.script + ".rules"}
    folder.write("script", source)
    folder.write("script.rules", b"A.v: band;")
    before = stays and digest(folder)
    text, complaint, status = call(program, [places.get(word, word) for word in words])
    if (text, status) != wanted or complaint:
        raise Wrong(f"{words} over a half that is nearly full: {text[:200]!r} {complaint[:200]!r} {status}, wanted {wanted}")
    if stays and digest(folder) != before:
        raise Wrong(f"{words} over a half that is nearly full changed a file")
    return 1


def fill(program, folder):
    """A half with room for one long text behind its gate, and not for two."""
    run = ["run", "D", "1000000", "F"]
    yield ask(program, folder, ["init", "D", "F"], DECLARED.encode(), (b"created\n", 0), False)
    yield ask(program, folder, ["import", "D", "T", "F"], b"k,n\n" + LONG + b",1\n", (b"imported 1\n", 0), False)
    yield ask(program, folder, run, put_in(9, FIRST, ""), (b"commit 1\n", 0), False)
    free = LIMIT - len(folder.read()[1])
    rows = (free - 5) // ATOM
    yield ask(program, folder, run, put_in(rows, rows, ""), (b"commit 1\n", 0), False)
    free -= 5 + rows * ATOM
    if len(folder.read()[1]) != LIMIT - free:
        raise Wrong(f"a half has {len(folder.read()[1])} bytes, wanted {LIMIT - free}")


def try_full(program, folder, draw, number, processes):
    """What commands answer where a half has no room for what they write, and that they change nothing then."""
    if number:
        return
    folder.put(b"", b"")
    yield from fill(program, folder)
    twice = b"k,n\n" + b"".join(LONG + b",%d\n" % row for row in range(2, 20))
    over, broken = put_in(9, 9, ""), put_in(9, 9, "apply {+A(500)};")
    yield ask(program, folder, ["run", "D", "1000", "F"], over, (b"", 10), True)
    if has_command(program, "guard"):
        yield ask(program, folder, ["guard", "D", "1000", "RULES", "F"], over, (b"", 10), True)
        line = b"guard band refused A[500]\n"
        yield ask(program, folder, ["guard", "D", "1000", "RULES", "F"], broken, (line, 11), True)
    yield ask(program, folder, ["import", "D", "T", "F"], twice, (b"", 10), True)
    # In pages, a row of which two go into one takes more than in a record.
    yield ask(program, folder, ["checkpoint", "D"], b"", (b"", 10), True)
    folder.put(b"", b"")
    yield from try_many(program, folder)


def try_many(program, folder):
    """A file of 2^20 records, of which each row stands twice."""
    numbers = b"a\n" + b"".join(b"%d\n" % (row // 2) for row in range(RECORDS))
    yield ask(program, folder, ["init", "D", "F"], b"relation R(a int);", (b"created\n", 0), False)
    yield ask(program, folder, ["import", "D", "R", "F"], numbers, (b"imported %d\n" % (RECORDS // 2), 0), False)
    wanted = b"a\n" + b"".join(b"%d\n" % row for row in range(RECORDS // 2))
    yield ask(program, folder, ["export", "D", "R"], b"", (wanted, 0), True)
    state = [{(row,) for row in range(RECORDS // 2)}]
    if tables.state_of(*folder.read()) != ([(b"R", [(b"a", tables.INT)])], state):
        raise Wrong("an import of 2^20 records left another state")


PARTS = {"full": try_full}
