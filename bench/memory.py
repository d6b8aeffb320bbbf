"""Refuses the allocations of a command in turn, each alone, and looks at what it answers and leaves."""

import os
import re
import shutil
import subprocess

import code_file
from common import FORMS, Folder, Wrong, call, has_command

BENCH = os.path.dirname(os.path.abspath(__file__))
EXAMPLES = os.path.join(BENCH, "..", "examples")
TWO = b"relation R(a int); relation S(a int); "
COMMITS = TWO + b"main { apply {+R(1)}; commit; apply {+R(2)}; commit; }"
WIDE = b"relation R(a int, b text); relation S(a int); relation T(k int);"
NONE = b"no database\n"
ADD = b"a\n3\n"
GUARDED = TWO + b"main { apply {+R(4)}; commit; }"
FIRST, SECOND = (TWO + b"main { apply {+R(%d)}; commit; }" % row for row in (5, 6))
# The same of rows behind those of a run of two commits.
THIRD, FOURTH = (TWO + b"main { apply {+R(%d)}; commit; }" % row for row in (3, 4))
# How many lines a command prints for each commit, where that is not one.
LINES = {"weave": 2}


def rows_text(count):
    return b"rows %d\n" % count + b"".join(b"[%d]\n" % row for row in range(1, count + 1))


# What `dump` prints where R has the rows from 1 to this.
ROWS = [b"relation R(a int);\n" + rows_text(count) + b"relation S(a int);\nrows 0\n" for count in range(7)]


def widened(count):
    """What it prints when that is widened."""
    rows = b"".join(b'[%d, ""]\n' % row for row in range(1, count + 1))
    head = b"relation R(a int, b text);\nrows %d\n" % count
    return head + rows + b"relation S(a int);\nrows 0\nrelation T(k int);\nrows 0\n"


class Refuser:
    """The library that refuses an allocation of a program."""

    def __init__(self, folder):
        self.library = os.path.join(folder.path, "refuse.so")
        self.count_file = os.path.join(folder.path, "count")
        source = os.path.join(BENCH, "refuse.c")
        compiler = os.environ.get("CC", "cc")
        subprocess.run([compiler, "-O2", "-shared", "-fPIC", "-o", self.library, source], check=True)

    def call(self, number, program, words, **more):
        """Calls the program with the allocation of this number refused, and gives how many it made, and the answer."""
        environment = {"LD_PRELOAD": self.library, "REFUSE": str(number), "REFUSE_COUNT": self.count_file}
        answer = call(program, words, env=environment, **more)
        with open(self.count_file, "rb") as file:
            return int(file.read()), answer


def may_be_left(name, printed, start, end):
    """What `dump` may print behind a command that printed this and found no memory. It begins over so many rows and ends over
    so many, one more behind each commit's lines."""
    if name == "init":
        return [NONE, ROWS[0]]
    if name == "widen":
        return [widened(start)] if printed else [ROWS[start], widened(start)]
    commits = printed.count(b"\n") // LINES.get(name, 1)
    return ROWS[start : end + 1][commits * (end > start) :][:2]


def is_cut(answer, whole):
    """A prefix of the whole text, for want of memory, or since a call on a file or the output met that."""
    text, complaint, status = answer
    return status in (6, 8, 9) and whole.startswith(text) and not complaint


def refuse_each(refuser, program, folder, name, words, whole, start=0, end=0):
    """Refuses each allocation of a command in turn, each time over the same files, and then none."""
    before, number, ended = folder.read(), 0, 0
    while True:
        number += 1
        folder.put(*before)
        allocations, answer = refuser.call(number, program, words)
        if number > allocations:
            break
        ended += answer != (whole, b"", 0)
        if answer != (whole, b"", 0) and not is_cut(answer, whole):
            raise Wrong(f"{name} with allocation {number} refused: {answer}")
        if name in ("dump", "export") and folder.read() != before:
            raise Wrong(f"{name} with allocation {number} refused changed a file")
        left = may_be_left(name, answer[0], start, end)
        if name not in ALONE and call(program, ["dump", folder.database])[0] not in left:
            raise Wrong(f"what {name} left with allocation {number} refused: {folder.read()}")
    if answer != (whole, b"", 0):
        raise Wrong(f"{name} with ample memory: {answer}")
    print(f"memory: {name}: {number - 1} allocations refused, of which {ended} ended the command", flush=True)


# The commands without a folder.
ALONE = ("check", "list", "eval", "drill", "pack", "exec")


def steps_over(folder):
    """Commands over a folder one after the other: the name, the words, what is printed, the rows before and behind."""
    folder.write("script", COMMITS)
    texts = {"wide": WIDE, "add": ADD, "rules": b"R.a: band;", "guarded": GUARDED, "first": FIRST, "second": SECOND}
    at = {name: os.path.join(folder.path, name) for name in texts}
    for name, text in texts.items():
        folder.write(name, text)
    d = folder.database
    return [
        ("init", ["init", d, folder.script], b"created\n", 0, 0),
        ("run", ["run", d, "100", folder.script], b"commit 1\ncommit 2\n", 0, 2),
        ("dump", ["dump", d], ROWS[2], 2, 2),
        ("checkpoint", ["checkpoint", d], b"checkpointed\n", 2, 2),
        ("import", ["import", d, "R", at["add"]], b"imported 1\n", 2, 3),
        ("export", ["export", d, "R"], b"a\n1\n2\n3\n", 3, 3),
        ("guard", ["guard", d, "100", at["rules"], at["guarded"]], b"commit 1\n", 3, 4),
        ("weave", ["weave", d, "100", "0", at["first"], at["second"]], b"session 0\ncommit 1\nsession 1\ncommit 1\n", 4, 6),
        ("widen", ["widen", d, at["wide"]], b"widened\n", 6, 6),
    ]


def try_program(program):
    """Each allocation of each command of the program: of a script, and of commands one after the other over a folder."""
    with Folder() as folder:
        refuser = Refuser(folder)
        shutil.copy(os.path.join(EXAMPLES, "supplier.hera"), folder.script)
        folder.put(b"", b"")
        alone = [["check", folder.script], ["list", folder.script], ["eval", "1000", folder.script], ["drill", "3"]]
        if has_command(program, "pack"):
            code = os.path.join(folder.path, "code")
            folder.write("code", call(program, ["pack", folder.script])[0])
            alone += [["pack", folder.script], ["exec", "1000", code]]
        for words in alone:
            refuse_each(refuser, program, folder, words[0], words, call(program, words)[0])
        missing = 0
        for name, words, whole, start, end in steps_over(folder):
            if name in FORMS and not has_command(program, name):
                print(f"memory: {name}: left out, the program doesn't have it", flush=True)
                missing += end - start
                continue
            if missing and name == "export":
                whole = b"a\n1\n2\n"
            refuse_each(refuser, program, folder, name, words, whole, start - missing, end - missing)


# A case that is run on a copy of the files, with a crash behind it, after which the files are dumped.
CASE = b"== tried: %s\n=> fail 90..91 0\n%s\n"
INIT = b"== made: init d -\n" + TWO + b"\n"
RUN = b"== ran: run d 100 -\n" + COMMITS + b"\n"
TRIED = re.compile(rb"== tried: [^\n]*\n=> fail 90..91 0\n-- from 90 on\n(.*?)-- (\d+)\n(.*?)-- (\d+)\n", re.S)
# The name, the cases before, the words, what their source has, and the rows before and behind.
SCENARIOS = [
    ("eval", b"", b"eval 1000 supplier.hera", b"", 0, 0),
    ("pack", b"", b"pack supplier.hera", b"", 0, 0),
    ("exec", b"", b"exec 1000 -", b"=> code " + code_file.EXAMPLE.hex().encode(), 0, 0),
    ("init", b"", b"init d -", TWO, 0, 0),
    ("run", INIT, b"run d 100 -", COMMITS, 0, 2),
    ("dump", INIT + RUN, b"dump d", b"", 2, 2),
    ("checkpoint", INIT + RUN, b"checkpoint d", b"", 2, 2),
    ("widen", INIT + RUN, b"widen d -", WIDE, 2, 2),
    ("import", INIT + RUN, b"import d R -", ADD, 2, 3),
    ("export", INIT + RUN, b"export d R", b"", 2, 2),
    ("guard", INIT + RUN, b"guard d 100 - -", b"=> rules R.a: band;\n" + THIRD, 2, 3),
    ("weave", INIT + RUN, b"weave d 100 0 - -", b"=> before " + THIRD + b"\n" + FOURTH, 2, 4),
]


def try_cases(program):
    """The same by the program of hera_cases: files and output in memory, which may want memory themselves, and a crash."""
    with Folder() as folder:
        refuser = Refuser(folder)
        for name, before, words, script, start, end in SCENARIOS:
            refuse_in_scenario(refuser, program, name, before + CASE % (words, script), start, end)


def refuse_in_scenario(refuser, program, name, lines, start, end):
    """Looks at the runs in which the case itself met the refusal: those before it, and the cases' own, are passed over."""
    more = {"input": lines, "cwd": EXAMPLES}
    whole = call(program, [], **more)[0]
    wanted, number, met = TRIED.search(whole), 0, 0
    if wanted[2] == b"2":
        print(f"crash: {name}: left out, the program doesn't have it", flush=True)
        return
    while True:
        number += 1
        allocations, (text, _, status) = refuser.call(number, program, [], **more)
        if number > allocations:
            break
        found = TRIED.search(text)
        if status != 0 or not found or found[0] == wanted[0] or not text.startswith(whole[: wanted.start()]):
            continue
        met += 1
        if (found[1], found[2]) == (wanted[1], wanted[2]):
            good = found[4] in (b"6", b"8", b"9") and wanted[3].startswith(found[3])
        else:
            good = is_cut((found[1], b"", int(found[2])), wanted[1])
            good = good and (name in ALONE or found[3] in may_be_left(name, found[1], start, end))
        if not good:
            raise Wrong(f"{name} over files in memory with allocation {number} refused: {found[0]!r}")
    print(f"crash: {name}: {number - 1} allocations refused, of which {met} were the command's", flush=True)
