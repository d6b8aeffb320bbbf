#!/usr/bin/env python3
"""Tries the launcher `./hera` over a built program: its words on standard error, and that it changes nothing else.

    tools/try_launcher.py PROGRAM

The gate doesn't run it. It ends with 0 where each try is right, and else says which was not.
"""

import fcntl
import os
import pty
import shutil
import subprocess
import sys
import tempfile

TOP = os.path.dirname(os.path.dirname(os.path.abspath(__file__)))

# A name of the try, a script, and what stands on the terminal behind it.
FAULTS = [
    ("unknown", "main {\n  int n = 1;\n\tprint n + m;\n}\n", "s.hera:3:12: Unknown\n\tprint n + m;\n\t          ^\n"),
    ("keyword", "main { int map = 1; }\n", "`map` is a keyword"),
    ("a keyword as an attribute", "relation R(int int);\n", "`int` is a keyword"),
    ("a mark that is missing", "main { print 1\nprint 2; }\n", "Is a `;` missing before `print`?"),
    ("a relation behind main", "main { }\nrelation R(a int);\n", "Relations come first"),
    ("characters", "main { print \"äö\" + 1; }\n", "s.hera:1:19: Mismatch\n"),
    ("the end", "main {", "The script ends here."),
    ("trap", "main { print 1;\nprint 1 / 0; }\n", "s.hera:2:9: DivZero\nprint 1 / 0; }\n        ^\n"),
]


# A file for `import` into a relation of one int, and what stands on the terminal behind it.
FILES = [
    ("a bad record", "a\n1\n\nx\n", "s.csv:4: Record\nx\nThe first record has"),
    ("no record", "", "s.csv: Record\n"),
    ("a record of two lines", 'a\n"1\n2"\n', "s.csv:2: Record\n"),
]


def on_a_terminal(command, folder, output):
    """Runs it with standard error on a terminal. Its status, output and what the terminal got."""
    mine, its = pty.openpty()
    process = subprocess.Popen(command, cwd=folder, stdout=output, stderr=its, stdin=subprocess.DEVNULL)
    os.close(its)
    printed = process.stdout.read() if output == subprocess.PIPE else b""
    shown = b""
    try:
        while some := os.read(mine, 4096):
            shown += some
    except OSError:
        pass  # The other end is closed.
    os.close(mine)
    return process.wait(), printed, shown.decode().replace("\r\n", "\n")


def run(command, folder):
    done = subprocess.run(command, cwd=folder, capture_output=True, stdin=subprocess.DEVNULL)
    return done.returncode, done.stdout, done.stderr.decode()


def wrong_in(program, folder):
    """The tries that were not right, a line each."""
    hera = os.path.join(folder, "hera")
    for name, script, told in FAULTS:
        with open(os.path.join(folder, "s.hera"), "w") as file:
            file.write(script)
        words = ["eval", "100", "s.hera"]
        own = run([program, *words], folder)
        if run([hera, *words], folder) != (own[0], own[1], ""):
            yield f"{name}: without a terminal"
        status, printed, shown = on_a_terminal([hera, *words], folder, subprocess.PIPE)
        if (status, printed) != own[:2] or told not in shown:
            yield f"{name}: {status} {printed} {shown}"
        with open(os.path.join(folder, "output"), "w+b") as output:
            status, _, shown = on_a_terminal([hera, *words], folder, output)
            output.seek(0)
            if (status, output.read()) != own[:2] or told not in shown:
                yield f"{name}: into a file: {status} {shown}"
    yield from wrong_in_files(program, hera, folder)
    for words in ([], ["help"]):
        status, printed, shown = run([hera, *words], folder)
        if (status, printed) != (2, b"usage\n") or "hera import DIR R FILE" not in shown:
            yield f"forms: {words} {status} {printed} {shown}"
        built = os.path.join(folder, "crates")
        os.rename(built, built + ".away")
        if run([hera, *words], folder) != (status, printed, shown):
            yield f"forms where no program is built: {words}"
        os.rename(built + ".away", built)
    used = os.path.join(folder, "used")
    os.mkdir(used)
    held = os.open(used, os.O_RDONLY)
    fcntl.flock(held, fcntl.LOCK_EX)
    for words in (["dump", used], ["import", used, "R", "s.csv"], ["export", used, "R"], ["guard", used, "1", "r", "s.hera"], ["weave", used, "1", "0", "s.hera"]):
        if run([hera, *words], folder) != (6, b"", f"hera: another command is using the folder {used}\n"):
            yield f"a folder in use: {words[0]}"
    os.close(held)
    if run([hera, "dump", used], folder) != (5, b"no database\n", ""):
        yield "a folder that is free again"
    yield from wrong_in_ways(hera, folder)


def wrong_in_ways(hera, folder):
    """The ways to call it that were not right: through a link, on the working folder, and with a file that a shell opened."""
    os.symlink(hera, os.path.join(folder, "linked"))
    if run([os.path.join(folder, "linked"), "help"], folder) != run([hera, "help"], folder):
        yield "through a link"
    held = os.open(folder, os.O_RDONLY)
    fcntl.flock(held, fcntl.LOCK_EX)
    if run([hera, "dump", ""], folder) != (6, b"", "hera: another command is using the folder .\n"):
        yield "the working folder in use"
    os.close(held)
    write(folder, "s.hera", "main { print 5; }")
    command = ["bash", "-c", f"{hera} eval 1 <(cat s.hera)"]
    for told in (run(command, folder), on_a_terminal(command, folder, subprocess.PIPE)):
        if told != (0, b"5\n", ""):
            yield f"a file that a shell opened: {told}"
    os.mkfifo(os.path.join(folder, "pipe"))
    command = ["bash", "-c", f"echo main > pipe & {hera} check pipe"]
    told = on_a_terminal(command, folder, subprocess.PIPE)
    if told != (3, b"refused Syntax at 5\n", ""):
        yield f"a pipe, which can't be read twice: {told}"


def write(folder, name, text):
    with open(os.path.join(folder, name), "w") as file:
        file.write(text)


def wrong_in_files(program, hera, folder):
    """The tries of `import`, `guard`, `weave`, `pack` and `exec` that were not right, where the program has these."""
    write(folder, "s.hera", "relation R(a int); main { print 1 / 0; }")
    run([program, "init", "d", "s.hera"], folder)
    write(folder, "rules", "R.a: bucket;\n")
    tries = [(text, told, ["import", "d", "R", "s.csv"]) for _, text, told in FILES]
    tries.append(("", "rules:1:6: Mismatch\nR.a: bucket;\n", ["guard", "d", "100", "rules", "s.hera"]))
    write(folder, "t.hera", "main { print m; }\n")
    tries.append(("", "t.hera:1:14: Unknown\nmain { print m; }\n", ["weave", "d", "100", "0", "s.hera", "t.hera", "s.hera"]))
    tries.append(("", "t.hera:1:14: Unknown\nmain { print m; }\n", ["pack", "t.hera"]))
    write(folder, "said.hera", 'main { print "trap Assert at 3"; }')
    tries.append(("", "", ["eval", "1", "said.hera"]))
    with open(os.path.join(folder, "code"), "wb") as file:
        file.write(run([program, "pack", "s.hera"], folder)[1])
    told = "code: DivZero\nSomething is divided by 0. Byte 34 of the script of which it was packed is the place.\n"
    tries.append(("", told, ["exec", "1", "code"]))
    tries.append(("", "s.hera: BadCode\nThe field that begins", ["exec", "1", "s.hera"]))
    tries.append(("", "hera: none.hera: No such file", ["check", "none.hera"]))
    tries.append(("", "hera: a call on a file of the folder failed", ["dump", "s.hera"]))
    for text, told, words in tries:
        write(folder, "s.csv", text)
        own = run([program, *words], folder)
        if own[0] == 2:
            continue
        status, printed, shown = on_a_terminal([hera, *words], folder, subprocess.PIPE)
        if (status, printed) != own[:2] or told not in shown or bool(told) != bool(shown):
            yield f"{words} of {text!r}: {status} {printed} {shown}"


def main():
    program = os.path.abspath(sys.argv[1])
    with tempfile.TemporaryDirectory() as folder:
        shutil.copy(os.path.join(TOP, "hera"), folder)
        shutil.copytree(os.path.join(TOP, "tools"), os.path.join(folder, "tools"))
        built = os.path.join(folder, "crates", "hera_shell", "out")
        os.makedirs(built)
        os.symlink(program, os.path.join(built, "hera_shell"))
        wrong = list(wrong_in(program, folder))
    print("\n".join(wrong) if wrong else "the launcher is right")
    return 1 if wrong else 0


if __name__ == "__main__":
    sys.exit(main())
