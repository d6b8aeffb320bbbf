#!/usr/bin/env python3
"""Runs the program, and says on standard error where in a script a fault lies that it prints.

    tools/explain.py PROGRAM WORD..

Standard output and the status are the program's own, and what it prints goes on as it comes. Where its last line is
`refused NAME at OFFSET` or `trap NAME at OFFSET`, what follows on standard error is the place as FILE:LINE:COLUMN (columns
count characters), that line with a caret under it, and a sentence on what the name means. Of a file of comma-separated
values it is the line on which the record begins; of a code file, whose script isn't there, the file and the sentence
alone. Of a guarded run, and of woven scripts, a refusal may be that of any file: it is the one of the first script of
which `check` says the same, and else of the guards. A pipe can't be read twice, so where FILE is one nothing follows.

Behind the statuses 6, 9 and 10, which have no line of their own, a sentence says what they mean, and behind `script
unread` which file can't be read, and why.
"""

import csv
import os
import re
import signal
import stat
import subprocess
import sys

FAULT = re.compile(rb"(?:.*\n)?(?:refused|trap) (\w+) at (\d+)\n", re.DOTALL)
# At least as long as the line of a fault and the line feed before it.
TAIL = 64

# How many words come before FILE in each form that ends with one.
SCRIPT_AT = {
    "check": 1, "list": 1, "eval": 2, "pack": 1, "exec": 2, "init": 2, "widen": 2, "run": 3, "import": 3, "guard": 4,
}

MEANINGS = {
    "TooLong": "A script has at most 1,048,576 bytes.",
    "BadUtf8": "These bytes are no UTF-8.",
    "BadToken": "No token begins here, or the one that does is not ended or out of range: a comment, a text (at most "
    "1,023 bytes, on one line), a number (at most 9223372036854775807), a name (at most 255 bytes), an unknown sign.",
    "TooDeep": "Brackets may nest 64 deep.",
    "Syntax": "No script goes on like this here.",
    "Unknown": "Nothing of this name is visible here.",
    "Repeated": "This name is taken already.",
    "Mismatch": "This is not of the type, or has not the operands, that is asked for here.",
    "Impure": "A func changes nothing and prints nothing: no print, apply, commit, rollback, and no call of a proc.",
    "NoReturn": "A func ends with a `return`, or with an `if` with `else` each of whose blocks does.",
    "TooMany": "A schema has at most 16 attributes, and a script at most 256 relations.",
    "DivZero": "Something is divided by 0.",
    "Overflow": "A number leaves the range from -9223372036854775808 to 9223372036854775807.",
    "EmptyMin": "There is no least or greatest of no rows.",
    "ApplyFail": "The delta is `fail`: it puts a row in and takes the same one out, or was merged of such as conflict. "
    "`isfail` asks before; a smash `!` lets the second win.",
    "WhenFail": "The delta behind `when` is `fail`: `isfail` asks before.",
    "ReadFail": "The delta that is read is `fail`: `isfail` asks before.",
    "Assert": "The condition does not hold here.",
    "Record": "The first record has the names of the attributes in their order, and each other one a field for each: of an "
    "int an optional `-` and digits, of a bool `true` or `false`, of a text at most 1,023 bytes.",
}

# What the names mean of a code file.
OF_CODE = {
    "TooLong": "A code file has at most 16,777,216 bytes.",
    "BadCode": "The field that begins at this byte breaks the format of code files, or ends behind the file; or a byte stands "
    "behind the last instruction.",
    "Rejected": "The instruction at this address, from 0, breaks a rule of code that may be run.",
}

# What the statuses mean behind which nothing else says why.
SILENT = {
    6: "a call on a file of the folder failed: is DIR a folder that may be read and written, and is there room?",
    9: "there was no memory, or a code file asks for too many looks at operands.",
    10: "a half would pass 268,435,456 bytes: `checkpoint` may make room.",
}

WORDS = (
    "relation func proc main int bool text delta rel tuple if else while foreach in print apply commit rollback assert "
    "return true false fail select map project rename union minus inter join group by count sum min max empty rows bulk "
    "ins del isfail when"
).split()

# The keywords with which a declaration or a statement begins, and those that are values.
STARTS = (
    "relation func proc main int bool text delta rel tuple if while foreach print apply commit rollback assert return"
).split()
VALUES = ("true", "false", "fail")

DECLARED_FIRST = " Relations come first, then funcs, then procs, and then one `main`."


def script_of(words):
    """The name of the script that the words run, or None."""
    place = SCRIPT_AT.get(words[0]) if words else None
    return words[place] if place is not None and len(words) == place + 1 else None


def why_no_keyword(word, before):
    """Why this keyword can't stand here, behind what stands before it."""
    found = re.search(r"(\w+|\S)\s*\Z", before)
    last = found.group(1) if found else ""
    if last == "}" and word in ("relation", "func", "proc", "main"):
        return DECLARED_FIRST
    ends_value = last in VALUES or (last not in WORDS and re.search(r"[\w\")\]}]\Z", last))
    if word in STARTS and ends_value:
        return f" Is a `;` missing before `{word}`?"
    return f" `{word}` is a keyword, and can be no name."


def what_is_there(name, before, rest):
    """What stands at the fault, where that tells more, or an empty text."""
    found = re.match(r"[^\W\d]\w*", rest)
    word = found.group() if found else rest[:1]
    if not rest:
        return " The script ends here."
    if name == "Syntax" and word in WORDS:
        return why_no_keyword(word, before)
    if name in ("Unknown", "Repeated") and found:
        return f" The name is `{word}`."
    return ""


def explained(file, name, offset):
    """The lines on a fault of this name at this offset of the script."""
    with open(file, "rb") as source:
        script = source.read()
    if offset > len(script):
        return ""
    start = script.rfind(b"\n", 0, offset) + 1
    end = script.find(b"\n", offset)
    line = script[start : len(script) if end < 0 else end].decode(errors="replace").rstrip("\r")
    before = script[:offset].decode(errors="replace")
    beside = before[before.rfind("\n") + 1 :]
    number = script.count(b"\n", 0, offset) + 1
    under = "".join("\t" if it == "\t" else " " for it in beside)
    meaning = MEANINGS.get(name, "") + what_is_there(name, before, script[offset:].decode(errors="replace"))
    return f"{file}:{number}:{len(beside) + 1}: {name}\n{line}\n{under}^\n{meaning}\n"


def explained_record(file, number):
    """The lines on the record with this number, which is not good."""
    with open(file, encoding="utf-8-sig", errors="replace", newline="") as source:
        records, line = csv.reader(source), 1
        for record in records:
            number -= bool(record)
            if number == 0:
                return f"{file}:{line}: Record\n{','.join(record)}\n{MEANINGS['Record']}\n"
            line = records.line_num + 1
    return f"{file}: Record\n{MEANINGS['Record']}\n"


def explained_code(file, name, offset):
    """The lines on a fault of a code file, or on a trap at this offset of the script of which it was packed."""
    if name in OF_CODE:
        return f"{file}: {name}\n{OF_CODE[name]}\n"
    return f"{file}: {name}\n{MEANINGS.get(name, '')} Byte {offset} of the script of which it was packed is the place.\n"


def is_refused_so(program, file, line):
    """Whether `check` refuses this file with this line."""
    return subprocess.run([program, "check", file], stdout=subprocess.PIPE, stdin=subprocess.DEVNULL).stdout == line


def faulty_file(program, words, fault):
    """The file in which the fault lies, or None: of several it may be any."""
    if words[:1] == ["weave"]:
        files = words[4:] if fault.startswith(b"refused") else []
        return next((file for file in files if is_refused_so(program, file, fault)), None)
    file = script_of(words)
    if file and words[0] == "guard" and fault.startswith(b"refused"):
        return file if is_refused_so(program, file, fault) else words[3]
    return file


def files_among(words):
    """The files that the words have the program read, in their order."""
    if words[:1] == ["weave"]:
        return words[4:]
    if words[:1] == ["guard"]:
        return words[3:5]
    file = script_of(words)
    return [file] if file else []


def unread(words):
    """Which file can't be read, and why, or an empty text."""
    for file in files_among(words):
        if os.path.exists(file) and not os.path.isfile(file) and not os.path.isdir(file):
            continue
        try:
            with open(file, "rb") as source:
                source.read(1)
        except OSError as fault:
            return f"hera: {file}: {fault.strerror}\n"
    return ""


def explain(program, words, tail):
    """Says what the last line means, where it is a fault of the script."""
    fault = FAULT.fullmatch(tail)
    if not fault or not all(os.path.isfile(file) for file in files_among(words)):
        return
    name, offset = fault[1].decode(), int(fault[2])
    try:
        file = faulty_file(program, words, tail.splitlines(True)[-1])
        if file and words[0] == "exec":
            sys.stderr.write(explained_code(file, name, offset))
        elif file and name == "Record":
            sys.stderr.write(explained_record(file, offset))
        elif file and not (words[0] == "import" and name == "TooLong"):
            sys.stderr.write(explained(file, name, offset))
    except (OSError, csv.Error):
        pass


def fail_past_the_limit():
    """Makes a file that would grow past `ulimit -f` a failed call, and not a signal, as the launcher does."""
    signal.signal(signal.SIGXFSZ, signal.SIG_IGN)


def start(command, output):
    """Starts the program with its own signals and all files that are open, and hands on to it what ends this process."""
    program = subprocess.Popen(command, stdout=output, close_fds=False, preexec_fn=fail_past_the_limit)
    for number in (signal.SIGTERM, signal.SIGHUP, signal.SIGQUIT):
        signal.signal(number, lambda number, _: program.send_signal(number))
    # From a terminal the program gets it too.
    signal.signal(signal.SIGINT, signal.SIG_IGN)
    return program


def copy(source):
    """Writes on what comes, and gives the last of it. Where that fails, the program's next print fails too."""
    tail = b""
    while True:
        some = os.read(source, 65536)
        if not some:
            return tail
        tail = (tail + some)[-TAIL:]
        try:
            while some:
                some = some[os.write(1, some) :]
        except OSError:
            return b""


def run_through(command):
    """Runs the program with its output copied. Its status, and the last of what it printed."""
    source, output = os.pipe()
    program = start(command, output)
    os.close(output)
    tail = copy(source)
    os.close(source)
    return program.wait(), tail


def run_to_file(command):
    """Runs the program with standard output as it is, a file. Its status, and the last of what it printed."""
    before = os.fstat(1).st_size
    status = start(command, None).wait()
    try:
        with open("/proc/self/fd/1", "rb") as printed:
            printed.seek(max(before, os.fstat(1).st_size - TAIL))
            return status, printed.read()
    except OSError:
        return status, b""


def main():
    command = sys.argv[1:]
    try:
        kind = os.fstat(1).st_mode
    except OSError:
        kind = None
    if kind is not None and stat.S_ISREG(kind):
        status, tail = run_to_file(command)
    elif kind is not None and (stat.S_ISFIFO(kind) or stat.S_ISSOCK(kind) or os.isatty(1)):
        status, tail = run_through(command)
    else:
        os.execv(command[0], command)
    if status in (1, 3):
        explain(command[0], command[1:], tail)
    if status == 7:
        sys.stderr.write(unread(command[1:]))
    if status in SILENT:
        sys.stderr.write(f"hera: {SILENT[status]}\n")
    if status < 0:
        if -status != signal.SIGKILL:
            signal.signal(-status, signal.SIG_DFL)
        os.kill(os.getpid(), -status)
    return status


if __name__ == "__main__":
    sys.exit(main())
