#!/usr/bin/env python3
"""Compares the stored answers of crates/hera_cases with what the documents say, by bench/commands.py.

    bench/cases.py [FOLDER]

It goes through the cases of stdin, but for those that let calls fail, and those of `list`. Of woven scripts it is looked at
whether those that commit print and store what they do one after another, and of a packed script whether its code does
what the script does. FOLDER is another checkout.
"""

import os
import sys

import code_meaning
import meaning
import rules
import script as scripts
import tables
from beside_scripts import judge_weave, wanted_guard, wrong_in_packed
from commands import Answer, Folder, number_of
from common import Wrong

FOLDERS = ("init", "run", "dump", "checkpoint", "widen", "import", "export", "guard", "weave")
# Where the FILE words begin, and the most of them.
FILES = {
    "check": (1, 1), "list": (1, 1), "eval": (2, 1), "init": (2, 1), "run": (3, 1), "widen": (2, 1), "import": (3, 1),
    "guard": (3, 2), "weave": (4, 64), "pack": (1, 1), "exec": (2, 1),
}
# The settings that do nothing to the folder.
OTHERS = ("rules", "before", "code", "hex", "unseen")
PLACES = {"select": 0, "left": 1, "right": 2}


def parts_of(path):
    """The headings of the file, each with the lines behind it."""
    with open(path, "rb") as file:
        lines = file.read().split(b"\n")
    parts = []
    for line in lines[:-1] if lines[-1] == b"" else lines:
        if line.startswith(b"== "):
            parts.append((line[3:], []))
        elif parts:
            parts[-1][1].append(line)
    return parts


def set_file(folder, line):
    """Follows a setting `FILE HEX` or `cut FILE LENGTH`. False for another one."""
    words = line.split()
    if words[0] == "cut":
        place = PLACES[words[1]]
        folder.files[place] = folder.files[place][: int(words[2])]
    elif words[0] in PLACES:
        folder.files[PLACES[words[0]]] = bytes.fromhex(" ".join(words[1:]))
    else:
        return False
    return True


class Session:
    """The folder that the cases one behind another share."""

    def __init__(self, data):
        self.data, self.name, self.folder = data, "", Folder()
        # What the case before emitted, or the script that it packed where that is not shown.
        self.emitted, self.packed = b"", None

    def sources(self, words, lines):
        """The texts of the FILE words: of those before the last the ones that are given come first."""
        first, most = FILES.get(words[0], (0, 0)) if words else (0, 0)
        names = words[first : first + most]
        given = [line.split(b" ", 2)[2] for line in lines if line.startswith((b"=> rules ", b"=> before "))]
        given += [self.read(name) for name in names[:-1] if name != "-"]
        given += [b""] * (len(names) - 1 - len(given))
        last = b"\n".join(line for line in lines if not line.startswith(b"=> "))
        last += b"".join(bytes.fromhex(line[8:].decode()) for line in lines if line.startswith(b"=> code "))
        return given + [last + (self.read(names[-1]) if names and names[-1] != "-" else b"")]

    def read(self, name):
        if name == "+":
            return self.emitted
        path = os.path.join(self.data, name)
        if not os.path.isfile(path):
            return b""
        with open(path, "rb") as file:
            return file.read()

    def answer(self, words, lines, found):
        """What the case prints, and its status, or None where it is not told here. Found is what is stored."""
        form = bool(words) and words[0] in FOLDERS
        if form and words[0] in ("guard", "weave"):
            form = FILES[words[0]][0] < len(words) <= sum(FILES[words[0]])
        name = words[1] if form and len(words) > 1 else ""
        if not name or name != self.name:
            self.folder = Folder()
        self.name = name
        texts = self.sources(words, lines)
        settings = [line[3:].decode() for line in lines if line.startswith(b"=> ")]
        if not all([set_file(self.folder, line) for line in settings if line.split()[0] not in OTHERS]):
            return None
        if words[0] in ("pack", "exec"):
            return self.code(words, texts[-1], found)
        if not form or words[0] not in ("guard", "weave"):
            return self.folder.call(words, texts[-1])
        try:
            return self.guard(words, texts) if words[0] == "guard" else self.weave(words, texts, found)
        except Answer as answer:
            return answer.args

    def code(self, words, source, found):
        """What a code file does; or what is found, where that is a code file that does what the script does."""
        if len(words) != sum(FILES[words[0]]):
            return b"usage\n", 2
        try:
            if words[0] == "exec":
                turns = number_of(words[1], 0, 2**64 - 1)
                if words[2] == "+" and self.packed is not None:
                    return meaning.evaluate(self.packed, turns)[:2]
                return code_meaning.execute(source, turns)
            refused_by(rules.check, source)
        except Answer as answer:
            return answer.args
        if not self.emitted_of(found):
            # What it packs is not shown, but what that does is, by the next case.
            self.packed = source
            return b"", 0
        self.packed = None
        wrong = wrong_in_packed(source, self.emitted_of(found), 1000)
        return (wrong.encode(), 0) if wrong else (found.removesuffix(b"-- 0\n"), 0)

    def emitted_of(self, found):
        """What was emitted where this is stored, in hexadecimal digits."""
        try:
            return bytes.fromhex(found.rpartition(b"-- ")[0].decode())
        except ValueError:
            return b""

    def guard(self, words, texts):
        """What a guarded run prints, where its folder has a database if its scripts are accepted."""
        turns = number_of(words[2], 0, 2**64 - 1)
        if len(texts) != 2:
            raise Answer(b"usage\n", 2)
        for check, text in ((tables.lines_of, texts[0]), (rules.check, texts[1])):
            refused_by(check, text)
        catalogue, state = self.folder.open()
        text, status, after, runs = wanted_guard(*texts, catalogue, state, turns)
        if runs:
            self.folder.renew(catalogue, after)
        return text, status

    def weave(self, words, texts, found):
        """What is found, where it is an answer of these sessions."""
        turns, _ = (number_of(word, 0, 2**64 - 1) for word in words[2:4])
        for text in texts:
            refused_by(rules.check, text)
        catalogue, state = self.folder.open()
        for text in texts:
            missing = tables.missing(scripts.read(text), catalogue)
            if missing:
                raise Answer(b"differs %s\n" % missing, 5)
        try:
            after = judge_weave(found.removesuffix(b"-- 0\n"), texts, catalogue, [state], turns)
        except Wrong as wrong:
            return str(wrong).encode(), 0
        self.folder.renew(catalogue, after)
        return found.removesuffix(b"-- 0\n"), 0


def refused_by(check, text):
    """Ends with the line of the refusal, where there is one."""
    try:
        answer = check(text)
    except scripts.Refused as refused:
        raise Answer(b"refused %s at %d\n" % (refused.name.encode(), refused.at), 3)
    if isinstance(answer, tuple) and answer[1]:
        raise Answer(*answer)


def main():
    top = sys.argv[1] if len(sys.argv) > 1 else os.path.dirname(os.path.dirname(os.path.abspath(__file__)))
    crate = os.path.join(top, "crates", "hera_cases")
    session, compared, wrong = Session(os.path.join(crate, "data")), 0, 0
    stored = parts_of(os.path.join(crate, "stdout"))
    for heading, lines in parts_of(os.path.join(crate, "stdin")):
        _, colon, words = heading.partition(b": ")
        place = next((place for place, (it, _) in enumerate(stored) if it == heading), None)
        found = None if place is None else b"\n".join(stored.pop(place)[1] + [b""])
        answer = session.answer(words.decode().split(" ") if colon else [], lines, found or b"")
        if words.startswith(b"pack "):
            session.emitted = session.emitted_of(found or b"")
        if answer is None:
            continue
        compared += 1
        if found != answer[0] + b"-- %d\n" % answer[1]:
            wrong += 1
            print(f"{heading.decode()}\n  stored: {found}\n  wanted: {answer}")
    print(f"{compared} cases compared, {wrong} differ")
    return 1 if wrong else 0


if __name__ == "__main__":
    sys.exit(main())
