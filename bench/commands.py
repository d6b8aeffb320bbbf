"""All commands as docs/LANGUAGE.md and docs/FORMATS.md tell them: what they print, their status, and the bytes of a folder's
files behind them, where nothing fails. Nothing here is taken from the program.
"""

import re

import meaning
import reader
import rules
import script as scripts
import tables

# How many words each form has behind its name.
FORMS = {
    "check": 1, "list": 1, "eval": 2, "drill": 1, "init": 2, "run": 3, "dump": 1, "checkpoint": 1, "widen": 2, "import": 3,
    "export": 2,
}
NEWEST = b"HERA0002"
BLANK = {tables.INT: 0, tables.BOOL: False, tables.TEXT: b""}


class Answer(Exception):
    """A command ends with this text and status."""


def number_of(word, least, most):
    if not re.fullmatch("[0-9]{1,20}", word) or not least <= int(word) <= most:
        raise Answer(b"usage\n", 2)
    return int(word)


def catalogue_of(tree):
    return [
        (it.name.encode(), [(attr.name.encode(), tables.KIND_OF[attr.type]) for attr in it.attrs]) for it in tree.relations
    ]


class Folder:
    """The three files of a folder."""

    def __init__(self, files=(b"", b"", b"")):
        self.files = list(files)

    def side(self):
        """The place of the selected half among the files."""
        return 2 if self.files[0] == b"\1" else 1

    def open(self):
        """The catalogue and the state, as values."""
        text, status = reader.dump(*self.files)
        if status:
            raise Answer(text, status)
        return tables.state_of(*self.files)

    def renew(self, catalogue, state):
        """Writes the other half anew, and selects it."""
        other = 3 - self.side()
        self.files[other] = tables.half_of(NEWEST, catalogue, state)
        self.files[0] = b"\1" if other == 2 else b"\0"

    def renew_old(self, catalogue, state):
        if not self.files[self.side()].startswith(NEWEST):
            self.renew(catalogue, state)

    def commit(self, catalogue, atoms):
        """Puts a record over the last gate, and a closed gate behind it."""
        half = self.files[self.side()]
        gate = reader.read_whole(half)[2]
        record = b"\1" + tables.record_of(catalogue, atoms) + b"\0"
        self.files[self.side()] = half[:gate] + record + half[gate + len(record) :]

    # ---- commands

    def call(self, words, source):
        """What a command prints, and its status. The source is that of its FILE word. None for a listing."""
        try:
            if not words or FORMS.get(words[0]) != len(words) - 1:
                raise Answer(b"usage\n", 2)
            return getattr(self, "do_" + words[0])(words[1:], source)
        except Answer as answer:
            return answer.args

    def tree(self, source):
        text, status = rules.check(source)
        if status:
            raise Answer(text, status)
        return scripts.read(source)

    def do_check(self, words, source):
        return rules.check(source)

    def do_list(self, words, source):
        self.tree(source)
        return None

    def do_eval(self, words, source):
        turns = number_of(words[0], 0, 2**64 - 1)
        self.tree(source)
        return meaning.evaluate(source, turns)[:2]

    def do_drill(self, words, source):
        number = number_of(words[0], 1, 1000)
        return meaning.evaluate(meaning.drill(number), 1_000_000)[:2]

    def do_init(self, words, source):
        tree = self.tree(source)
        if self.files[0]:
            raise Answer(b"database exists\n", 5)
        half = tables.half_of(NEWEST, catalogue_of(tree), [set() for _ in tree.relations])
        self.files = [b"\0", half, half]
        return b"created\n", 0

    def do_run(self, words, source):
        turns = number_of(words[1], 0, 2**64 - 1)
        tree = self.tree(source)
        catalogue, state = self.open()
        missing = tables.missing(tree, catalogue)
        if missing:
            raise Answer(b"differs %s\n" % missing, 5)
        self.renew_old(catalogue, state)
        machine = tables.StoredMachine(tree, turns, catalogue, state)
        text, status, _ = machine.run_over()
        for atoms in machine.records:
            self.commit(catalogue, atoms)
        return text, status

    def do_dump(self, words, source):
        return reader.dump(*self.files)

    def do_checkpoint(self, words, source):
        self.renew(*self.open())
        return b"checkpointed\n", 0

    def do_widen(self, words, source):
        new = catalogue_of(self.tree(source))
        catalogue, state = self.open()
        wider = dict(new)
        for name, attributes in catalogue:
            if name not in wider or wider[name][: len(attributes)] != attributes:
                raise Answer(b"narrows %s\n" % name, 5)
        old = {name: (len(attributes), rows) for (name, attributes), rows in zip(catalogue, state)}
        widened = []
        for name, attributes in new:
            many, rows = old.get(name, (0, set()))
            widened.append({row + tuple(BLANK[kind] for _, kind in attributes[many:]) for row in rows})
        self.renew(new, widened)
        return b"widened\n", 0

    def do_import(self, words, source):
        if len(source) > tables.LONGEST_FILE:
            raise Answer(b"refused TooLong at %d\n" % tables.LONGEST_FILE, 3)
        catalogue, state = self.open()
        number, attributes = self.relation(catalogue, words[1])
        rows, bad = tables.read_file([name for name, _ in attributes], [kind for _, kind in attributes], source)
        if rows is None:
            raise Answer(b"refused Record at %d\n" % bad, 3)
        self.renew_old(catalogue, state)
        self.commit(catalogue, [((number, row), "+") for row in rows])
        return b"imported %d\n" % len(rows), 0

    def do_export(self, words, source):
        catalogue, state = self.open()
        number, attributes = self.relation(catalogue, words[1])
        return tables.file_of([name for name, _ in attributes], [kind for _, kind in attributes], state[number]), 0

    def relation(self, catalogue, word):
        name = word if isinstance(word, bytes) else word.encode("utf-8", "surrogateescape")
        for number, (relation, attributes) in enumerate(catalogue):
            if relation == name:
                return number, attributes
        raise Answer(b"no relation\n", 5)
