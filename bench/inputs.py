"""Makes scripts and halves of databases that are meant to break a reader of them."""

import glob
import os
import random
import re

from reader import EXAMPLES, PAGES
from tables import pages_of
from typed_phrases import TypedPhrases

KEYWORDS = (
    "relation func proc main int bool text delta rel tuple if else while foreach in print apply commit rollback assert "
    "return true false fail when rows select map project rename union minus inter join group by count empty sum min max "
    "isfail bulk ins del"
).split()
PUNCTUATION = "( ) [ ] { } , ; : . = == != < <= > >= + - * / % ! & && ||".split()
NAMES = "R S T a b c x y f p été 关系 _".split()
OTHERS = [
    "0", "1", "7", "9223372036854775807", "9223372036854775808", "00", "1000",
    '""', '"x"', '"\\n"', '"' + "y" * 1023 + '"', '"' + "y" * 1024 + '"', '"é"', '"\\q"', '"',
    "// note\n", "/* note */", "/*/", "/*", "\\", "#", "\0", "\ufeff", "\u2028", "ͺ",
]


def examples():
    """The scripts beside the program."""
    folder = os.path.join(os.path.dirname(os.path.abspath(__file__)), "..", "examples")
    return [open(path, "rb").read() for path in sorted(glob.glob(os.path.join(folder, "*.hera")))]


def pieces_of(script):
    """A script cut into pieces, roughly as its tokens."""
    return re.findall(rb"\w+|\s+|\"[^\"]*\"|//[^\n]*|.", script, re.S)


class Phrases:
    """Phrases of the grammar, drawn at random, with few names so that many of them are typed."""

    def __init__(self, draw):
        self.draw = draw

    def one(self, *choices):
        return self.draw.choice(choices)

    def name(self):
        return self.draw.choice("R S x y d n a b f p t".split())

    def number(self):
        return self.one("0", "1", "2", "3", "-1", "9223372036854775807")

    def int(self, depth):
        if depth <= 0:
            return self.one(self.number(), "n", "x", "t.a")
        next_ = depth - 1
        return self.one(
            lambda: f"{self.int(next_)} {self.one('+', '-', '*', '/', '%')} {self.int(next_)}",
            lambda: f"({self.int(next_)})",
            lambda: f"count({self.rel(next_)})",
            lambda: f"{self.one('sum', 'min', 'max')}({self.rel(next_)}, a)",
            lambda: f"{self.int(next_)} when {self.delta(next_)}",
            lambda: f"f({self.int(next_)})",
        )()

    def bool(self, depth):
        next_ = depth - 1
        return self.one(
            lambda: self.one("true", "false"),
            lambda: f"{self.int(next_)} {self.one('<', '<=', '>', '>=', '==', '!=')} {self.int(next_)}",
            lambda: f"!({self.bool(next_)})",
            lambda: f"({self.bool(next_)} {self.one('&&', '||')} {self.bool(next_)})",
            lambda: f"empty({self.rel(next_)})",
            lambda: f"isfail({self.delta(next_)})",
            lambda: f"[a = {self.int(next_)}] in {self.rel(next_)}",
        )() if depth > 0 else self.one("true", "false")

    def rel(self, depth):
        if depth <= 0:
            return self.one("R", "S", "rows(R){(1), (2)}")
        next_ = depth - 1
        return self.one(
            lambda: self.one("R", "S"),
            lambda: f"{self.one('union', 'minus', 'inter', 'join')}({self.rel(next_)}, {self.rel(next_)})",
            lambda: f"select(t in {self.rel(next_)} : {self.bool(next_)})",
            lambda: f"map(t in {self.rel(next_)} : [a = {self.int(next_)}])",
            lambda: f"project({self.rel(next_)}; a)",
            lambda: f"rename({self.rel(next_)}; b = a)",
            lambda: f"group({self.rel(next_)}; by a; k = count)",
            lambda: f"({self.rel(next_)} when {self.delta(next_)})",
            lambda: f"{self.one('ins', 'del')}(R, {self.delta(next_)})",
        )()

    def delta(self, depth):
        if depth <= 0:
            return self.one("{}", "fail", "d", "{+R(1)}", "{-R(1)}", "{+S(2), -R(3)}")
        next_ = depth - 1
        return self.one(
            lambda: f"{{{self.one('+', '-')}{self.one('R', 'S')}({self.int(next_)})}}",
            lambda: f"({self.delta(next_)} {self.one('!', '&')} {self.delta(next_)})",
            lambda: f"bulk({self.one('+', '-')}{self.one('R', 'S')}, {self.rel(next_)})",
        )()

    def statement(self, depth):
        next_ = depth - 1
        return self.one(
            lambda: f"print {self.one(self.int, self.bool, self.rel, self.delta)(depth)};",
            lambda: f"apply {self.delta(depth)};",
            lambda: self.one("commit;", "rollback;"),
            lambda: f"assert {self.bool(depth)};",
            lambda: f"n = {self.int(depth)};",
            lambda: f"d = {self.delta(depth)};",
            lambda: f"if ({self.bool(depth)}) {{ {self.block(next_)} }} else {{ {self.block(next_)} }}",
            lambda: f"while ({self.bool(depth)}) {{ {self.block(next_)} }}",
            lambda: f"foreach (t in {self.rel(depth)}) {{ {self.block(next_)} }}",
            lambda: f"p({self.int(depth)});",
        )()

    def block(self, depth):
        return " ".join(self.statement(depth) for _ in range(self.draw.randrange(3))) if depth > 0 else ""

    def script(self):
        depth = self.draw.randrange(1, 4)
        return (
            "relation R(a int); relation S(a int); "
            f"func int f(int x) {{ return {self.int(depth)}; }} "
            f"proc p(int n) {{ delta d = {self.delta(depth)}; {self.block(depth)} }} "
            f"main {{ int n = {self.int(1)}; delta d = {{}}; {self.block(depth)} {self.block(depth)} }}"
        ).encode()


class Scripts:
    """Scripts of several kinds, drawn at random."""

    def __init__(self, draw):
        self.draw = draw
        self.examples = examples()
        self.phrases, self.typed_phrases = Phrases(draw), TypedPhrases(draw)
        self.kinds = [
            self.bytes, self.soup, self.pieces, self.damaged, self.nested, self.long, self.phrase, self.broken_phrase,
            self.typed, self.typed, self.typed, self.broken_typed,
        ]

    def draw_one(self):
        return self.draw.choice(self.kinds)()

    def bytes(self):
        return self.draw.randbytes(self.draw.randrange(200))

    def soup(self):
        words = KEYWORDS + PUNCTUATION * 2 + NAMES * 2 + OTHERS
        return " ".join(self.draw.choice(words) for _ in range(self.draw.randrange(60))).encode()

    def pieces(self):
        """An example with some of its pieces taken out, doubled or moved."""
        pieces = pieces_of(self.draw.choice(self.examples))
        for _ in range(self.draw.randrange(1, 5)):
            place, other = self.draw.randrange(len(pieces)), self.draw.randrange(len(pieces))
            change = self.draw.randrange(4)
            if change == 0:
                del pieces[place]
            elif change == 1:
                pieces.insert(place, pieces[other])
            elif change == 2:
                pieces[place], pieces[other] = pieces[other], pieces[place]
            else:
                pieces[place] = self.draw.choice(KEYWORDS + PUNCTUATION + NAMES + OTHERS).encode()
            if not pieces:
                break
        return b"".join(pieces)

    def damaged(self):
        """An example with some bytes changed, and perhaps cut."""
        script = bytearray(self.draw.choice(self.examples))
        for _ in range(self.draw.randrange(1, 4)):
            script[self.draw.randrange(len(script))] = self.draw.randrange(256)
        return bytes(script[: self.draw.randrange(len(script))]) if self.draw.random() < 0.3 else bytes(script)

    def nested(self):
        depth = self.draw.choice([1, 10, 62, 63, 64, 65, 200])
        open_, close = self.draw.choice([("(", ")"), ("{", "}"), ("[a = ", "]"), ("count(", ")"), ("-(", ")"), ("!(", ")")])
        return f"main {{ print {open_ * depth}1{close * (depth - self.draw.randrange(2))}; }}".encode()

    def long(self):
        count = self.draw.choice([10, 100, 1000, 5000])
        part, join = self.draw.choice([("1", " + "), ("true", " && "), ("{+R(1)}", " ! "), ("R", " when {} when "), ("-1", " - ")])
        return f"relation R(a int); main {{ print {join.join([part] * count)}; }}".encode()

    def phrase(self):
        return self.phrases.script()

    def typed(self):
        return self.typed_phrases.script()

    def broken_typed(self):
        """A script that kept the rules of typing, with one piece taken for another one of it."""
        pieces = pieces_of(self.typed_phrases.script())
        pieces[self.draw.randrange(len(pieces))] = self.draw.choice(pieces)
        return b"".join(pieces)

    def broken_phrase(self):
        """A script of the grammar with one piece changed."""
        pieces = pieces_of(self.phrases.script())
        pieces[self.draw.randrange(len(pieces))] = self.draw.choice(KEYWORDS + PUNCTUATION + NAMES + OTHERS).encode()
        return b"".join(pieces)


class Halves:
    """Halves of databases, well formed, and then perhaps damaged."""

    def __init__(self, draw):
        self.draw = draw

    def draw_one(self):
        half = self.draw.choice([*EXAMPLES, self.half(), self.half()])
        for _ in range(self.draw.choice([0, 1, 1, 1, 2, 3])):
            half = self.damage(half)
        return half

    def damage(self, half):
        if not half:
            return half
        # The header and the ends of pages are hit more often than the rows.
        near = self.draw.choice([64, 256, len(half)])
        place = self.draw.randrange(min(near, len(half)))
        if self.draw.random() < 0.2:
            place = len(half) - 1 - place
        change = self.draw.randrange(5)
        if change == 0:
            return half[:place]
        if change == 1:
            return half[:place] + self.draw.randbytes(self.draw.randrange(1, 9)) + half[place:]
        if change == 2:
            return half[:place] + half[place + self.draw.randrange(1, 9) :]
        byte = self.draw.choice([0, 1, 2, 255, self.draw.randrange(256), half[place] ^ (1 << self.draw.randrange(8))])
        return half[:place] + bytes([byte]) + half[place + 1 :]

    def name(self, earlier):
        while True:
            name = self.draw.choice(NAMES + KEYWORDS[:5] + ["z" * self.draw.randrange(1, 256)]).encode()
            if name not in earlier:
                earlier.append(name)
                return name

    def field(self, kind):
        if kind == 1:
            return self.draw.choice([0, 1, 2**63, 2**64 - 1, self.draw.randrange(2**64)]).to_bytes(8, "big")
        if kind == 2:
            return bytes([self.draw.randrange(2)])
        return self.draw.choice(["", "a", 'q"\\\n\t', "é", "z" * self.draw.choice([7, 255, 1023])]).encode() + b"\0"

    def row(self, kinds):
        return b"".join(self.field(kind) for kind in kinds)

    def record(self, kinds_of):
        atoms = {}
        for _ in range(self.draw.randrange(5)):
            relation = self.draw.randrange(len(kinds_of))
            atoms[relation, self.row(kinds_of[relation])] = self.draw.randrange(1, 3)
        body = b"".join(
            bytes([sign]) + relation.to_bytes(2, "big") + row for (relation, row), sign in sorted(atoms.items())
        )
        return b"\1" + len(atoms).to_bytes(4, "big") + body

    def half(self):
        magic, size = self.draw.choice([*PAGES.items()])
        names, header, kinds_of = [], b"", []
        for _ in range(self.draw.choice([0, 1, 1, 2, 3])):
            attributes = []
            kinds = [self.draw.randrange(1, 4) for _ in range(self.draw.choice([1, 1, 2, 3, 16]))]
            name = self.name(names)
            header += bytes([len(name)]) + name + bytes([len(kinds)])
            for kind in kinds:
                attribute = self.name(attributes)
                header += bytes([len(attribute)]) + attribute + bytes([kind])
            kinds_of.append(kinds)
        pages = []
        for relation, kinds in enumerate(kinds_of):
            rows = {self.row(kinds) for _ in range(self.draw.choice([0, 1, 2, 40, 300]))}
            pages += pages_of(size, relation, sorted(row for row in rows if 4 + len(row) <= size))
        journal = b"".join(self.record(kinds_of) for _ in range(self.draw.randrange(3))) if kinds_of else b""
        behind = self.draw.randbytes(self.draw.choice([0, 0, 5]))
        count = len(kinds_of).to_bytes(2, "big")
        return magic + count + header + len(pages).to_bytes(4, "big") + b"".join(pages) + journal + b"\0" + behind
