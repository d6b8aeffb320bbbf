"""Draws what stands beside scripts: databases with files of comma-separated values, lines of guards, orders of sessions, and
files of compiled code; well formed, and then perhaps broken."""

import tables
from tables import BOOL, INT, TEXT

LONG = [b"z" * 1022, b"z" * 1023, b"z" * 1024, "é".encode() * 511 + b"z", "é".encode() * 512]
TEXTS = [b"", b"a", b"b", b"a,b", b'"', b'a "b"', b"a\nb", b"\r", b" ", "é".encode(), b"true", b"7", b"\t", b"x" * 300]
INTS = [0, 1, -1, 7, 10, 255, 256, 1000, 2**63 - 1, -(2**63), 2**32]
BAD_INTS = [b"+1", b"1.0", b" 1", b"1 ", b"-", b"--1", b"", b"1e3", b"0x1", b"9223372036854775808", b"-9223372036854775809"]
BAD_INTS += [b"1" * 40, "１".encode(), b"\x00"]
GOOD_INTS = [b"-0", b"007", b"-007", b"0" * 40 + b"5"]
SOUP = [b",", b",", b'"', b'"', b"\n", b"\n", b"\r", b"\r\n", b"a", b"k", b"1", b"-", b"true", b"\xff", b"\0", b" "]
SOUP += [b"\xef\xbb\xbf"]


class Databases:
    """Catalogues of few names, and rows."""

    def __init__(self, draw):
        self.draw = draw

    def catalogue(self):
        catalogue = []
        for name in self.draw.sample([b"R", b"S", b"T", "été".encode(), b"long" * 60], self.draw.choice([1, 1, 2, 3])):
            names = self.draw.sample([b"a", b"b", b"c", b"k", b"n", "é".encode()], self.draw.choice([1, 1, 2, 3, 4]))
            catalogue.append((name, [(it, self.draw.choice([INT, INT, BOOL, TEXT])) for it in names]))
        return catalogue

    def value(self, kind):
        if kind == INT:
            return self.draw.choice(INTS + [self.draw.randrange(-(2**63), 2**63)])
        if kind == BOOL:
            return self.draw.random() < 0.5
        return self.draw.choice(TEXTS + LONG[:2] * (self.draw.random() < 0.1))

    def rows(self, attributes, most):
        return {tuple(self.value(kind) for _, kind in attributes) for _ in range(self.draw.randrange(most))}

    def state(self, catalogue):
        return [self.rows(attributes, self.draw.choice([1, 3, 6])) for _, attributes in catalogue]


class Files(Databases):
    """Files of comma-separated values for a relation."""

    def field(self, kind):
        if kind == INT and self.draw.random() < 0.2:
            return self.draw.choice(GOOD_INTS)
        return tables.field_of(kind, self.value(kind))

    def bad_field(self, kind):
        if kind == INT:
            return self.draw.choice(BAD_INTS)
        if kind == BOOL:
            return self.draw.choice([b"True", b"TRUE", b"", b"1", b"true ", b"t"])
        return self.draw.choice([LONG[2], LONG[4], b"\xff", b"a\0b", b"\xc3", b"\xed\xa0\x80"])

    def head(self, names):
        change = self.draw.randrange(12)
        if change == 0:
            return self.draw.sample(names, len(names))
        if change == 1:
            return names[1:]
        if change == 2:
            return [*names, b"more"]
        if change == 3:
            return [name.upper() for name in names]
        return names

    def quoted(self, field):
        """The field as a file may write it: in quotes where it must, or where it need not."""
        if self.draw.random() < 0.15:
            return b'"' + field.replace(b'"', b'""') + b'"'
        if self.draw.random() < 0.02:
            return field
        return tables.quoted(field, self.draw.random() < 0.5)

    def well_formed(self, attributes):
        records = [self.head([name for name, _ in attributes])]
        for _ in range(self.draw.choice([0, 1, 2, 5, 30])):
            records.append([self.field(kind) for _, kind in attributes])
        if len(records) > 1 and self.draw.random() < 0.3:
            # One record is spoiled, wherever it stands.
            record = records[self.draw.randrange(1, len(records))]
            place = self.draw.randrange(len(record))
            if self.draw.random() < 0.3:
                record[place : place + 1] = [b"1"] * self.draw.choice([0, 2])
            else:
                record[place] = self.bad_field(attributes[place][1])
        end = self.draw.choice([b"\n", b"\n", b"\r\n", b"\r"])
        lines = []
        for record in records:
            lines.append(b",".join(self.quoted(field) for field in record))
            lines += [b""] * (self.draw.random() < 0.1)
        data = end.join(lines) + end * (self.draw.random() < 0.8)
        return b"\xef\xbb\xbf" * (self.draw.random() < 0.1) + data

    def soup(self):
        return b"".join(self.draw.choice(SOUP) for _ in range(self.draw.randrange(30)))

    def broken(self, attributes):
        """A file with some bytes changed, put in or taken out."""
        data = bytearray(self.well_formed(attributes))
        for _ in range(self.draw.randrange(1, 4)):
            place = self.draw.randrange(len(data) + 1)
            data[place : place + self.draw.randrange(3)] = self.draw.choice(SOUP)
        return bytes(data)

    def file(self, attributes):
        kind = self.draw.random()
        if kind < 0.6:
            return self.well_formed(attributes)
        return self.broken(attributes) if kind < 0.9 else self.soup()


class Rules(Databases):
    """Scripts of guards, and the databases and scripts that they stand over."""

    CATALOGUE = [(b"R", [(b"a", INT)]), (b"S", [(b"b", TEXT), (b"n", INT)]), (b"T", [(b"on", BOOL), (b"n", INT)])]
    DECLARED = "relation R(a int); relation S(b text, n int); relation T(on bool, n int); "
    SCRIPTS = [
        "main { }",
        "main { print count(R); apply {+R(5)}; commit; apply {+R(500), +R(7)}; commit; }",
        "main { int i = 0; while (i < 9) { apply {+R(i * 20), -R(i)}; commit; i = i + 1; } }",
        'main { apply {+S("SKU-1", 3)}; commit "one"; apply {+S("gift", 4), -S("SKU-1", 3)}; commit "two"; print S; }',
        "main { apply {+T(true, 101)}; rollback; apply {+T(false, 100)}; commit; print 1 / 0; }",
        "main { apply {-R(500), -R(-1)}; commit; print R; }",
        "func int f(int n) { return f(n + 1); } main { print f(0); }",
        "main { apply fail; }",
        "main { print 1 }",
    ]

    def script(self):
        declared = self.DECLARED
        if self.draw.random() < 0.1:
            declared = self.draw.choice(["", "relation R(a int); ", "relation R(b int); ", "relation Q(a int); " + declared])
        script = self.draw.choice(self.SCRIPTS)
        return (declared + script).encode()

    def rows(self, attributes, most):
        """Rows that break no guard, but for some."""
        good = {INT: lambda: self.draw.randrange(101), BOOL: lambda: True, TEXT: lambda: b"SKU-%d" % self.draw.randrange(9)}
        rows = {tuple(good[kind]() for _, kind in attributes) for _ in range(self.draw.randrange(most))}
        return rows if self.draw.random() < 0.95 else rows | super().rows(attributes, 2)

    def line(self):
        relation = self.draw.choice(["R", "R", "S", "S", "T", "Q"])
        named = {"R": ["a", "a", "a", "b"], "S": ["b", "n", "n", "on"], "T": ["n", "on"], "Q": ["a"]}
        attribute = self.draw.choice(named[relation])
        fits = {"a": "band", "n": "band", "b": "is_sku", "on": "band"}[attribute]
        host = fits if self.draw.random() < 0.85 else self.draw.choice(["band", "bucket", "clamp", "is_sku", "f", "R"])
        space = self.draw.choice(["", "", " ", "/* */"])
        return f"{relation}.{attribute}:{space}{host};"

    def rules(self):
        lines = [self.line() for _ in range(self.draw.choice([0, 1, 1, 2, 3, 8]))]
        rules = self.draw.choice(["\n", " ", "", " // note\n"]).join(lines).encode()
        change = self.draw.random()
        if change < 0.6:
            return rules
        pieces = [b".", b":", b";", b",", b"R", b"a", b"band", b"count", b"1", b'"', b"(", b"{", b" ", b"\xff", b"/*", b"\0"]
        if change < 0.7:
            return b"".join(self.draw.choice(pieces) for _ in range(self.draw.randrange(20)))
        if change < 0.72:
            return rules + b"(" * self.draw.choice([64, 65])
        rules = bytearray(rules)
        for _ in range(self.draw.randrange(1, 3)):
            place = self.draw.randrange(len(rules) + 1)
            rules[place : place + self.draw.randrange(3)] = self.draw.choice(pieces)
        return bytes(rules)


class Orders:
    """Words for ORDER, and scripts that may be woven."""

    DECLARED = "relation R(a int); relation S(a int); "
    SCRIPTS = [
        "main { apply {+R(1)}; commit; }",
        "main { apply {+R(2)}; commit; print count(R); }",
        "main { int c = count(R); apply {+S(c)}; commit; }",
        "main { print count(S); print count(R); }",
        "main { int i = 0; while (i < 5) { apply {+S(count(R) + i)}; commit; i = i + 1; } }",
        "main { apply bulk(-R, R); commit; }",
        "main { apply {+S(7)}; commit; print 1 / 0; }",
        "main { while (true) { } }",
        "main { }",
        "func int f() { return count(S); } main { print f() when {+S(9)}; apply {+R(f())}; commit; }",
        "main { apply {+R(3)}; rollback; commit; }",
    ]
    BAD = ["", "-1", "+1", "1.0", "a", " 1", "18446744073709551616", "0" * 21, "9" * 20, "１"]

    def __init__(self, draw):
        self.draw = draw

    def order(self):
        if self.draw.random() < 0.1:
            return self.draw.choice(self.BAD)
        return self.draw.choice(
            ["0", "1", "2", "00012", "18446744073709551615", str(self.draw.randrange(2**64)), str(self.draw.randrange(100))]
        )

    def scripts(self):
        many = self.draw.choice([1, 2, 2, 2, 3, 3, 5, 64, 65])
        return [(self.DECLARED + self.draw.choice(self.SCRIPTS)).encode() for _ in range(many)]


class CodeFiles:
    """Code files that the program packed, and then spoiled."""

    def __init__(self, draw, packed):
        self.draw, self.packed = draw, packed

    def one(self):
        data = bytearray(self.draw.choice(self.packed))
        for _ in range(self.draw.choice([0, 1, 1, 1, 2, 3])):
            place = self.draw.randrange(len(data) + 1)
            change = self.draw.randrange(6)
            if change == 0:
                del data[place:]
            elif change == 1:
                data[place:place] = self.draw.randbytes(self.draw.randrange(1, 9))
            elif change == 2:
                del data[place : place + self.draw.randrange(1, 9)]
            elif place < len(data):
                data[place] = self.draw.choice([0, 1, 2, 3, 4, 5, 255, self.draw.randrange(256), data[place] ^ 1])
        return bytes(data)
