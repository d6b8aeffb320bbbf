"""Reads a half of a database, as docs/FORMATS.md and the values of docs/LANGUAGE.md tell it, and prints what `dump` would.

Nothing here is taken from the program: what the two say of the same bytes is compared.
"""

LONGEST = 268_435_456
# the bytes of a page, by the format's magic
PAGES = {b"HERA0001": 8192, b"HERA0002": 32_768}
KINDS = {1: "int", 2: "bool", 3: "text"}


class Damaged(Exception):
    """The first field that breaks its rule, or is not wholly there, by its first byte."""

    def __init__(self, at):
        super().__init__(at)
        self.at = at


class Fields:
    """The fields of a half from the left."""

    def __init__(self, data):
        self.data = data
        self.at = 0

    def take(self, count, rule=lambda field: True):
        """The next field of so many bytes, which keeps its rule."""
        field = self.data[self.at : self.at + count]
        if len(field) < count or not rule(field):
            raise Damaged(self.at)
        self.at += count
        return field

    def number(self, count, rule=lambda number: True):
        return int.from_bytes(self.take(count, lambda field: rule(int.from_bytes(field, "big"))), "big")

    def name(self, earlier):
        length = self.number(1, lambda n: n >= 1)
        return self.take(length, lambda name: is_name(name) and name not in earlier)

    def row(self, schema, rule):
        """The next row of this schema, as its bytes."""
        length = row_length(self.data, self.at, schema)
        if length is None:
            raise Damaged(self.at)
        return self.take(length, rule)


def is_name(name):
    try:
        text = name.decode("utf-8")
    except UnicodeDecodeError:
        return False
    return text.isidentifier()


def row_length(data, at, schema):
    """The length of the row that stands there, or None where none does."""
    start = at
    for _, kind in schema:
        if kind == "int":
            at += 8
        elif kind == "bool":
            if data[at : at + 1] not in (b"\0", b"\1"):
                return None
            at += 1
        else:
            end = data.find(b"\0", at, at + 1024)
            if end < 0:
                return None
            try:
                data[at:end].decode("utf-8")
            except UnicodeDecodeError:
                return None
            at = end + 1
        if at > len(data):
            return None
    return at - start


def read_header(fields):
    """The bytes of a page, and the relations."""
    size = PAGES[fields.take(8, lambda magic: magic in PAGES)]
    catalogue = []
    for _ in range(fields.number(2, lambda n: n <= 256)):
        name = fields.name([relation for relation, _ in catalogue])
        schema = []
        for _ in range(fields.number(1, lambda n: 1 <= n <= 16)):
            attribute = fields.name([earlier for earlier, _ in schema])
            schema.append((attribute, KINDS[fields.number(1, lambda n: n in KINDS)]))
        catalogue.append((name, schema))
    return size, catalogue


def read_pages(fields, size, catalogue):
    state = [[] for _ in catalogue]
    before, used = -1, 0
    for _ in range(fields.number(4)):
        start = fields.at
        relation = fields.number(2, lambda n: n < len(catalogue) and n >= before)
        full = used if relation == before else None
        rows = state[relation]
        for place in range(fields.number(2, lambda n: n >= 1)):
            at = fields.at

            def belongs(row):
                if at + len(row) > start + size:
                    return False
                if rows and row <= rows[-1]:
                    return False
                return not (place == 0 and full is not None and full + len(row) <= size)

            rows.append(fields.row(catalogue[relation][1], belongs))
        before, used = relation, fields.at - start
        fill = start + size - fields.at
        if fill:
            fields.take(fill, lambda rest: not any(rest))
    return state


def read_journal(fields, catalogue, state):
    state = [set(rows) for rows in state]
    while fields.number(1) == 1:
        atoms = []
        for _ in range(fields.number(4)):
            sign = fields.number(1, lambda n: n in (1, 2))
            before, row = (atoms[-1][1], atoms[-1][2]) if atoms else (-1, b"")
            relation = fields.number(2, lambda n: n < len(catalogue) and n >= before)
            schema = catalogue[relation][1]
            atoms.append((sign, relation, fields.row(schema, lambda r: relation > before or r > row)))
        for sign, relation, row in atoms:
            if sign == 1:
                state[relation].add(row)
            else:
                state[relation].discard(row)
    return [sorted(rows) for rows in state]


def read_whole(data):
    """The catalogue and the state of a half, and where its last gate stands."""
    if len(data) > LONGEST:
        raise Damaged(LONGEST)
    fields = Fields(data)
    size, catalogue = read_header(fields)
    state = read_journal(fields, catalogue, read_pages(fields, size, catalogue))
    return catalogue, state, fields.at - 1


def read_half(data):
    """The catalogue and the state of a half."""
    return read_whole(data)[:2]


def quoted(text):
    for plain, escape in ((b"\\", b"\\\\"), (b'"', b'\\"'), (b"\n", b"\\n"), (b"\t", b"\\t")):
        text = text.replace(plain, escape)
    return b'"' + text + b'"'


def tuple_text(schema, row):
    parts, at = [], 0
    for _, kind in schema:
        if kind == "int":
            parts.append(b"%d" % (int.from_bytes(row[at : at + 8], "big") - 2**63))
            at += 8
        elif kind == "bool":
            parts.append(b"true" if row[at] else b"false")
            at += 1
        else:
            end = row.index(b"\0", at)
            parts.append(quoted(row[at:end]))
            at = end + 1
    return b"[" + b", ".join(parts) + b"]\n"


def dump(select, left, right):
    """What `dump` prints of a folder with these files, and its status."""
    if not select:
        return b"no database\n", 5
    if len(select) > 1:
        return b"damaged select at 1\n", 5
    name, half = (b"right", right) if select == b"\1" else (b"left", left)
    try:
        catalogue, state = read_half(half)
    except Damaged as damage:
        return b"damaged %s at %d\n" % (name, damage.at), 5
    lines = []
    for (relation, schema), rows in zip(catalogue, state):
        attributes = b", ".join(attribute + b" " + kind.encode() for attribute, kind in schema)
        lines.append(b"relation %s(%s);\nrows %d\n" % (relation, attributes, len(rows)))
        lines += [tuple_text(schema, row) for row in rows]
    return b"".join(lines), 0


# The example of docs/FORMATS.md: two relations, and one commit of {+R(1)}, in format 2.
EXAMPLE = bytes.fromhex(
    "48 45 52 41 30 30 30 32  00 02"
    "01 52 01 01 61 01  01 53 01 01 61 01  00 00 00 00"
    "01 00 00 00 01 01 00 00 80 00 00 00 00 00 00 01 00"
)

# The same half in each format.
EXAMPLES = [magic + EXAMPLE[8:] for magic in PAGES]


def with_bytes(half, changes):
    """The half with some bytes changed, by their places."""
    changed = bytearray(half)
    for place, byte in changes.items():
        changed[place] = byte
    return bytes(changed)


# Changes of the example with the wanted places of damage, each written by hand from the table of fields.
PLACES = [
    ("cut to 7 bytes", lambda half: half[:7], 0),
    ("another magic", lambda half: with_bytes(half, {7: 0x33}), 0),
    ("257 relations", lambda half: with_bytes(half, {8: 1, 9: 1}), 8),
    ("a kind that is none", lambda half: with_bytes(half, {15: 4}), 15),
    ("a relation named twice", lambda half: with_bytes(half, {17: 0x52}), 17),
    ("a page too many", lambda half: with_bytes(half, {25: 1}), 26),
    ("cut before the gate", lambda half: half[:26], 26),
    ("a sign that is none", lambda half: with_bytes(half, {31: 3}), 31),
    ("a relation that is none", lambda half: with_bytes(half, {33: 2}), 32),
    ("two atoms in place of one", lambda half: with_bytes(half, {30: 2}), 42),
    ("cut before the last gate", lambda half: half[:42], 42),
]


def check_itself():
    """The reader meets what docs/FORMATS.md says of its example."""
    for half in EXAMPLES:
        text, status = dump(b"\0", half, b"")
        assert (text, status) == (b"relation R(a int);\nrows 1\n[1]\nrelation S(a int);\nrows 0\n", 0), text
        for what, change, place in PLACES:
            wanted = (b"damaged left at %d\n" % place, 5)
            assert dump(b"\0", change(half), b"") == wanted, (what, dump(b"\0", change(half), b""))


if __name__ == "__main__":
    check_itself()
    print("ok")
