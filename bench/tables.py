"""Reads and writes what goes in and out of a database beside scripts, as the documents tell it: files of comma-separated
values (docs/LANGUAGE.md, CSV), lines of guards, and halves. Nothing here is taken from the program.
"""

import csv
import io
import re

import reader
import script as scripts
from meaning import HOSTS, Delta, Machine

LONGEST_FILE = 67_108_864
INT, BOOL, TEXT = 1, 2, 3
NAMES = {INT: "int", BOOL: "bool", TEXT: "text"}
KIND_OF = {name: kind for kind, name in NAMES.items()}

# A field of a file may be as long as the file.
csv.field_size_limit(2**31 - 1)


# ---- values as fields, rows and printed


def bytes_of(kind, value):
    """A value as it stands in a row."""
    if kind == INT:
        return (value + 2**63).to_bytes(8, "big")
    return bytes([value]) if kind == BOOL else value + b"\0"


def row_of(kinds, values):
    return b"".join(bytes_of(kind, value) for kind, value in zip(kinds, values))


def value_of(kind, field):
    """The value that a field of a file writes, or None."""
    if kind == INT:
        found = re.fullmatch(rb"(-?)0*([0-9]+)", field)
        if not found or len(found[2]) > 19:
            return None
        value = int(found[1] + found[2])
        return value if -(2**63) <= value < 2**63 else None
    if kind == BOOL:
        return {b"true": True, b"false": False}.get(field)
    try:
        field.decode("utf-8")
    except UnicodeDecodeError:
        return None
    return field if len(field) <= 1023 and b"\0" not in field else None


def field_of(kind, value):
    if kind == INT:
        return b"%d" % value
    return (b"true" if value else b"false") if kind == BOOL else value


def values_of(kinds, row):
    """The values of a stored row."""
    values, at = [], 0
    for kind in kinds:
        if kind == INT:
            values.append(int.from_bytes(row[at : at + 8], "big") - 2**63)
            at += 8
        elif kind == BOOL:
            values.append(row[at] == 1)
            at += 1
        else:
            end = row.index(b"\0", at)
            values.append(row[at:end])
            at = end + 1
    return tuple(values)


# ---- files of comma-separated values


def records_of(data):
    """The records of a file, by Python's own reader, which sees each byte as a character."""
    if data.startswith(b"\xef\xbb\xbf"):
        data = data[3:]
    lines = csv.reader(io.StringIO(data.decode("latin-1"), newline=""))
    return [[field.encode("latin-1") for field in record] for record in lines if record]


def read_file(names, kinds, data):
    """The set of the file's rows as values, or the number of its first record that is not good."""
    records = records_of(data)
    if not records or records[0] != list(names):
        return None, 1
    rows = set()
    for number, record in enumerate(records[1:], 2):
        values = tuple(value_of(kind, field) for kind, field in zip(kinds, record))
        if len(record) != len(kinds) or None in values:
            return None, number
        rows.add(values)
    return rows, None


def quoted(field, alone):
    if re.search(rb'[,"\r\n]', field) or (alone and not field):
        return b'"' + field.replace(b'"', b'""') + b'"'
    return field


def file_of(names, kinds, rows):
    """The file that is written of a relation."""
    lines = [list(names)] + [[field_of(kind, value) for kind, value in zip(kinds, row)] for row in sorted(rows)]
    return b"".join(b",".join(quoted(field, len(line) == 1) for field in line) + b"\n" for line in lines)


# ---- halves


def pages_of(size, relation, rows):
    """The pages of a relation, filled in the order of its rows."""
    pages, page, count = [], b"", 0
    for row in rows:
        if count and 4 + len(page) + len(row) > size:
            pages.append((count, page))
            page, count = b"", 0
        page += row
        count += 1
    if count:
        pages.append((count, page))
    head = relation.to_bytes(2, "big")
    return [(head + count.to_bytes(2, "big") + page).ljust(size, b"\0") for count, page in pages]


def half_of(magic, catalogue, state):
    """A half of this format: the catalogue as names with attributes and kinds, the state as sets of values."""
    header, pages = len(catalogue).to_bytes(2, "big"), []
    for number, ((name, attributes), rows) in enumerate(zip(catalogue, state)):
        header += bytes([len(name)]) + name + bytes([len(attributes)])
        for attribute, kind in attributes:
            header += bytes([len(attribute)]) + attribute + bytes([kind])
        kinds = [kind for _, kind in attributes]
        pages += pages_of(reader.PAGES[magic], number, sorted(row_of(kinds, row) for row in rows))
    return magic + header + len(pages).to_bytes(4, "big") + b"".join(pages) + b"\0"


def record_of(catalogue, atoms):
    """The bytes of a commit's record: atoms as signs of a relation's number with a row, in order."""
    kinds_of = [[kind for _, kind in attributes] for _, attributes in catalogue]
    signs = {"+": b"\1", "-": b"\2"}
    rows = sorted((number, row_of(kinds_of[number], row), signs[sign]) for (number, row), sign in atoms)
    return len(rows).to_bytes(4, "big") + b"".join(
        sign + number.to_bytes(2, "big") + row for number, row, sign in rows
    )


def state_of(select, left, right):
    """The catalogue and the state, as values, that these files hold."""
    catalogue, state = reader.read_half(right if select == b"\1" else left)
    catalogue = [(name, [(attribute, KIND_OF[kind]) for attribute, kind in schema]) for name, schema in catalogue]
    return catalogue, [
        {values_of([kind for _, kind in attributes], row) for row in rows}
        for (_, attributes), rows in zip(catalogue, state)
    ]


def tables_text(catalogue, state):
    """What `dump` prints."""
    lines = []
    for (name, attributes), rows in zip(catalogue, state):
        schema = [(attribute, NAMES[kind]) for attribute, kind in attributes]
        declared = b", ".join(attribute + b" " + kind.encode() for attribute, kind in schema)
        lines.append(b"relation %s(%s);\nrows %d\n" % (name, declared, len(rows)))
        kinds = [kind for _, kind in attributes]
        lines += [reader.tuple_text(schema, row_of(kinds, row)) for row in sorted(rows)]
    return b"".join(lines)


# ---- guards

TAKES = {"band": ("int", True), "bucket": ("int", False), "clamp": ("int", False), "is_sku": ("text", True)}


def lines_of(rules):
    """The lines `R.a: f;` of a script of guards, each as three tokens."""
    tokens, place, lines = scripts.tokens_of(rules), 0, []
    while tokens[place].kind != "end":
        line = []
        for wanted in ("name", ".", "name", ":", "name", ";"):
            if tokens[place].kind != wanted:
                raise scripts.Refused("Syntax", tokens[place].at)
            if wanted == "name":
                line.append(tokens[place])
            place += 1
        lines.append(line)
    return lines


def guards_of(lines, catalogue):
    """What each line means: a relation's number, an attribute's place and a host."""
    guards = []
    relations = [name.decode() for name, _ in catalogue]
    for relation, attribute, host in lines:
        if relation.value not in relations:
            raise scripts.Refused("Unknown", relation.at)
        number = relations.index(relation.value)
        attributes = [name.decode() for name, _ in catalogue[number][1]]
        if attribute.value not in attributes:
            raise scripts.Refused("Unknown", attribute.at)
        place = attributes.index(attribute.value)
        if host.value not in TAKES:
            raise scripts.Refused("Unknown", host.at)
        if TAKES[host.value] != (NAMES[catalogue[number][1][place][1]], True):
            raise scripts.Refused("Mismatch", host.at)
        guards.append((number, place, host.value))
    return guards


class Broken(Exception):
    """A row that breaks a guard ends the run."""


class StoredMachine(Machine):
    """A machine over stored rows, none of whose commits has a row that breaks a guard. It keeps the atoms of each commit."""

    def __init__(self, tree, turns, catalogue, state, guards=()):
        super().__init__(tree, turns)
        self.guards, self.catalogue, self.records = guards, catalogue, []
        places = {name.decode(): place for place, (name, _) in enumerate(catalogue)}
        self.places = [places[it.name] for it in tree.relations]
        self.state = [set(rows) for rows in state]
        for number, place in enumerate(self.places):
            self.rows[number] = set(state[place])

    def atoms_in_order(self, atoms):
        return sorted(((self.places[number], row), sign) for (number, row), sign in atoms.items())

    def text(self, value):
        """A delta is printed in the order of the stored relations."""
        if isinstance(value, Delta) and value.atoms is not None:
            lines = [
                sign.encode() + self.catalogue[place][0] + self.tuple_text(row)
                for (place, row), sign in self.atoms_in_order(value.atoms)
            ]
            return [b"delta %d" % len(lines), *lines]
        return super().text(value)

    def look(self, state):
        """Ends the run at the first row of the state that breaks a guard."""
        for number, rows in enumerate(state):
            mine = [guard for guard in self.guards if guard[0] == number]
            for row in sorted(rows) if mine else ():
                for _, place, host in mine:
                    if not HOSTS[host](row[place]):
                        name = self.catalogue[number][0]
                        self.printed.append(b"guard %s refused %s%s" % (host.encode(), name, self.tuple_text(row)))
                        raise Broken

    def store(self, atoms):
        state = list(self.state)
        for number, place in enumerate(self.places):
            state[place] = set(self.rows[number])
        self.look(state)
        self.state = state
        self.records.append(self.atoms_in_order(atoms))

    def run_over(self):
        """What is printed, the status, and the state that is stored."""
        try:
            self.look(self.state)
            text, status = self.run()
        except Broken:
            text, status = b"".join(line + b"\n" for line in self.printed), 11
        return text, status, self.state


def missing(tree, catalogue):
    """The first relation of the script that the catalogue has not, or None."""
    for it in tree.relations:
        attributes = [(attr.name.encode(), KIND_OF[attr.type]) for attr in it.attrs]
        if (it.name.encode(), attributes) not in catalogue:
            return it.name.encode()
    return None
