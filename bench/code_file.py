"""Reads a file of compiled code, as docs/FORMATS.md tells it: its relations, bodies and instructions, or the place at which
it is bad. Nothing here is taken from the program.
"""

from reader import Damaged, Fields

KINDS = {1: "int", 2: "bool", 3: "text"}
SHAPES = ["int", "bool", "text", "tuple", "rel", "delta"]
# The parts of each instruction, in the order of their numbers.
INSTRUCTIONS = {
    "push": ["constant"], "load": ["place"], "store": ["place"], "rel": ["relation"], "prim": ["operation", "place"],
    "host": ["place"], "jump": ["place"], "unless": ["place"], "back": ["place"], "enter": ["place"], "leave": [], "walk": [],
    "next": ["place", "place"], "keep": [], "gather": [], "yield": [], "drop": [], "call": ["place"], "ret": [], "retval": [],
    "print": ["shape"], "apply": ["place"], "commit": [], "rollback": [], "assert": ["place"], "halt": [],
}
# And those of each operation.
OPERATIONS = {
    "neg": [], "not": [], "add": [], "sub": [], "mul": [], "div": [], "rem": [], "eq": [], "ne": [], "lt": [], "le": [],
    "gt": [], "ge": [], "in": [], "field": ["schema", "place"], "makerow": ["schema"], "makerel": ["place"],
    "project": ["schema", "places"], "union": [], "minus": [], "inter": [], "join": ["schema", "schema"],
    "group": ["schema", "places", "aggregates"], "count": [], "empty": [], "sum": ["schema", "place"],
    "min": ["schema", "place"], "max": ["schema", "place"], "atom": ["sign", "relation"], "bulk": ["sign", "relation"],
    "ins": ["relation"], "del": ["relation"], "isfail": [], "smash": [], "merge": [],
}
AGGREGATES = ["count", "sum", "min", "max"]
# What stands for the constants {} and fail.
EMPTY, FAIL = ("delta",), ("fail",)


class Slot:
    """What a file notes of a slot: its shape, the range from which and up to before which it is set, and what the walk into it
    gathers, or None."""

    def __init__(self, shape, first, end, gathers):
        self.shape, self.first, self.end, self.gathers = shape, first, end, gathers


class Body:
    def __init__(self, start, params, result, slots):
        self.start, self.params, self.result, self.slots = start, params, result, slots


class Code:
    """The relations with their names and schemas, the bodies, and the instructions, each a name and its parts."""

    def __init__(self, relations, bodies, instructions):
        self.relations, self.bodies, self.instructions = relations, bodies, instructions


class CodeFields(Fields):
    """The fields of a code file from the left. Where one is bad, Damaged tells its first byte."""

    def one_of(self, things):
        return things[self.number(1, lambda n: n < len(things))]

    def constant(self):
        kind = self.number(1, lambda n: n <= 4)
        if kind == 0:
            return self.number(8) - 2**63
        if kind == 1:
            return self.number(1, lambda n: n <= 1) == 1
        if kind == 2:
            return self.take(self.number(2, lambda n: n <= 1023), is_text)
        return EMPTY if kind == 3 else FAIL

    def place(self):
        return self.number(4)

    def relation(self):
        return self.number(2)

    def sign(self):
        return "+" if self.number(1, lambda n: n in (1, 2)) == 1 else "-"

    def schema(self):
        attributes = []
        for _ in range(self.number(1, lambda n: 1 <= n <= 16)):
            name = self.name([earlier for earlier, _ in attributes])
            attributes.append((name, KINDS[self.number(1, lambda n: n in KINDS)]))
        return attributes

    def shape(self):
        kind = self.one_of(SHAPES)
        return (kind, self.schema()) if kind in ("tuple", "rel") else kind

    def places(self):
        return self.many(self.place)

    def aggregates(self):
        return self.many(self.aggregate)

    def aggregate(self):
        how = self.one_of(AGGREGATES)
        return how, None if how == "count" else self.place()

    def many(self, part):
        return [part() for _ in range(self.number(4))]

    def operation(self):
        return self.named(OPERATIONS)

    def instruction(self):
        return self.named(INSTRUCTIONS)

    def named(self, table):
        name = self.one_of([*table])
        return name, *[getattr(self, part)() for part in table[name]]

    def perhaps(self, part):
        return part() if self.number(1, lambda n: n <= 1) == 1 else None

    def slot(self):
        return Slot(self.shape(), self.place(), self.place(), self.perhaps(self.schema))

    def body(self):
        start, params = self.place(), self.place()
        self.number(1, lambda n: n <= 1)
        return Body(start, params, self.perhaps(self.shape), self.many(self.slot))

    def relations(self):
        relations = []
        for _ in range(self.number(2, lambda n: n <= 256)):
            name = self.name([earlier for earlier, _ in relations])
            relations.append((name, self.schema()))
        return relations


def is_text(data):
    try:
        data.decode("utf-8")
    except UnicodeDecodeError:
        return False
    return b"\0" not in data


def read(data):
    """The code of the file, or Damaged."""
    fields = CodeFields(data)
    fields.take(8, lambda magic: magic == b"HERACODE")
    code = Code(fields.relations(), fields.many(fields.body), fields.many(fields.instruction))
    if fields.at < len(data):
        raise Damaged(fields.at)
    return code


# The example of docs/FORMATS.md, of `main { print 2 + 3 * 4; }`.
EXAMPLE = bytes.fromhex(
    "48 45 52 41 43 4f 44 45  00 00  00 00 00 01"
    "00 00 00 00  00 00 00 00  00  00  00 00 00 00"
    "00 00 00 07"
    "00 00 80 00 00 00 00 00 00 02"
    "00 00 80 00 00 00 00 00 00 03"
    "00 00 80 00 00 00 00 00 00 04"
    "04 04 00 00 00 13  04 02 00 00 00 0f  14 00  19"
)


def place_of(data):
    """The place at which the file is bad, or None."""
    try:
        read(data)
    except Damaged as damage:
        return damage.at
    return None


def check_itself():
    assert len(EXAMPLE) == 77 and len(read(EXAMPLE).instructions) == 7
    assert place_of(EXAMPLE[:63] + b"\x23" + EXAMPLE[64:]) == 63
    assert place_of(b"\0" + EXAMPLE[1:]) == 0
    assert place_of(EXAMPLE + b"\0") == 77
    assert place_of(EXAMPLE[:-1]) == 76


if __name__ == "__main__":
    check_itself()
    print("ok")
