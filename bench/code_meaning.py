"""Runs the code of a code file on an empty database, instruction by instruction, as docs/LANGUAGE.md tells what each does: what
`exec` prints of a file that it takes, and its status. Nothing here is taken from the program.
"""

import code_file
import code_rules
from meaning import FAIL, HOSTS, Delta, Machine, Relation, Trap, Tuple, divided, in_range, merge, smash
from reader import Damaged

# In the order of their numbers.
HOST_OF = [HOSTS[name] for name in ("band", "bucket", "is_sku", "clamp")]


class Frame:
    """A body at work: where it is, its slots, walks and layers, and how many operands lie below its own."""

    def __init__(self, address, slots, walks, layers, operands):
        self.address, self.slots, self.walks, self.layers, self.operands = address, slots, walks, layers, operands


class Walk:
    """The tuples still to come, the current one, and what was gathered."""

    def __init__(self, relation):
        self.rows, self.current, self.gathered = iter(sorted(relation.rows)), None, set()


class CodeMachine(Machine):
    """The relations as they stand, the operands, and the frames that wait."""

    def __init__(self, code, turns):
        self.code, self.left = code, turns
        self.names = [name for name, _ in code.relations]
        self.committed, self.pending, self.layers = [set() for _ in code.relations], {}, []
        self.commits, self.printed, self.operands, self.frames = 0, [], [], []
        self.frame = Frame(0, [0] * len(code.bodies[0].slots), 0, 0, 0)
        self.walks = []

    def work(self):
        """Instruction by instruction, up to the end of main."""
        while self.frame is not None:
            name, *parts = self.code.instructions[self.frame.address]
            self.frame.address += 1
            getattr(self, "do_" + name)(*parts)

    def rows(self, number):
        """The rows of a relation as it stands: those committed after what is pending and the layers."""
        rows = set(self.committed[number])
        for atoms in [self.pending, *(layer.atoms for layer in self.layers)]:
            for (relation, row), sign in atoms.items():
                if relation == number:
                    (rows.add if sign == "+" else rows.discard)(row)
        return rows

    def text(self, value):
        if isinstance(value, Delta) and value.atoms is not None:
            atoms = sorted(value.atoms.items(), key=lambda atom: atom[0])
            lines = [sign.encode() + self.names[number] + self.tuple_text(row) for (number, row), sign in atoms]
            return [b"delta %d" % len(lines), *lines]
        return super().text(value)

    def pop(self):
        return self.operands.pop()

    def push(self, value):
        self.operands.append(value)

    # ---- instructions

    def do_push(self, constant):
        self.push({code_file.EMPTY: Delta({}), code_file.FAIL: FAIL}[constant] if isinstance(constant, tuple) else constant)

    def do_load(self, place):
        self.push(self.frame.slots[place])

    def do_store(self, place):
        self.frame.slots[place] = self.pop()

    def do_rel(self, number):
        self.push(Relation((), self.rows(number)))

    def do_prim(self, op, at):
        count = code_rules.arity(op)
        args = self.operands[len(self.operands) - count :]
        del self.operands[len(self.operands) - count :]
        self.push(value_of(op, at, args))

    def do_host(self, number):
        self.push(HOST_OF[number](self.pop()))

    def do_jump(self, address):
        self.frame.address = address

    def do_unless(self, address):
        if not self.pop():
            self.frame.address = address

    def do_back(self, address):
        self.spend()
        self.frame.address = address

    def do_enter(self, at):
        delta = self.pop()
        if delta.atoms is None:
            raise Trap("WhenFail", at)
        self.layers.append(delta)

    def do_leave(self):
        self.layers.pop()

    def do_walk(self):
        self.walks.append(Walk(self.pop()))

    def do_next(self, place, address):
        walk = self.walks[-1]
        walk.current = next(walk.rows, None)
        if walk.current is None:
            self.frame.address = address
        else:
            self.frame.slots[place] = Tuple((), walk.current)

    def do_keep(self):
        if self.pop() and self.walks[-1].current is not None:
            self.walks[-1].gathered.add(self.walks[-1].current)

    def do_gather(self):
        self.walks[-1].gathered.add(self.pop().row)

    def do_yield(self):
        self.push(Relation((), self.walks.pop().gathered))

    def do_drop(self):
        self.walks.pop()

    def do_call(self, number):
        self.spend()
        body = self.code.bodies[number]
        rest = len(self.operands) - body.params
        slots = self.operands[rest:] + [0] * (len(body.slots) - body.params)
        del self.operands[rest:]
        self.frames.append(self.frame)
        self.frame = Frame(body.start, slots, len(self.walks), len(self.layers), rest)

    def do_ret(self):
        del self.walks[self.frame.walks :], self.layers[self.frame.layers :], self.operands[self.frame.operands :]
        self.frame = self.frames.pop()

    def do_retval(self):
        value = self.pop()
        self.do_ret()
        self.push(value)

    def do_print(self, shape):
        self.say(self.pop())

    def do_apply(self, at):
        delta = self.pop()
        if delta.atoms is None:
            raise Trap("ApplyFail", at)
        self.pending = {**self.pending, **delta.atoms}

    def do_commit(self):
        for (number, row), sign in self.pending.items():
            (self.committed[number].add if sign == "+" else self.committed[number].discard)(row)
        self.pending = {}
        self.commits += 1
        self.printed.append(b"commit %d" % self.commits)

    def do_rollback(self):
        self.pending = {}

    def do_assert(self, at):
        if not self.pop():
            raise Trap("Assert", at)

    def do_halt(self):
        self.frame = None


# ---- operations


def value_of(op, at, args):
    """The value of an operation on these operands, or its trap."""
    return OF[op[0]](at, *op[1:], *args)


def divide(which):
    return lambda at, left, right: divided(left, right, at)[which]


def projected(at, schema, places, relation):
    return Relation((), [tuple(row[place] for place in places) for row in relation.rows])


def joined(at, left, right, one, two):
    names, others = [name for name, _ in left], [name for name, _ in right]
    common = [(names.index(name), place) for place, name in enumerate(others) if name in names]
    more = [place for place, name in enumerate(others) if name not in names]
    rows = [
        row + tuple(other[place] for place in more)
        for row in one.rows
        for other in two.rows
        if all(row[mine] == other[its] for mine, its in common)
    ]
    return Relation((), rows)


def grouped(at, schema, by, aggregates, relation):
    keys = {}
    for row in relation.rows:
        keys.setdefault(tuple(row[place] for place in by), []).append(row)
    made = [key + tuple(aggregate(how, rows, place, at) for how, place in aggregates) for key, rows in keys.items()]
    return Relation((), made)


def aggregate(how, rows, place, at):
    if how == "count":
        return len(rows)
    fields = [row[place] for row in rows]
    return in_range(sum(fields), at) if how == "sum" else min(fields) if how == "min" else max(fields)


def alone(how):
    def value(at, schema, place, relation):
        if not relation.rows:
            if how == "sum":
                return 0
            raise Trap("EmptyMin", at)
        return aggregate(how, relation.rows, place, at)

    return value


def changed(wanted):
    def value(at, number, delta):
        if delta.atoms is None:
            raise Trap("ReadFail", at)
        rows = [row for (relation, row), sign in delta.atoms.items() if relation == number and sign == wanted]
        return Relation((), rows)

    return value


OF = {
    "neg": lambda at, one: in_range(-one, at), "not": lambda at, one: not one,
    "add": lambda at, one, two: in_range(one + two, at), "sub": lambda at, one, two: in_range(one - two, at),
    "mul": lambda at, one, two: in_range(one * two, at), "div": divide(0), "rem": divide(1),
    "eq": lambda at, one, two: one == two, "ne": lambda at, one, two: not one == two,
    "lt": lambda at, one, two: one < two, "le": lambda at, one, two: one <= two,
    "gt": lambda at, one, two: one > two, "ge": lambda at, one, two: one >= two,
    "in": lambda at, one, two: one.row in two.rows,
    "field": lambda at, schema, place, one: one.row[place],
    "makerow": lambda at, schema, *args: Tuple((), tuple(args)),
    "makerel": lambda at, count, *args: Relation((), [arg.row for arg in args]),
    "project": projected, "join": joined, "group": grouped,
    "union": lambda at, one, two: Relation((), one.rows | two.rows),
    "minus": lambda at, one, two: Relation((), one.rows - two.rows),
    "inter": lambda at, one, two: Relation((), one.rows & two.rows),
    "count": lambda at, one: len(one.rows), "empty": lambda at, one: not one.rows,
    "sum": alone("sum"), "min": alone("min"), "max": alone("max"),
    "atom": lambda at, sign, number, one: Delta({(number, one.row): sign}),
    "bulk": lambda at, sign, number, one: Delta({(number, row): sign for row in one.rows}),
    "ins": changed("+"), "del": changed("-"), "isfail": lambda at, one: one.atoms is None,
    "smash": lambda at, one, two: smash(one, two), "merge": lambda at, one, two: merge(one, two),
}


def execute(data, turns):
    """What `exec` prints of a file, and its status."""
    try:
        code = code_file.read(data)
    except Damaged as damage:
        return b"refused BadCode at %d\n" % damage.at, 3
    address = code_rules.rejected(code)
    if address is not None:
        return b"refused Rejected at %d\n" % address, 3
    return CodeMachine(code, turns).run()


def check_itself():
    assert execute(code_file.EXAMPLE, 0) == (b"14\n", 0)
    assert execute(code_file.EXAMPLE[:63] + b"\1" + code_file.EXAMPLE[64:], 0) == (b"refused Rejected at 3\n", 3)


if __name__ == "__main__":
    check_itself()
    print("ok")
