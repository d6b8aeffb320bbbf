"""Runs a script by its tree, as docs/LANGUAGE.md tells what it means: what it prints, its status and the turns it spends.

    bench/meaning.py TURNS FILE        prints what `hera eval TURNS FILE` prints, for a script that is accepted
    bench/meaning.py turns FILE        prints how many turns it spends

Types are not looked at here, but in bench/rules.py. Nothing is taken from the program.
"""

import sys

import script as scripts

LEAST, GREATEST = -(2**63), 2**63 - 1

# Brackets are no deeper than 64, and calls no more than the turns.
sys.setrecursionlimit(1_000_000)


class Trap(Exception):
    def __init__(self, name, at):
        super().__init__(name, at)
        self.name, self.at = name, at


class Spent(Exception):
    """A turn was due, and none was left."""


class Return(Exception):
    def __init__(self, value):
        super().__init__()
        self.value = value


class Tuple:
    """A tuple, or a relation's set of them, with the names of its attributes."""

    def __init__(self, names, row):
        self.names, self.row = names, row

    def __eq__(self, other):
        return self.row == other.row


class Relation:
    """The names of its attributes, which are none where nothing tells them and there is no row, and its rows."""

    def __init__(self, names, rows):
        self.names, self.rows, self.found = names, frozenset(rows), {}

    def __eq__(self, other):
        return self.rows == other.rows

    def place(self, name):
        return self.names.index(name)

    def by(self, names):
        """Its rows by their fields of these names, kept for the next one who asks."""
        if names not in self.found:
            places, found = [self.place(name) for name in names], {}
            for row in self.rows:
                found.setdefault(tuple(row[place] for place in places), []).append(row)
            self.found[names] = found
        return self.found[names]


class Delta:
    """Atoms: a sign for each relation's number and row; or None for `fail`."""

    def __init__(self, atoms):
        self.atoms = atoms

    def __eq__(self, other):
        return self.atoms == other.atoms


FAIL = Delta(None)


def smash(one, two):
    if one.atoms is None or two.atoms is None:
        return FAIL
    return Delta({**one.atoms, **two.atoms})


def merge(one, two):
    if one.atoms is None or two.atoms is None:
        return FAIL
    if any(one.atoms.get(key, sign) != sign for key, sign in two.atoms.items()):
        return FAIL
    return Delta({**one.atoms, **two.atoms})


def in_range(number, at):
    if not LEAST <= number <= GREATEST:
        raise Trap("Overflow", at)
    return number


def divided(left, right, at):
    """The quotient toward zero, and the remainder with the dividend's sign."""
    if right == 0:
        raise Trap("DivZero", at)
    if left == LEAST and right == -1:
        raise Trap("Overflow", at)
    quotient = abs(left) // abs(right)
    quotient = quotient if (left < 0) == (right < 0) else -quotient
    return quotient, left - quotient * right


HOSTS = {
    "band": lambda v: 0 <= v <= 100,
    "bucket": lambda v: v // 10,
    "is_sku": lambda t: t.startswith(b"SKU-"),
    "clamp": lambda v: min(max(v, 0), 100),
}


class Machine:
    """The relations as they stand, and what was printed."""

    def __init__(self, tree, turns):
        self.tree, self.turns, self.left = tree, turns, turns
        self.numbers = {it.name: number for number, it in enumerate(tree.relations)}
        self.names = [tuple(attr.name for attr in it.attrs) for it in tree.relations]
        self.bodies = {it.name: it for it in [*tree.funcs, *tree.procs]}
        self.rows = [set() for _ in tree.relations]
        self.lent = [None for _ in tree.relations]
        self.undone, self.pending, self.commits, self.printed = [], {}, 0, []

    def spend(self):
        if self.left == 0:
            raise Spent
        self.left -= 1

    def change(self, delta):
        """Makes the state that after a delta, and gives what takes it back."""
        back = []
        for (number, row), sign in delta.atoms.items():
            there = row in self.rows[number]
            if there != (sign == "+"):
                (self.rows[number].add if sign == "+" else self.rows[number].discard)(row)
                self.lent[number] = None
                back.append((number, row, there))
        return back

    def take_back(self, back):
        for number, row, there in reversed(back):
            (self.rows[number].add if there else self.rows[number].discard)(row)
            self.lent[number] = None

    def relation(self, number):
        if self.lent[number] is None:
            self.lent[number] = Relation(self.names[number], self.rows[number])
        return self.lent[number]

    # ---- texts

    def field_text(self, value):
        if isinstance(value, bool):
            return b"true" if value else b"false"
        if isinstance(value, int):
            return b"%d" % value
        for plain, escape in ((b"\\", b"\\\\"), (b'"', b'\\"'), (b"\n", b"\\n"), (b"\t", b"\\t")):
            value = value.replace(plain, escape)
        return b'"' + value + b'"'

    def tuple_text(self, row):
        return b"[" + b", ".join(self.field_text(value) for value in row) + b"]"

    def text(self, value):
        """The printed lines of a value."""
        if isinstance(value, bytes):
            return [value]
        if isinstance(value, Tuple):
            return [self.tuple_text(value.row)]
        if isinstance(value, Relation):
            return [b"rows %d" % len(value.rows), *(self.tuple_text(row) for row in sorted(value.rows))]
        if isinstance(value, Delta):
            if value.atoms is None:
                return [b"fail"]
            atoms = sorted(value.atoms.items(), key=lambda atom: atom[0])
            names = [it.name.encode() for it in self.tree.relations]
            lines = [sign.encode() + names[number] + self.tuple_text(row) for (number, row), sign in atoms]
            return [b"delta %d" % len(lines), *lines]
        return [self.field_text(value)]

    def say(self, value):
        self.printed += self.text(value)

    # ---- statements

    def run(self):
        """What is printed, and the status."""
        status = 0
        try:
            self.work()
        except Trap as trap:
            self.printed.append(b"trap %s at %d" % (trap.name.encode(), trap.at))
            status = 1
        except Spent:
            self.printed.append(b"turns spent")
            status = 4
        return b"".join(line + b"\n" for line in self.printed), status

    def work(self):
        """Main, up to its end or a return."""
        try:
            if self.tree.main is not None:
                self.block(self.tree.main, {})
        except Return:
            pass

    def block(self, stmts, locals_):
        for stmt in stmts:
            getattr(self, "do_" + stmt.kind)(stmt, locals_)

    def do_declare(self, stmt, locals_):
        locals_[stmt.name] = self.value(stmt.value, locals_)

    do_assign = do_declare

    def do_call(self, stmt, locals_):
        self.call(stmt, locals_)

    def do_if(self, stmt, locals_):
        for _, condition, block in stmt.arms:
            if self.value(condition, locals_):
                return self.block(block, locals_)
        if stmt.otherwise is not None:
            self.block(stmt.otherwise, locals_)

    def do_while(self, stmt, locals_):
        while self.value(stmt.condition, locals_):
            self.block(stmt.block, locals_)
            self.spend()

    def do_foreach(self, stmt, locals_):
        for t in self.walk(stmt.operand, locals_):
            locals_[stmt.name.value] = t
            self.block(stmt.block, locals_)
            self.spend()

    def do_print(self, stmt, locals_):
        self.say(self.value(stmt.value, locals_))

    def do_apply(self, stmt, locals_):
        delta = self.value(stmt.value, locals_)
        if delta.atoms is None:
            raise Trap("ApplyFail", stmt.at)
        self.undone += self.change(delta)
        self.pending.update(delta.atoms)

    def do_assert(self, stmt, locals_):
        if not self.value(stmt.value, locals_):
            raise Trap("Assert", stmt.at)

    def store(self, atoms):
        """What keeps a commit with these atoms: nothing does here."""

    def do_commit(self, stmt, locals_):
        self.store(self.pending)
        self.undone, self.pending = [], {}
        self.commits += 1
        self.printed.append(b"commit %d" % self.commits)
        if stmt.label is not None:
            self.printed.append(stmt.label)

    def do_rollback(self, stmt, locals_):
        self.take_back(self.undone)
        self.undone, self.pending = [], {}

    def do_return(self, stmt, locals_):
        raise Return(None if stmt.value is None else self.value(stmt.value, locals_))

    # ---- expressions

    def value(self, node, locals_):
        return getattr(self, "of_" + node.kind)(node, locals_)

    def values(self, nodes, locals_):
        return [self.value(node, locals_) for node in nodes]

    def walk(self, operand, locals_):
        relation = self.value(operand, locals_)
        return (Tuple(relation.names, row) for row in sorted(relation.rows))

    def call(self, node, locals_):
        args = self.values(node.args, locals_)
        if node.name not in self.bodies:
            return HOSTS[node.name](*args)
        self.spend()
        body = self.bodies[node.name]
        try:
            self.block(body.block, {param.name: arg for param, arg in zip(body.params, args)})
        except Return as back:
            return back.value
        return None

    of_call = call

    def of_constant(self, node, locals_):
        return node.value

    def of_fail(self, node, locals_):
        return FAIL

    def of_name(self, node, locals_):
        if node.name in self.numbers:
            return self.relation(self.numbers[node.name])
        value = locals_[node.name]
        return value

    def of_prefix(self, node, locals_):
        value = self.value(node.value, locals_)
        return in_range(-value, node.at) if node.mark == "-" else not value

    def of_chain(self, node, locals_):
        mark = node.rest[0][0]
        if mark == "when":
            return self.supposed(node.first, node.rest, locals_)
        left = self.value(node.first, locals_)
        for mark, at, right in node.rest:
            if mark in ("&&", "||"):
                if left == (mark == "||"):
                    return left
                left = self.value(right, locals_)
            else:
                left = self.operation(mark, at, left, self.value(right, locals_))
        return left

    def supposed(self, first, rest, locals_):
        """The first part in the state after the deltas, the last one first."""
        if not rest:
            return self.value(first, locals_)
        _, at, operand = rest[-1]
        delta = self.value(operand, locals_)
        if delta.atoms is None:
            raise Trap("WhenFail", at)
        back = self.change(delta)
        try:
            return self.supposed(first, rest[:-1], locals_)
        finally:
            self.take_back(back)

    def operation(self, mark, at, left, right):
        if mark == "in":
            return left.row in right.rows
        if mark in ("==", "!="):
            return (left == right) == (mark == "==")
        if mark in ("<", "<=", ">", ">="):
            return {"<": left < right, "<=": left <= right, ">": left > right, ">=": left >= right}[mark]
        if mark == "!":
            return smash(left, right)
        if mark == "&":
            return merge(left, right)
        if mark in ("/", "%"):
            return divided(left, right, at)[mark == "%"]
        return in_range({"+": left + right, "-": left - right, "*": left * right}[mark], at)

    def of_field(self, node, locals_):
        value = self.value(node.value, locals_)
        return value.row[value.names.index(node.name)]

    def of_tuple(self, node, locals_):
        values = self.values([value for _, value in node.fields], locals_)
        return Tuple(tuple(name.value for name, _ in node.fields), tuple(values))

    def of_literal(self, node, locals_):
        whole = Delta({})
        for atom in node.atoms:
            row = tuple(self.values(atom.args, locals_))
            whole = merge(whole, Delta({(self.numbers[atom.relation], row): atom.sign}))
        return whole

    def of_rows(self, node, locals_):
        names = self.names[self.numbers[node.relation.value]]
        return Relation(names, [tuple(self.values(args, locals_)) for _, args in node.lines])

    def of_select(self, node, locals_):
        relation = self.value(node.operand, locals_)
        kept = []
        for row in sorted(relation.rows):
            locals_[node.name.value] = Tuple(relation.names, row)
            if self.value(node.body, locals_):
                # The body may not have set its variable, which is a local: no expression does.
                kept.append(row)
            self.spend()
        return Relation(relation.names, kept)

    def of_map(self, node, locals_):
        names, rows = None, []
        for t in self.walk(node.operand, locals_):
            locals_[node.name.value] = t
            made = self.value(node.body, locals_)
            names = made.names
            rows.append(made.row)
            self.spend()
        return Relation(names, rows)

    def of_project(self, node, locals_):
        value = self.value(node.value, locals_)
        names = tuple(name.value for name in node.names)
        if not value.rows:
            return Relation(names, [])
        places = [value.place(name) for name in names]
        return Relation(names, [tuple(row[place] for place in places) for row in value.rows])

    def of_rename(self, node, locals_):
        value = self.value(node.value, locals_)
        if value.names is None:
            return value
        new = {old.value: name.value for name, old in node.names}
        return Relation(tuple(new.get(name, name) for name in value.names), value.rows)

    def of_union(self, node, locals_):
        left, right = self.values([node.left, node.right], locals_)
        names = left.names or right.names
        if node.kind == "union":
            return Relation(names, left.rows | right.rows)
        return Relation(names, left.rows - right.rows if node.kind == "minus" else left.rows & right.rows)

    of_minus = of_inter = of_union

    def of_join(self, node, locals_):
        left, right = self.values([node.left, node.right], locals_)
        if left.names is None or right.names is None:
            return Relation(None, [])
        common = tuple(name for name in left.names if name in right.names)
        more = [place for place, name in enumerate(right.names) if name not in left.names]
        found, places = right.by(common), [left.place(name) for name in common]
        rows = [
            row + tuple(other[place] for place in more)
            for row in left.rows
            for other in found.get(tuple(row[place] for place in places), [])
        ]
        return Relation(left.names + tuple(right.names[place] for place in more), rows)

    def of_group(self, node, locals_):
        value = self.value(node.value, locals_)
        names = tuple(it.value for it in node.by) + tuple(name.value for name, _ in node.results)
        if not value.rows:
            return Relation(names, [])
        keys = {}
        for row in value.rows:
            keys.setdefault(tuple(row[value.place(it.value)] for it in node.by), []).append(row)
        made = []
        for key, rows in keys.items():
            fields = []
            for _, (how, attribute) in node.results:
                fields.append(self.aggregate(how, rows, attribute and value.place(attribute.value), node.at))
            made.append(key + tuple(fields))
        return Relation(names, made)

    def aggregate(self, how, rows, place, at):
        if how == "count":
            return len(rows)
        fields = [row[place] for row in rows]
        if how == "sum":
            return in_range(sum(fields), at)
        return min(fields) if how == "min" else max(fields)

    def of_count(self, node, locals_):
        return len(self.value(node.value, locals_).rows)

    def of_empty(self, node, locals_):
        return not self.value(node.value, locals_).rows

    def of_sum(self, node, locals_):
        value = self.value(node.value, locals_)
        if not value.rows:
            if node.kind == "sum":
                return 0
            raise Trap("EmptyMin", node.at)
        return self.aggregate(node.kind, value.rows, value.place(node.attribute.value), node.at)

    of_min = of_max = of_sum

    def of_bulk(self, node, locals_):
        number = self.numbers[node.relation.value]
        return Delta({(number, row): node.sign for row in self.value(node.value, locals_).rows})

    def of_ins(self, node, locals_):
        number, delta = self.numbers[node.relation.value], self.value(node.value, locals_)
        if delta.atoms is None:
            raise Trap("ReadFail", node.at)
        wanted = "+" if node.kind == "ins" else "-"
        rows = [row for (relation, row), sign in delta.atoms.items() if relation == number and sign == wanted]
        return Relation(self.names[number], rows)

    of_del = of_ins

    def of_isfail(self, node, locals_):
        return self.value(node.value, locals_).atoms is None


DRILL = """relation P(k int, v int);
main {
  int i = 0;
  while (i < N) { apply {+P(i, i * 7 % 11)}; i = i + 1; }
  commit;
  delta low = bulk(-P, select(t in P : t.v < 5));
  delta add = bulk(+P, map(t in P : [k = t.k + N, v = t.v]));
  print count(P);
  print sum(P, v);
  print count(P) when low;
  print count(P) when low ! add;
  print count(P) when bulk(+P, map(t in P : [k = t.k + N, v = t.v])) when low;
}
"""


def drill(number):
    """The script of `drill`."""
    return DRILL.replace("N", str(number)).encode()


def evaluate(script, turns):
    """What `eval` prints of a script that its types don't refuse, its status, and how many turns it spends."""
    try:
        machine = Machine(scripts.read(script), turns)
    except scripts.Refused as refused:
        return b"refused %s at %d\n" % (refused.name.encode(), refused.at), 3, 0
    text, status = machine.run()
    return text, status, turns - machine.left


def main():
    turns, path = sys.argv[1:]
    with open(path, "rb") as file:
        text, status, spent = evaluate(file.read(), 2**64 - 1 if turns == "turns" else int(turns))
    if turns == "turns":
        print(spent)
        return 0
    sys.stdout.buffer.write(text)
    return status


if __name__ == "__main__":
    sys.exit(main())
