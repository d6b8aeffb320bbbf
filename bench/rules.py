"""Checks the types of a script's tree, as docs/LANGUAGE.md tells the rules: accepted, or refused for the first fault.

    bench/rules.py FILE        prints what `hera check FILE` prints

A type is "int", "bool", "text" or "delta", or a pair of "rel" or "tuple" and a schema, a list of names with kinds. Nothing is
taken from the program.
"""

import sys

import script as scripts
from script import Refused

KINDS = ("int", "bool", "text")
HOSTS = {"band": (["int"], "bool"), "bucket": (["int"], "int"), "clamp": (["int"], "int"), "is_sku": (["text"], "bool")}
ORDER = ["Unknown", "Repeated", "Impure", "TooMany", "Mismatch"]


def first(faults):
    """Refuses for the first of the rules that one phrase breaks, by kind and then by offset."""
    if faults:
        raise Refused(*min(faults, key=lambda fault: (ORDER.index(fault[0]), fault[1])))


def twice(tokens):
    """Each name that stands before it in the list is Repeated."""
    seen, faults = set(), []
    for token in tokens:
        if token.value in seen:
            faults.append(("Repeated", token.at))
        seen.add(token.value)
    return faults


class Checker:
    """The four passes over a script."""

    def __init__(self, tree):
        self.tree, self.relations, self.funcs, self.procs = tree, {}, {}, {}
        # The visible locals with their types, a list for each block; and the body: "func", "proc" or "main", its result.
        self.blocks, self.body, self.result = [], None, None

    # ---- names and types

    def schema(self, attrs):
        names = []
        for place, attr in enumerate(attrs):
            if any(name == attr.name for name, _ in names):
                raise Refused("Repeated", attr.at)
            if place >= 16:
                raise Refused("TooMany", attr.at)
            names.append((attr.name, attr.type))
        return names

    def type(self, node):
        if node.kind not in ("rel", "tuple"):
            return node.kind
        if node.name is not None:
            if node.name not in self.relations:
                raise Refused("Unknown", node.at)
            return node.kind, self.relations[node.name]
        return node.kind, self.schema(node.attrs)

    def is_global(self, name):
        return name in self.relations or name in self.funcs or name in self.procs

    def local(self, name):
        for block in self.blocks:
            if name in block:
                return block[name]
        return None

    def is_taken(self, name):
        return self.local(name) is not None or self.is_global(name)

    # ---- passes

    def check(self):
        for it in self.tree.relations:
            schema = self.schema(it.attrs)
            if it.name in self.relations:
                raise Refused("Repeated", it.at)
            if len(self.relations) == 256:
                raise Refused("TooMany", it.at)
            self.relations[it.name] = schema
        for table, bodies in ((self.funcs, self.tree.funcs), (self.procs, self.tree.procs)):
            for it in bodies:
                if self.is_global(it.name):
                    raise Refused("Repeated", it.at)
                table[it.name] = None
        for table, bodies in ((self.funcs, self.tree.funcs), (self.procs, self.tree.procs)):
            for it in bodies:
                table[it.name] = self.signature(it)
        for it in [*self.tree.funcs, *self.tree.procs]:
            params, result = (self.funcs if it.kind == "func" else self.procs)[it.name]
            self.in_body(it.kind, result, dict(zip((param.name for param in it.params), params)), it.block)
            if it.kind == "func" and not returns(it.block):
                raise Refused("NoReturn", it.at)
        if self.tree.main is not None:
            self.in_body("main", None, {}, self.tree.main)

    def signature(self, it):
        result = None if it.type is None else self.type(it.type)
        params, names = [], set()
        for param in it.params:
            params.append(self.type(param.type))
            if param.name in names or self.is_global(param.name):
                raise Refused("Repeated", param.at)
            names.add(param.name)
        return params, result

    def in_body(self, body, result, params, block):
        self.body, self.result, self.blocks = body, result, [params]
        self.block(block)

    def block(self, stmts):
        self.blocks.append({})
        for stmt in stmts:
            getattr(self, "do_" + stmt.kind)(stmt)
        self.blocks.pop()

    # ---- statements

    def do_declare(self, stmt):
        type_ = self.type(stmt.type)
        value = self.value(stmt.value)
        faults = [("Repeated", stmt.at)] * self.is_taken(stmt.name) + [("Mismatch", stmt.at)] * (value != type_)
        first(faults)
        self.blocks[-1][stmt.name] = type_

    def do_assign(self, stmt):
        value = self.value(stmt.value)
        type_ = self.local(stmt.name)
        if type_ is None:
            raise Refused("Unknown", stmt.at)
        if value != type_:
            raise Refused("Mismatch", stmt.at)

    def do_call(self, stmt):
        args = self.values(stmt.args)
        if not self.is_global(stmt.name) and stmt.name not in HOSTS:
            raise Refused("Unknown", stmt.at)
        if stmt.name in self.procs and self.body == "func":
            raise Refused("Impure", stmt.at)
        if stmt.name not in self.procs or self.procs[stmt.name][0] != args:
            raise Refused("Mismatch", stmt.at)

    def want(self, value, type_, at):
        if value != type_:
            raise Refused("Mismatch", at)

    def do_if(self, stmt):
        for at, condition, block in stmt.arms:
            self.want(self.value(condition), "bool", at)
            self.block(block)
        if stmt.otherwise is not None:
            self.block(stmt.otherwise)

    def do_while(self, stmt):
        self.want(self.value(stmt.condition), "bool", stmt.at)
        self.block(stmt.block)

    def walked(self, node):
        """The variable of a walk with its type, behind the operand."""
        operand = self.value(node.operand)
        faults = [("Repeated", node.name.at)] * self.is_taken(node.name.value)
        first(faults + [("Mismatch", node.at)] * (not is_a("rel", operand)))
        return {node.name.value: ("tuple", operand[1])}, operand

    def do_foreach(self, stmt):
        variable, _ = self.walked(stmt)
        self.blocks.append(variable)
        self.block(stmt.block)
        self.blocks.pop()

    def pure(self, stmt):
        return [("Impure", stmt.at)] * (self.body == "func")

    def do_print(self, stmt):
        self.value(stmt.value)
        first(self.pure(stmt))

    def do_apply(self, stmt):
        value = self.value(stmt.value)
        first(self.pure(stmt) + [("Mismatch", stmt.at)] * (value != "delta"))

    def do_assert(self, stmt):
        self.want(self.value(stmt.value), "bool", stmt.at)

    def do_commit(self, stmt):
        first(self.pure(stmt))

    do_rollback = do_commit

    def do_return(self, stmt):
        value = None if stmt.value is None else self.value(stmt.value)
        if value != self.result:
            raise Refused("Mismatch", stmt.at)

    # ---- expressions

    def value(self, node):
        return getattr(self, "of_" + node.kind)(node)

    def values(self, nodes):
        return [self.value(node) for node in nodes]

    def of_constant(self, node):
        return "bool" if isinstance(node.value, bool) else "int" if isinstance(node.value, int) else "text"

    def of_fail(self, node):
        return "delta"

    def of_name(self, node):
        type_ = self.local(node.name)
        if type_ is None:
            if node.name not in self.relations:
                raise Refused("Unknown", node.at)
            return "rel", self.relations[node.name]
        return type_

    def of_call(self, node):
        args = self.values(node.args)
        if not self.is_global(node.name):
            if node.name not in HOSTS:
                raise Refused("Unknown", node.at)
            params, result = HOSTS[node.name]
        elif node.name in self.funcs:
            params, result = self.funcs[node.name]
        else:
            raise Refused("Mismatch", node.at)
        self.want(args, params, node.at)
        return result

    def of_prefix(self, node):
        type_ = "int" if node.mark == "-" else "bool"
        self.want(self.value(node.value), type_, node.at)
        return type_

    def of_chain(self, node):
        left = self.value(node.first)
        for mark, at, operand in node.rest:
            left = self.operation(mark, at, left, self.value(operand))
        return left

    def operation(self, mark, at, left, right):
        if mark == "when":
            self.want(right, "delta", at)
            return left
        if mark in ("==", "!="):
            self.want(left, right, at)
            return "bool"
        if mark == "in":
            if not (is_a("tuple", left) and is_a("rel", right) and left[1] == right[1]):
                raise Refused("Mismatch", at)
            return "bool"
        if mark in ("<", "<=", ">", ">="):
            if left != right or left not in ("int", "text"):
                raise Refused("Mismatch", at)
            return "bool"
        type_ = {"&&": "bool", "||": "bool", "!": "delta", "&": "delta"}.get(mark, "int")
        if left != type_ or right != type_:
            raise Refused("Mismatch", at)
        return type_

    def of_field(self, node):
        value = self.value(node.value)
        if not is_a("tuple", value):
            raise Refused("Mismatch", node.at)
        kind = dict(value[1]).get(node.name)
        if kind is None:
            raise Refused("Unknown", node.at)
        return kind

    def of_tuple(self, node):
        values = self.values([value for _, value in node.fields])
        faults = twice([name for name, _ in node.fields])
        faults += [("TooMany", node.at)] * (len(values) > 16)
        first(faults + [("Mismatch", node.at)] * any(value not in KINDS for value in values))
        return "tuple", [(name.value, value) for (name, _), value in zip(node.fields, values)]

    def fits(self, relation, at_name, args, at):
        """The arguments of an atom or a line are of the relation's kinds."""
        if relation not in self.relations:
            raise Refused("Unknown", at_name)
        self.want(args, [kind for _, kind in self.relations[relation]], at)

    def of_literal(self, node):
        for atom in node.atoms:
            self.fits(atom.relation, atom.at, self.values(atom.args), atom.at)
        return "delta"

    def of_rows(self, node):
        for at, args in node.lines:
            self.fits(node.relation.value, node.relation.at, self.values(args), at)
        return "rel", self.relation(node.relation)

    def relation(self, name):
        if name.value not in self.relations:
            raise Refused("Unknown", name.at)
        return self.relations[name.value]

    def of_walk(self, node):
        variable, operand = self.walked(node)
        self.blocks.append(variable)
        body = self.value(node.body)
        self.blocks.pop()
        if node.kind == "select":
            self.want(body, "bool", node.at)
            return operand
        if not is_a("tuple", body):
            raise Refused("Mismatch", node.at)
        return "rel", body[1]

    of_select = of_map = of_walk

    def unknown(self, value, names):
        """Those of the names that the operand's schema lacks, where it has one."""
        if not is_a("rel", value):
            return []
        return [("Unknown", name.at) for name in names if name.value not in dict(value[1])]

    def no_rel(self, node, *values):
        return [("Mismatch", node.at)] * (not all(is_a("rel", value) for value in values))

    def of_project(self, node):
        value = self.value(node.value)
        first(self.unknown(value, node.names) + twice(node.names) + self.no_rel(node, value))
        return "rel", [(name.value, dict(value[1])[name.value]) for name in node.names]

    def of_rename(self, node):
        value = self.value(node.value)
        olds, news = [old for _, old in node.names], [new for new, _ in node.names]
        faults = self.unknown(value, olds) + twice(olds) + twice(news) + self.no_rel(node, value)
        if is_a("rel", value):
            kept = {name for name, _ in value[1]} - {old.value for old in olds}
            faults += [("Repeated", new.at) for new in news if new.value in kept]
        first(faults)
        names = {old.value: new.value for new, old in node.names}
        return "rel", [(names.get(name, name), kind) for name, kind in value[1]]

    def of_union(self, node):
        left, right = self.values([node.left, node.right])
        first(self.no_rel(node, left, right) or [("Mismatch", node.at)] * (left != right))
        return left

    of_minus = of_inter = of_union

    def of_join(self, node):
        left, right = self.values([node.left, node.right])
        first(self.no_rel(node, left, right))
        names = dict(left[1])
        more = [(name, kind) for name, kind in right[1] if name not in names]
        faults = [("TooMany", node.at)] * (len(names) + len(more) > 16)
        first(faults + [("Mismatch", node.at)] * any(names.get(name, kind) != kind for name, kind in right[1]))
        return "rel", left[1] + more

    def of_group(self, node):
        value = self.value(node.value)
        asked = [name for _, (_, name) in node.results if name]
        faults = self.unknown(value, node.by + asked)
        faults += twice(node.by + [name for name, _ in node.results]) + self.no_rel(node, value)
        faults += [("TooMany", node.at)] * (len(node.by) + len(node.results) > 16)
        if is_a("rel", value):
            kinds = dict(value[1])
            sums = [kinds.get(name.value) for _, (how, name) in node.results if how == "sum"]
            faults += [("Mismatch", node.at)] * any(kind not in (None, "int") for kind in sums)
        first(faults)
        made = [(name.value, kinds[name.value]) for name in node.by]
        for name, (how, asked) in node.results:
            made.append((name.value, kinds[asked.value] if how in ("min", "max") else "int"))
        return "rel", made

    def of_count(self, node):
        first(self.no_rel(node, self.value(node.value)))
        return "int" if node.kind == "count" else "bool"

    of_empty = of_count

    def of_sum(self, node):
        value = self.value(node.value)
        first(self.unknown(value, [node.attribute]) + self.no_rel(node, value))
        kind = dict(value[1])[node.attribute.value]
        if node.kind == "sum":
            self.want(kind, "int", node.at)
        return kind

    of_min = of_max = of_sum

    def of_bulk(self, node):
        value = self.value(node.value)
        schema = self.relation(node.relation)
        first(self.no_rel(node, value))
        self.want([kind for _, kind in value[1]], [kind for _, kind in schema], node.at)
        return "delta"

    def of_ins(self, node):
        value = self.value(node.value)
        schema = self.relation(node.relation)
        self.want(value, "delta", node.at)
        return "rel", schema

    of_del = of_ins

    def of_isfail(self, node):
        self.want(self.value(node.value), "delta", node.at)
        return "bool"


def is_a(word, type_):
    return isinstance(type_, tuple) and type_[0] == word


def returns(block):
    """Whether a block's last statement returns."""
    if not block:
        return False
    last = block[-1]
    if last.kind == "if" and last.otherwise is not None:
        return all(returns(it) for it in [*(block for _, _, block in last.arms), last.otherwise])
    return last.kind == "return"


def check(script):
    """What `check` prints, and its status."""
    try:
        Checker(scripts.read(script)).check()
    except Refused as refused:
        return b"refused %s at %d\n" % (refused.name.encode(), refused.at), 3
    return b"accepted\n", 0


def main():
    with open(sys.argv[1], "rb") as file:
        text, status = check(file.read())
    sys.stdout.buffer.write(text)
    return status


if __name__ == "__main__":
    sys.exit(main())
