"""Looks a code file's code over, as docs/LANGUAGE.md tells the rules under "Code files": it keeps them, or the least address
up to which no states meet those that speak of addresses up to it. Nothing here is taken from the program.

What is known of a value is a kind, "delta", or a pair of "tuple" or "rel" and a tuple of kinds; NO_ROWS of the relation that
`makerel` makes of nothing.
"""

import code_file

NO_ROWS = ("rel", None)
HOSTS = [("int", "bool"), ("int", "int"), ("text", "bool"), ("int", "int")]
MOST = 16


class Broken(Exception):
    """An instruction does not find what it takes."""


def kinds(schema):
    return tuple(kind for _, kind in schema)


def form(shape):
    return (shape[0], kinds(shape[1])) if isinstance(shape, tuple) else shape


def agrees(seen, wanted):
    return wanted[0] == "rel" if seen == NO_ROWS else seen == wanted


def want(good):
    if not good:
        raise Broken


# ---- operations


def arity(op):
    name = op[0]
    if name == "makerow":
        return len(op[1])
    if name == "makerel":
        return op[1]
    one = "neg not field project group count empty sum min max atom bulk ins del isfail".split()
    return 1 if name in one else 2


def at_place(schema, place):
    want(place < len(schema))
    return schema[place][1]


def aggregate(schema, how, place):
    if how == "count":
        return "int"
    kind = at_place(schema, place)
    want(how != "sum" or kind == "int")
    return kind


def joined(left, right):
    """The kinds of a join."""
    names = dict(left)
    want(all(names.get(name, kind) == kind for name, kind in right))
    both = kinds(left) + tuple(kind for name, kind in right if name not in names)
    want(len(both) <= MOST)
    return both


def result_of(op, args, relations):
    """What an operation gives of operands of which this is known."""
    name, *parts = op

    def takes(*wanted):
        want(all(agrees(arg, it) for arg, it in zip(args, wanted)))

    if name in ("neg", "not"):
        takes("int" if name == "neg" else "bool")
        return args[0]
    if name in ("add", "sub", "mul", "div", "rem"):
        takes("int", "int")
        return "int"
    if name in ("eq", "ne"):
        one, two = args
        want(agrees(one, two) if two != NO_ROWS else one[0] == "rel")
        return "bool"
    if name in ("lt", "le", "gt", "ge"):
        want(args[0] == args[1] and args[0] in ("int", "text"))
        return "bool"
    if name == "in":
        want(args[0][0] == "tuple" and agrees(args[1], ("rel", args[0][1])))
        return "bool"
    if name in ("count", "empty"):
        want(args[0][0] == "rel")
        return "int" if name == "count" else "bool"
    if name == "field":
        takes(("tuple", kinds(parts[0])))
        return at_place(*parts)
    if name == "makerow":
        takes(*kinds(parts[0]))
        return "tuple", kinds(parts[0])
    if name == "makerel":
        if not args:
            return NO_ROWS
        want(args[0][0] == "tuple" and all(arg == args[0] for arg in args))
        return "rel", args[0][1]
    if name == "project":
        takes(("rel", kinds(parts[0])))
        made = tuple(at_place(parts[0], place) for place in parts[1])
    elif name == "group":
        takes(("rel", kinds(parts[0])))
        made = tuple(at_place(parts[0], place) for place in parts[1])
        made += tuple(aggregate(parts[0], *it) for it in parts[2])
    elif name == "join":
        takes(("rel", kinds(parts[0])), ("rel", kinds(parts[1])))
        return "rel", joined(*parts)
    elif name in ("union", "minus", "inter"):
        want(all(arg[0] == "rel" for arg in args) and (NO_ROWS in args or args[0] == args[1]))
        return args[1] if args[0] == NO_ROWS else args[0]
    elif name in ("sum", "min", "max"):
        takes(("rel", kinds(parts[0])))
        return aggregate(parts[0], name, parts[1])
    else:
        return of_delta(name, parts, takes, relations)
    want(1 <= len(made) <= MOST)
    return "rel", made


def of_delta(name, parts, takes, relations):
    """Of those with deltas."""
    if name in ("smash", "merge"):
        takes("delta", "delta")
        return "delta"
    if name == "isfail":
        takes("delta")
        return "bool"
    want(parts[-1] < len(relations))
    row = kinds(relations[parts[-1]][1])
    if name in ("ins", "del"):
        takes("delta")
        return "rel", row
    takes(("tuple" if name == "atom" else "rel", row))
    return "delta"


# ---- instructions


class Point:
    """The state of an address: operands, walks with what they walk over and what they gather, and layers."""

    def __init__(self, operands=(), walks=(), layers=0):
        self.operands, self.walks, self.layers = operands, walks, layers

    def __eq__(self, other):
        return isinstance(other, Point) and vars(self) == vars(other)

    def taken(self, *wanted):
        """Without the operands of these forms, the last one on top."""
        rest = len(self.operands) - len(wanted)
        want(rest >= 0 and all(agrees(*it) for it in zip(self.operands[rest:], wanted)))
        return Point(self.operands[:rest], self.walks, self.layers)

    def given(self, *seen):
        return Point(self.operands + seen, self.walks, self.layers)


class Rules:
    """The rules, over one file."""

    def __init__(self, code):
        self.code, self.bodies, self.instructions = code, code.bodies, code.instructions
        self.broken = []

    def break_at(self, address):
        self.broken.append(address)

    def home(self, address):
        """The body in which an address lies: how many of those behind body 0 have begun, up to the first that has not."""
        for number, body in enumerate(self.bodies[1:]):
            if body.start > address:
                return number
        return max(len(self.bodies) - 1, 0)

    def first(self):
        """The least address at which a rule is broken, or None."""
        if not self.bodies or not self.instructions:
            return 0
        self.look_at_bodies()
        self.look_at_slots()
        for address, instruction in enumerate(self.instructions):
            if not self.is_placed(address, *instruction):
                self.break_at(address)
        self.flow()
        return min(self.broken, default=None)

    def look_at_bodies(self):
        before = -1
        for number, body in enumerate(self.bodies):
            good = before < body.start < len(self.instructions) and body.params <= len(body.slots)
            if number == 0:
                good = good and body.start == 0 and body.params == 0 and body.result is None
            if not good:
                self.break_at(body.start)
            before = body.start

    def look_at_slots(self):
        named = [
            (address, instruction[-1])
            for address, instruction in enumerate(self.instructions)
            if instruction[0] in ("jump", "unless", "next", "back")
        ]
        for number, body in enumerate(self.bodies):
            for place, slot in enumerate(body.slots):
                if place >= body.params and slot.first < slot.end and not self.is_range(number, place, slot, named):
                    self.break_at(slot.first)

    def is_range(self, number, place, slot, named):
        first, end = slot.first, slot.end
        if not 0 < first < len(self.instructions) or {self.home(first), self.home(first - 1)} != {number}:
            return False
        if self.instructions[first - 1][0] not in ("store", "next") or self.instructions[first - 1][1] != place:
            return False
        return all(first <= address < end for address, target in named if first <= target < end)

    def slot(self, body, place):
        slots = self.bodies[body].slots
        return slots[place] if place < len(slots) else None

    def is_placed(self, address, name, *parts):
        body = self.home(address)
        if name in ("jump", "unless", "next"):
            return parts[-1] > address
        if name == "load":
            slot = self.slot(body, parts[0])
            return slot is not None and (parts[0] < self.bodies[body].params or slot.first <= address < slot.end)
        if name == "call":
            return parts[0] > 0
        if name == "ret":
            return body > 0 and self.bodies[body].result is None
        if name == "retval":
            return self.bodies[body].result is not None
        if name == "walk":
            if self.gathered(address + 1, body) is None:
                self.break_at(address + 1)
        return name != "halt" or body == 0

    def gathered(self, address, body):
        """The kinds that the walk gathers whose next tuple this instruction takes."""
        if address < len(self.instructions) and self.instructions[address][0] == "next":
            slot = self.slot(body, self.instructions[address][1])
            if slot is not None and slot.gathers is not None:
                return kinds(slot.gathers)
        return None

    def flow(self):
        """One pass over the addresses from the lowest: each hands its state on to those to which it goes."""
        points = {body.start: Point() for body in self.bodies}
        for address, (name, *parts) in enumerate(self.instructions):
            if address not in points or min(self.broken, default=address) < address:
                continue
            try:
                goals = self.goals(address, points[address], name, *parts)
            except Broken:
                self.break_at(address)
                continue
            for target, point in goals:
                speaks = max(address, target)
                good = target < len(self.instructions) and self.home(target) == self.home(address) and point is not None
                if not good or (target <= address or target in points) and points.get(target) != point:
                    self.break_at(speaks)
                elif target > address:
                    points[target] = point

    def goals(self, address, point, name, *parts):
        """Where an instruction goes on to from a state, and with which; with None where no state will do."""
        body, behind = self.home(address), address + 1
        if name in ("jump", "back"):
            return [(parts[0], point)]
        if name == "unless":
            rest = point.taken("bool")
            return [(behind, rest), (parts[0], rest)]
        if name == "next":
            slot = self.slot(body, parts[0])
            want(point.walks and slot is not None)
            it = form(slot.shape)
            want(it[0] == "tuple" and agrees(point.walks[-1][0], ("rel", it[1])))
            return [(behind, point), (parts[1], point)]
        if name in ("ret", "halt"):
            want(self.is_placed(address, name))
            return []
        if name == "retval":
            want(self.bodies[body].result is not None)
            point.taken(form(self.bodies[body].result))
            return []
        return [(behind, getattr(self, "do_" + name)(body, address, point, *parts))]

    def do_push(self, body, address, point, constant):
        if constant in (code_file.EMPTY, code_file.FAIL):
            return point.given("delta")
        return point.given("bool" if isinstance(constant, bool) else "int" if isinstance(constant, int) else "text")

    def do_load(self, body, address, point, place):
        want(self.is_placed(address, "load", place))
        return point.given(form(self.slot(body, place).shape))

    def do_store(self, body, address, point, place):
        want(self.slot(body, place) is not None)
        return point.taken(form(self.slot(body, place).shape))

    def do_rel(self, body, address, point, relation):
        want(relation < len(self.code.relations))
        return point.given(("rel", kinds(self.code.relations[relation][1])))

    def do_prim(self, body, address, point, op, at):
        count = arity(op)
        rest = len(point.operands) - count
        want(rest >= 0)
        result = result_of(op, point.operands[rest:], self.code.relations)
        return Point(point.operands[:rest], point.walks, point.layers).given(result)

    def do_host(self, body, address, point, host):
        want(host < len(HOSTS))
        return point.taken(HOSTS[host][0]).given(HOSTS[host][1])

    def do_enter(self, body, address, point, at):
        rest = point.taken("delta")
        return Point(rest.operands, rest.walks, rest.layers + 1)

    def do_leave(self, body, address, point):
        want(point.layers > 0)
        return Point(point.operands, point.walks, point.layers - 1)

    def do_walk(self, body, address, point):
        want(point.operands and point.operands[-1][0] == "rel")
        gathers = self.gathered(address + 1, body)
        return gathers and Point(point.operands[:-1], point.walks + ((point.operands[-1], gathers),), point.layers)

    def do_keep(self, body, address, point):
        want(point.walks)
        rest, (over, gathers) = point.taken("bool"), point.walks[-1]
        want(agrees(over, ("rel", gathers)))
        return rest

    def do_gather(self, body, address, point):
        want(point.walks)
        return point.taken(("tuple", point.walks[-1][1]))

    def do_yield(self, body, address, point):
        want(point.walks)
        return Point(point.operands, point.walks[:-1], point.layers).given(("rel", point.walks[-1][1]))

    def do_drop(self, body, address, point):
        want(point.walks)
        return Point(point.operands, point.walks[:-1], point.layers)

    def do_call(self, body, address, point, number):
        want(0 < number < len(self.bodies))
        called = self.bodies[number]
        want(called.params <= min(len(point.operands), len(called.slots)))
        rest = point.taken(*[form(slot.shape) for slot in called.slots[: called.params]])
        return rest if called.result is None else rest.given(form(called.result))

    def do_print(self, body, address, point, shape):
        return point.taken(form(shape))

    def do_apply(self, body, address, point, at):
        return point.taken("delta")

    def do_commit(self, body, address, point):
        return point

    do_rollback = do_commit

    def do_assert(self, body, address, point, at):
        return point.taken("bool")


def rejected(code):
    """The address at which the code is rejected, or None."""
    return Rules(code).first()


def check_itself():
    assert rejected(code_file.read(code_file.EXAMPLE)) is None
    changed = code_file.EXAMPLE[:63] + b"\1" + code_file.EXAMPLE[64:]
    assert rejected(code_file.read(changed)) == 3


if __name__ == "__main__":
    check_itself()
    print("ok")
