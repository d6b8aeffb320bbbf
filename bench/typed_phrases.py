"""Draws scripts that keep the rules of typing, so that what they mean is tried, and not where they are refused."""

RELATIONS = [
    ("R", [("a", "int")]),
    ("S", [("a", "int"), ("b", "text")]),
    ("T", [("b", "text"), ("on", "bool"), ("a", "int")]),
]
DECLARED = "relation R(a int); relation S(a int, b text); relation T(b text, on bool, a int); "
TEXTS = ['""', '"x"', '"SKU-1"', '"a\\"b"', '"\\n"', '"é"']
INTS = ["0", "1", "2", "3", "7", "10", "9223372036854775807"]


class TypedPhrases:
    """Expressions of a wanted type, and statements, over the locals that are visible."""

    def __init__(self, draw):
        self.draw = draw
        self.locals, self.made, self.funcs, self.pure = [], 0, [], False

    def one(self, *choices):
        return self.draw.choice(choices)

    def visible(self, type_):
        return [name for name, it in self.locals if it == type_]

    def new_name(self):
        self.made += 1
        return f"v{self.made}"

    def of(self, type_, depth):
        """An expression of this type: a name of one, or one that is made."""
        if isinstance(type_, tuple):
            return self.rel_of(type_[1], depth) if type_[0] == "rel" else self.tuple_of(type_[1], depth)
        named = self.visible(type_)
        if named and self.draw.random() < 0.3:
            return self.one(*named)
        return getattr(self, type_)(depth)

    def int(self, depth):
        if depth <= 0:
            return self.one(*INTS, *self.visible("int"), *self.fields("int"))
        down = depth - 1
        return self.one(
            lambda: f"({self.int(down)} {self.one('+', '-', '*', '/', '%')} {self.int(down)})",
            lambda: f"-{self.int(0)}" if self.draw.random() < 0.5 else f"-({self.int(down)})",
            lambda: f"count({self.rel(down)[0]})",
            lambda: self.of_attribute("int", down),
            lambda: f"({self.int(down)} when {self.delta(down)})",
            lambda: f"{self.one('clamp', 'bucket')}({self.int(down)})",
            lambda: self.call("int", down),
            lambda: self.int(0),
        )()

    def of_attribute(self, kind, depth):
        """A sum, a least or a greatest of an attribute of this kind."""
        text, schema = self.rel(depth)
        names = [name for name, it in schema if it == kind]
        if not names:
            return getattr(self, kind)(0)
        return f"{self.one('sum', 'min', 'max') if kind == 'int' else self.one('min', 'max')}({text}, {self.one(*names)})"

    def fields(self, kind):
        """Fields of this kind of the tuples that are visible."""
        return [
            f"{name}.{attribute}"
            for name, it in self.locals
            if isinstance(it, tuple) and it[0] == "tuple"
            for attribute, its in it[1]
            if its == kind
        ]

    def call(self, type_, depth):
        named = [(name, params) for name, params, result in self.funcs if result == type_]
        if not named:
            return self.of(type_, depth - 1)
        name, params = self.one(*named)
        return f"{name}({', '.join(self.of(param, depth - 1) for param in params)})"

    def bool(self, depth):
        if depth <= 0:
            return self.one("true", "false", *self.visible("bool"), *self.fields("bool"))
        down = depth - 1
        return self.one(
            lambda: f"{self.int(down)} {self.one('<', '<=', '>', '>=', '==', '!=')} {self.int(down)}",
            lambda: f"{self.text(down)} {self.one('<', '<=', '>', '>=', '==', '!=')} {self.text(down)}",
            lambda: f"!({self.bool(down)})",
            lambda: f"({self.bool(0)} {self.one('&&', '||')} {self.bool(down) if down <= 0 else '(' + self.bool(down) + ')'})",
            lambda: f"empty({self.rel(down)[0]})",
            lambda: f"isfail({self.delta(down)})",
            lambda: f"({self.delta(down)}) == ({self.delta(down)})",
            lambda: self.membership(down),
            lambda: f"band({self.int(down)})",
            lambda: f"is_sku({self.text(down)})",
            lambda: f"({self.bool(0)} when {self.delta(down)})",
        )()

    def membership(self, depth):
        text, schema = self.rel(depth)
        return f"{self.tuple_of(schema, depth)} in ({text})"

    def text(self, depth):
        if depth <= 0:
            return self.one(*TEXTS, *self.visible("text"), *self.fields("text"))
        return self.one(lambda: self.text(0), lambda: self.of_attribute("text", depth - 1), lambda: self.call("text", depth))()

    def tuple_of(self, schema, depth):
        named = self.visible(("tuple", schema))
        if named and self.draw.random() < 0.3:
            return self.one(*named)
        return "[" + ", ".join(f"{name} = {self.of(kind, depth - 1)}" for name, kind in schema) + "]"

    def rel_of(self, schema, depth):
        """A relation of this schema."""
        fitting = [name for name, it in RELATIONS if it == schema] + self.visible(("rel", schema))
        if fitting and self.draw.random() < 0.6:
            return self.one(*fitting)
        inner, attributes = self.rel(depth - 1)
        variable = self.new_name()
        self.locals.append((variable, ("tuple", attributes)))
        made = self.tuple_of(schema, depth - 1)
        self.locals.pop()
        return f"map({variable} in {inner} : {made})"

    def rel(self, depth):
        """A relation, and its schema."""
        name, schema = self.one(*RELATIONS)
        if depth <= 0:
            local = [(it, type_[1]) for it, type_ in self.locals if isinstance(type_, tuple) and type_[0] == "rel"]
            return self.one((name, schema), *local)
        return self.one(
            lambda _: (name, schema), self.written, self.chosen, self.mapped, self.projected, self.renamed, self.combined,
            self.joined, self.grouped, self.supposed, self.read_delta,
        )(depth - 1)

    def written(self, depth):
        name, schema = self.one(*RELATIONS)
        lines = [", ".join(self.of(kind, depth - 1) for _, kind in schema) for _ in range(self.draw.randrange(4))]
        return f"rows({name}){{{', '.join('(' + line + ')' for line in lines)}}}", schema

    def walk(self, depth):
        inner, schema = self.rel(depth - 1)
        variable = self.new_name()
        self.locals.append((variable, ("tuple", schema)))
        return inner, schema, variable

    def chosen(self, depth):
        inner, schema, variable = self.walk(depth)
        body = self.bool(depth)
        self.locals.pop()
        return f"select({variable} in {inner} : {body})", schema

    def mapped(self, depth):
        inner, _, variable = self.walk(depth)
        _, schema = self.one(*RELATIONS)
        made = self.tuple_of(schema, depth)
        self.locals.pop()
        return f"map({variable} in {inner} : {made})", schema

    def projected(self, depth):
        inner, schema = self.rel(depth - 1)
        some = self.draw.sample(schema, self.draw.randrange(1, len(schema) + 1))
        return f"project({inner}; {', '.join(name for name, _ in some)})", some

    def renamed(self, depth):
        inner, schema = self.rel(depth - 1)
        old = self.one(*schema)[0]
        new = self.one("k", "m", old)
        if any(name == new for name, _ in schema if name != old):
            return inner, schema
        return f"rename({inner}; {new} = {old})", [(new if name == old else name, kind) for name, kind in schema]

    def combined(self, depth):
        inner, schema = self.rel(depth - 1)
        return f"{self.one('union', 'minus', 'inter')}({inner}, {self.rel_of(schema, depth - 1)})", schema

    def joined(self, depth):
        left, schema = self.rel(depth - 1)
        right, more = self.rel(depth - 1)
        kinds = dict(schema)
        if any(kinds.get(name, kind) != kind for name, kind in more):
            return left, schema
        return f"join({left}, {right})", schema + [(name, kind) for name, kind in more if name not in kinds]

    def grouped(self, depth):
        inner, schema = self.rel(depth - 1)
        by = self.draw.sample(schema, self.draw.randrange(1, len(schema) + 1))
        results, made = [], []
        for number in range(self.draw.randrange(1, 3)):
            name, kind = self.one(*schema)
            how = self.one("count", "min", "max", *["sum"] * (kind == "int"))
            results.append(f"g{number} = {how}" + (f"({name})" if how != "count" else ""))
            made.append((f"g{number}", kind if how in ("min", "max") else "int"))
        if any(name.startswith("g") for name, _ in by):
            return inner, schema
        return f"group({inner}; by {', '.join(name for name, _ in by)}; {', '.join(results)})", by + made

    def supposed(self, depth):
        inner, schema = self.rel(depth - 1)
        return f"({inner} when {self.delta(depth)})", schema

    def read_delta(self, depth):
        name, schema = self.one(*RELATIONS)
        return f"{self.one('ins', 'del')}({name}, {self.delta(depth)})", schema

    def delta(self, depth):
        if depth <= 0:
            return self.one("{}", "{}", "{+R(1)}", "{-R(1)}", "{+R(2), -R(3)}", "fail", *self.visible("delta") * 3)
        down = depth - 1
        return self.one(
            lambda: "{" + ", ".join(self.atom(down) for _ in range(self.draw.randrange(1, 4))) + "}",
            lambda: f"({self.delta(down)} {self.one('!', '!', '&')} {self.delta(down)})",
            self.bulk, self.bulk,
            lambda: f"({self.delta(down)} when {self.delta(down)})",
            lambda: self.call("delta", down),
        )()

    def atom(self, depth):
        name, schema = self.one(*RELATIONS)
        return f"{self.one('+', '+', '-')}{name}({', '.join(self.of(kind, depth) for _, kind in schema)})"

    def bulk(self, depth=1):
        name, schema = self.one(*RELATIONS)
        return f"bulk({self.one('+', '-')}{name}, {self.rel_of(schema, depth)})"

    # ---- statements

    def declared(self, depth):
        type_ = self.one("int", "bool", "text", "delta", ("rel", self.one(*RELATIONS)[1]), ("tuple", self.one(*RELATIONS)[1]))
        value, name = self.of(type_, depth), self.new_name()
        self.locals.append((name, type_))
        return f"{type_text(type_)} {name} = {value};"

    def assigned(self, depth):
        if not self.locals:
            return self.declared(depth)
        name, type_ = self.one(*self.locals)
        return f"{name} = {self.of(type_, depth)};"

    def statement(self, depth):
        down = depth - 1
        kinds = [self.declared, self.assigned, self.choice, self.walked, self.loop]
        if not self.pure:
            kinds += [self.printed] * 3 + [self.changed] * 3 + [lambda _: self.one("commit;", 'commit "x";', "rollback;")]
        if depth <= 0:
            kinds = kinds[:2]
        return self.one(*kinds)(down)

    def printed(self, depth):
        type_ = self.one("int", "bool", "text", "delta", "rel", "tuple")
        if type_ == "rel":
            return f"print {self.rel(depth + 1)[0]};"
        if type_ == "tuple":
            return f"print {self.tuple_of(self.one(*RELATIONS)[1], depth)};"
        return f"print {self.of(type_, depth)};"

    def changed(self, depth):
        return f"apply {self.delta(depth)};"

    def block(self, depth):
        many = len(self.locals)
        text = " ".join(self.statement(depth) for _ in range(self.draw.randrange(1, 4)))
        del self.locals[many:]
        return f"{{ {text} }}"

    def choice(self, depth):
        return f"if ({self.bool(depth)}) {self.block(depth)} else {self.block(depth)}"

    def loop(self, depth):
        return f"while ({self.bool(depth)}) {self.block(depth)}"

    def walked(self, depth):
        inner, schema = self.rel(depth)
        name = self.new_name()
        self.locals.append((name, ("tuple", schema)))
        text = f"foreach ({name} in {inner}) {self.block(depth)}"
        self.locals.pop()
        return text

    def func(self, number, depth):
        result = self.one("int", "delta", "text")
        params = [self.one("int", "text", "delta") for _ in range(self.draw.randrange(3))]
        self.locals = [(f"p{place}", type_) for place, type_ in enumerate(params)]
        self.pure = True
        body = " ".join(self.statement(depth) for _ in range(self.draw.randrange(2)))
        value = self.of(result, depth)
        self.pure = False
        self.funcs.append((f"f{number}", params, result))
        head = ", ".join(f"{type_} p{place}" for place, type_ in enumerate(params))
        return f"func {result} f{number}({head}) {{ {body} return {value}; }} "

    def script(self):
        """A script of a few funcs and a main."""
        self.locals, self.made, self.funcs = [], 0, []
        depth = self.draw.choice([1, 2, 2, 3])
        funcs = "".join(self.func(number, depth) for number in range(self.draw.randrange(3)))
        self.locals = []
        start = "apply " + "{" + ", ".join(self.atom(0) for _ in range(self.draw.randrange(1, 5))) + "};"
        body = " ".join(self.statement(depth) for _ in range(self.draw.randrange(1, 6)))
        return (DECLARED + funcs + f"main {{ {start} {body} }}").encode()


def type_text(type_):
    if isinstance(type_, tuple):
        return f"{type_[0]} ({', '.join(f'{name} {kind}' for name, kind in type_[1])})"
    return type_
