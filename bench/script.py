"""Reads a script as docs/LANGUAGE.md tells it: its tokens, its tree, or where it is refused.

Nothing here is taken from the program: what the two say of the same script is compared.
"""

import re

KEYWORDS = set(
    "relation func proc main int bool text delta rel tuple if else while foreach in print apply commit rollback assert "
    "return true false fail when rows select map project rename union minus inter join group by count empty sum min max "
    "isfail bulk ins del".split()
)
MARKS = re.compile(r"==|!=|<=|>=|&&|\|\||[()\[\]{},;:.=<>+\-*/%!&]")
BLANK = re.compile(r"(?:[ \t\n\r]|//[^\n]*|/\*.*?\*/)*", re.S)
DIGITS = re.compile(r"[0-9]+")
TEXT = re.compile(r'"((?:[^"\\\n\r\0]|\\["\\nt])*)"')
ESCAPES = {'\\"': '"', "\\\\": "\\", "\\n": "\n", "\\t": "\t"}
LONGEST = 1_048_576
GREATEST = 2**63 - 1


class Refused(Exception):
    """A refusal, by its name and offset."""

    def __init__(self, name, at):
        super().__init__(name, at)
        self.name, self.at = name, at


class Token:
    """A token: its kind ("name", "integer", "quoted", or the token itself), its value, and its offset in bytes."""

    def __init__(self, kind, value, at):
        self.kind, self.value, self.at = kind, value, at


def piece(text, at):
    """The token that begins there, and where it ends. None where there is none."""
    found = DIGITS.match(text, at)
    if found:
        value = int(found[0].lstrip("0")[:20] or "0")
        return ("integer", value, found.end()) if value <= GREATEST else None
    found = TEXT.match(text, at)
    if found:
        value = re.sub(r"\\.", lambda escape: ESCAPES[escape[0]], found[1]).encode()
        return ("quoted", value, found.end()) if len(value) <= 1023 else None
    if text[at].isidentifier():
        end = at + 1
        while end < len(text) and ("a" + text[end]).isidentifier():
            end += 1
        name = text[at:end]
        if len(name.encode()) > 255:
            return None
        return (name if name in KEYWORDS else "name", name, end)
    found = MARKS.match(text, at)
    return (found[0], found[0], found.end()) if found else None


def tokens_of(script):
    """The tokens of a script, the last of which is the end."""
    if len(script) > LONGEST:
        raise Refused("TooLong", LONGEST)
    try:
        text = script.decode("utf-8")
    except UnicodeDecodeError as fault:
        raise Refused("BadUtf8", fault.start)
    # From the offset of a character to that of its first byte.
    starts = [0]
    for character in text:
        starts.append(starts[-1] + len(character.encode()))
    tokens, at = [], 0
    while True:
        at = BLANK.match(text, at).end()
        if at == len(text):
            break
        found = None if text.startswith("/*", at) else piece(text, at)
        if found is None:
            raise Refused("BadToken", starts[at])
        tokens.append(Token(found[0], found[1], starts[at]))
        at = found[2]
    depth = 0
    for token in tokens:
        if token.kind in ("(", "[", "{"):
            depth += 1
            if depth > 64:
                raise Refused("TooDeep", token.at)
        elif token.kind in (")", "]", "}"):
            depth = max(0, depth - 1)
    return tokens + [Token("end", None, len(script))]


class Node:
    """A phrase: its kind, the offset of its mark, and its parts."""

    def __init__(self, kind, at, **parts):
        self.kind, self.at = kind, at
        self.__dict__.update(parts)


class Reader:
    """Reads the phrases of the grammar from the tokens, from the left."""

    def __init__(self, tokens):
        self.tokens, self.place = tokens, 0

    def next(self):
        return self.tokens[self.place].kind

    def take(self, *kinds):
        """The next token, which is of one of these kinds."""
        token = self.tokens[self.place]
        if token.kind not in kinds:
            raise Refused("Syntax", token.at)
        self.place += 1
        return token

    def has(self, *kinds):
        """Takes the next token where it is of one of these kinds."""
        if self.next() in kinds:
            return self.take(*kinds)
        return None

    def list(self, read):
        parts = [read()]
        while self.has(","):
            parts.append(read())
        return parts

    def program(self):
        relations, funcs, procs, main = [], [], [], None
        while self.has("relation"):
            name = self.take("name")
            relations.append(Node("relation", name.at, name=name.value, attrs=self.attrs()))
            self.take(";")
        while self.has("func"):
            type_ = self.type()
            funcs.append(self.body("func", type_))
        while self.has("proc"):
            procs.append(self.body("proc", None))
        head = self.has("main")
        if head:
            main = self.block()
        self.take("end")
        return Node("program", 0, relations=relations, funcs=funcs, procs=procs, main=main)

    def body(self, kind, type_):
        name = self.take("name")
        self.take("(")
        params = [] if self.next() == ")" else self.list(self.param)
        self.take(")")
        return Node(kind, name.at, name=name.value, type=type_, params=params, block=self.block())

    def param(self):
        type_ = self.type()
        name = self.take("name")
        return Node("param", name.at, name=name.value, type=type_)

    def attrs(self):
        self.take("(")
        attrs = self.list(self.attr)
        self.take(")")
        return attrs

    def attr(self):
        name = self.take("name")
        return Node("attr", name.at, name=name.value, type=self.take("int", "bool", "text").kind)

    def type(self):
        head = self.take("int", "bool", "text", "delta", "rel", "tuple")
        if head.kind not in ("rel", "tuple"):
            return Node(head.kind, head.at)
        if self.next() == "(":
            return Node(head.kind, head.at, name=None, attrs=self.attrs())
        name = self.take("name", "(")
        return Node(head.kind, name.at, name=name.value, attrs=None)

    def block(self):
        self.take("{")
        stmts = []
        while self.next() != "}":
            stmts.append(self.stmt())
        self.take("}")
        return stmts

    STARTS = "int bool text delta rel tuple name if while foreach print apply assert commit rollback return".split()

    def stmt(self):
        kind = self.next()
        if kind in ("int", "bool", "text", "delta", "rel", "tuple"):
            type_ = self.type()
            name = self.take("name")
            self.take("=")
            stmt = Node("declare", name.at, type=type_, name=name.value, value=self.expr())
        elif kind == "name":
            name = self.take("name")
            if self.take("=", "(").kind == "=":
                stmt = Node("assign", name.at, name=name.value, value=self.expr())
            else:
                stmt = Node("call", name.at, name=name.value, args=self.args())
        elif kind == "if":
            return self.choice()
        elif kind == "while":
            head = self.take("while")
            return Node("while", head.at, condition=self.bracketed(), block=self.block())
        elif kind == "foreach":
            head = self.take("foreach")
            self.take("(")
            name = self.take("name")
            self.take("in")
            operand = self.expr()
            self.take(")")
            return Node("foreach", head.at, name=name, operand=operand, block=self.block())
        else:
            head = self.take(*self.STARTS, "}")
            stmt = Node(head.kind, head.at)
            if kind in ("print", "apply", "assert"):
                stmt.value = self.expr()
            elif kind == "commit":
                label = self.has("quoted")
                stmt.label = label and label.value
            elif kind == "return":
                stmt.value = None if self.next() == ";" else self.expr()
        self.take(";")
        return stmt

    def bracketed(self):
        self.take("(")
        value = self.expr()
        self.take(")")
        return value

    def choice(self):
        arms, otherwise = [], None
        head = self.take("if")
        while True:
            arms.append((head.at, self.bracketed(), self.block()))
            if not self.has("else"):
                break
            head = self.has("if")
            if not head:
                otherwise = self.block()
                break
        return Node("if", arms[0][0], arms=arms, otherwise=otherwise)

    def args(self):
        """The arguments of a call, up to its closing bracket."""
        args = [] if self.next() == ")" else self.list(self.expr)
        self.take(")")
        return args

    def chain(self, part, *marks):
        """Operands with operators between them; each operator with its offset."""
        first, rest = part(), []
        while True:
            mark = self.has(*marks)
            if not mark:
                return Node("chain", rest[0][1], first=first, rest=rest) if rest else first
            rest.append((mark.kind, mark.at, part()))

    def expr(self):
        return self.chain(self.any, "when")

    def any(self):
        return self.chain(self.all, "||")

    def all(self):
        return self.chain(self.comparison, "&&")

    def comparison(self):
        left = self.sum()
        mark = self.has("==", "!=", "<", "<=", ">", ">=", "in")
        return Node("chain", mark.at, first=left, rest=[(mark.kind, mark.at, self.sum())]) if mark else left

    def sum(self):
        return self.chain(self.term, "+", "-")

    def term(self):
        return self.chain(self.smash, "*", "/", "%")

    def smash(self):
        return self.chain(self.merge, "!")

    def merge(self):
        return self.chain(self.prefix, "&")

    def prefix(self):
        mark = self.has("-", "!")
        value = self.post()
        return Node("prefix", mark.at, mark=mark.kind, value=value) if mark else value

    def post(self):
        value = self.prime()
        if self.has("."):
            name = self.take("name")
            return Node("field", name.at, value=value, name=name.value)
        return value

    PRIMES = (
        "integer quoted true false fail name ( [ { rows select map project rename union minus inter join group count empty "
        "isfail sum min max bulk ins del"
    ).split()

    def prime(self):
        head = self.take(*self.PRIMES)
        kind, at = head.kind, head.at
        if kind in ("integer", "quoted"):
            return Node("constant", at, value=head.value)
        if kind in ("true", "false"):
            return Node("constant", at, value=kind == "true")
        if kind == "fail":
            return Node("fail", at)
        if kind == "name":
            if self.has("("):
                return Node("call", at, name=head.value, args=self.args())
            return Node("name", at, name=head.value)
        if kind == "(":
            value = self.expr()
            self.take(")")
            return value
        if kind == "[":
            fields = self.list(lambda: self.named(self.expr))
            self.take("]")
            return Node("tuple", at, fields=fields)
        if kind == "{":
            atoms = [] if self.next() == "}" else self.list(self.atom)
            self.take("}")
            return Node("literal", at, atoms=atoms)
        self.take("(")
        node = Node(kind, at)
        getattr(self, "of_" + kind, self.of_value)(node)
        self.take("}" if kind == "rows" else ")")
        return node

    def named(self, read):
        name = self.take("name")
        self.take("=")
        return name, read()

    def atom(self):
        sign = self.take("+", "-").kind
        name = self.take("name")
        self.take("(")
        # Arguments are not left out here.
        args = self.list(self.expr)
        self.take(")")
        return Node("atom", name.at, sign=sign, relation=name.value, args=args)

    def of_value(self, node):
        """count, empty, isfail"""
        node.value = self.expr()

    def of_rows(self, node):
        node.relation = self.take("name")
        self.take(")")
        self.take("{")
        node.lines = [] if self.next() == "}" else self.list(self.line)

    def line(self):
        head = self.take("(")
        args = self.list(self.expr)
        self.take(")")
        return head.at, args

    def of_select(self, node):
        node.name = self.take("name")
        self.take("in")
        node.operand = self.expr()
        self.take(":")
        node.body = self.expr()

    of_map = of_select

    def of_project(self, node):
        node.value = self.expr()
        self.take(";")
        node.names = self.list(lambda: self.take("name"))

    def of_rename(self, node):
        node.value = self.expr()
        self.take(";")
        node.names = self.list(lambda: self.named(lambda: self.take("name")))

    def of_union(self, node):
        node.left = self.expr()
        self.take(",")
        node.right = self.expr()

    of_minus = of_inter = of_join = of_union

    def of_group(self, node):
        node.value = self.expr()
        self.take(";")
        self.take("by")
        node.by = self.list(lambda: self.take("name"))
        self.take(";")
        node.results = self.list(lambda: self.named(self.aggregate))

    def aggregate(self):
        head = self.take("count", "sum", "min", "max")
        if head.kind == "count":
            return "count", None
        self.take("(")
        name = self.take("name")
        self.take(")")
        return head.kind, name

    def of_sum(self, node):
        node.value = self.expr()
        self.take(",")
        node.attribute = self.take("name")

    of_min = of_max = of_sum

    def of_bulk(self, node):
        node.sign = self.take("+", "-").kind
        node.relation = self.take("name")
        self.take(",")
        node.value = self.expr()

    def of_ins(self, node):
        node.relation = self.take("name")
        self.take(",")
        node.value = self.expr()

    of_del = of_ins


def read(script):
    """The tree of a script."""
    return Reader(tokens_of(script)).program()
