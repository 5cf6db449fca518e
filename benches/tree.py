"""Reads a source or a printed text, and writes its tree with numbered slots in place of names, for benches/walk.c.

    tree.py TEXT > TREE

Reads the grammar of docs/LANGUAGE.md and docs/FORMATS.md. A tree is written of texts without tables and checks, with
signed subscripts alone.

An expression is a tuple: ("number", n), ("name", x), ("cell", x, subscripts), ("cast", e), ("wide", e), or an operator,
a relation or a function with its operands. A statement is ("for", x, first, relation, last, body), ("if", tests, then,
other), ("assign", target, operator or "", e), ("table", x, length), ("check", e, extent, what it returns), ("begin",) or
("verdict", pairs of names).
"""
import re
import sys
from typing import NamedTuple

RELATIONS = ("<", "<=", ">", ">=", "==", "!=")
LEVELS = (("|",), ("^",), ("&",), ("<<", ">>"), ("+", "-"), ("*", "/", "%"))
SHIFT = 3  # the level of the sides of a comparison
OPERATORS = ("~",) + sum(LEVELS, ())
CALLS = ("umin", "umax", "bal_min", "bal_max", "bal_wide")
PREAMBLE_LINES = 7
MARKS = r"@begin|--|<<|>>|<=|>=|==|!=|&&|\+\+|[-+*&|^]=|[][(){};,=+*/%&|^~<>-]"
TOKEN = re.compile(rf"\s*({MARKS}|0[xX][0-9a-fA-F]+\w*|\w+)")


class Unit(NamedTuple):
    printed: bool
    name: str
    ints: list  # the names of the int64_t parameters
    arrays: list  # name, whether it is const, and extents
    params: list  # the names of all parameters
    words: list  # name and number
    wides: list  # names
    body: list


def tokens_of(text):
    """The tokens, of the directives `begin` alone."""
    text = re.sub(r"/\*.*?\*/|//[^\n]*", " ", text, flags=re.S)
    text = re.sub(r"^#pragma balance begin$", "@begin", text, flags=re.M)
    text = re.sub(r"^#.*$", "", text, flags=re.M).rstrip()
    tokens, at = [], 0
    while at < len(text):
        found = TOKEN.match(text, at)
        if not found:
            raise SyntaxError(f"no token in {text[at:at + 40]!r}")
        tokens.append(found[1])
        at = found.end()
    return tokens


class Reader:
    """A reader of tokens, by recursive descent."""

    def __init__(self, text):
        self.printed = "\n#pragma balance version 1\n" in text
        if self.printed:
            text = text.split("\n", PREAMBLE_LINES)[PREAMBLE_LINES]
        self.tokens, self.at = tokens_of(text) + ["", ""], 0

    def next(self, ahead=0):
        return self.tokens[self.at + ahead]

    def take(self, *wanted):
        token = self.next()
        if wanted and token not in wanted:
            raise SyntaxError(f"wanted {' or '.join(wanted)}, got {' '.join(self.tokens[self.at:self.at + 8])}")
        self.at += 1
        return token

    def skips(self, token):
        found = self.next() == token
        self.at += found
        return found

    # ---- expressions

    def expr(self, level=0):
        if level == len(LEVELS):
            return self.unary()
        left = self.expr(level + 1)
        while self.next() in LEVELS[level]:
            left = (self.take(), left, self.expr(level + 1))
        return left

    def unary(self):
        if self.next() in ("-", "~"):
            return (self.take(), self.unary())
        if self.next() == "(" and self.next(1) in ("uint64_t", "unsigned"):
            return self.cast()
        return self.primary()

    def cast(self):
        self.take("(")
        if self.take() == "unsigned":
            self.take("__int128")
            self.take(")")
            return ("wide", self.unary())
        self.take(")")
        if self.next() != "(" or self.next(1) in ("uint64_t", "unsigned"):
            return ("cast", self.unary())
        self.take("(")
        operand = self.expr()
        if self.next() in RELATIONS:
            operand = (self.take(), operand, self.expr(SHIFT))
        self.take(")")
        return operand if operand[0] in RELATIONS else ("cast", operand)

    def primary(self):
        token = self.take()
        if token == "(":
            inner = self.expr()
            self.take(")")
            return inner
        if token in CALLS:
            self.take("(")
            first = self.expr()
            self.take(",")
            second = self.expr()
            self.take(")")
            return (token, first, second)
        if token[:1].isdigit():
            return ("number", int(token.rstrip("uUlL"), 0))
        if not re.fullmatch(r"[A-Za-z_]\w*", token):
            raise SyntaxError(f"wanted an expression, got {token}")
        return self.place(token)

    def place(self, name):
        subscripts = self.subscripts()
        return ("cell", name, subscripts) if subscripts else ("name", name)

    def subscripts(self):
        found = []
        while self.skips("["):
            found.append(self.expr())
            self.take("]")
        return found

    # ---- conditions

    def tests(self):
        tests = self.conjunct()
        while self.skips("&&"):
            tests += self.conjunct()
        return tests

    def conjunct(self):
        begin = self.at
        try:
            left = self.expr(SHIFT)
            return [(self.take(*RELATIONS), left, self.expr(SHIFT))]
        except SyntaxError:
            self.at = begin
        self.take("(")
        tests = self.tests()
        self.take(")")
        return tests

    # ---- statements

    def statement(self):
        """The list of statements that one statement stands for."""
        token = self.take()
        if token == ";":
            return []
        if token == "{":
            return self.until_closed()
        if token == "@begin":
            return [("begin",)]
        if token == "for":
            return [self.loop()]
        if token == "if":
            return [self.choice()]
        if token == "uint64_t":
            return [self.table()]
        if token == "return":
            return [self.verdict()]
        target = self.place(token)
        operator = self.take("=", "+=", "-=", "*=", "&=", "|=", "^=")[:-1]
        value = self.expr()
        self.take(";")
        return [("assign", target, operator, value)]

    def until_closed(self):
        body = []
        while not self.skips("}"):
            body += self.statement()
        return body

    def loop(self):
        self.take("(")
        self.take("int64_t")
        name = self.take()
        self.take("=")
        first = self.expr()
        self.take(";")
        self.take(name)
        relation = self.take("<", "<=")
        last = self.expr()
        self.take(";")
        step = [self.take()]
        while self.next() != ")":
            step.append(self.take())
        if step not in ([name, "++"], ["++", name], [name, "+=", "1"]):
            raise SyntaxError(f"the step {' '.join(step)}")
        self.take(")")
        return ("for", name, first, relation, last, self.statement())

    def table(self):
        self.take("*")
        name = self.take()
        for token in ("=", "calloc", "("):
            self.take(token)
        length = self.expr()
        for token in (*", sizeof ( uint64_t ) ) ; if (".split(), name, *"== 0 ) { return".split()):
            self.take(token)
        self.take()
        self.take(";")
        self.take("}")
        return ("table", name, length)

    def choice(self):
        self.take("(")
        tests = self.tests()
        self.take(")")
        if self.next() == "{" and self.next(1) == "return":
            number = int(self.tokens[self.at + 2].rstrip("uUlL"), 0)
            self.at += 5
            return ("check", tests[0][1], tests[0][2], number)
        then = self.statement()
        return ("if", tests, then, self.statement() if self.skips("else") else [])

    def verdict(self):
        pairs = []
        while not self.skips(";"):
            if self.skips("!="):
                pairs.append((self.tokens[self.at - 2], self.next()))
            else:
                self.take()
        return ("verdict", pairs)

    # ---- the unit

    def unit(self):
        self.take("uint64_t" if self.printed else "void")
        name, ints, arrays, params = self.take(), [], [], []
        self.take("(")
        while not self.skips(")"):
            constant = self.skips("const")
            kind = self.take("int64_t", "uint64_t")
            params.append(self.take())
            if kind == "int64_t":
                ints.append(params[-1])
            else:
                arrays.append((params[-1], constant, self.subscripts()))
            self.skips(",")
        self.take("{")
        words, wides = [], []
        while self.next() in ("uint64_t", "unsigned") and self.next(1) != "*":
            is_wide = self.take() == "unsigned" and self.take("__int128")
            declared = self.take()
            self.take("=")
            number = int(self.take().rstrip("uUlL"), 0)
            self.take(";")
            wides.append(declared) if is_wide else words.append((declared, number))
        return Unit(self.printed, name, ints, arrays, params, words, wides, self.until_closed())


def read(path):
    with open(path) as file:
        return Reader(file.read()).unit()


def value(e, ints):
    """The value of a signed expression."""
    if e[0] == "number":
        return e[1]
    if e[0] == "name":
        return ints[e[1]]
    operands = [value(part, ints) for part in e[1:]]
    if len(operands) == 1:
        return -operands[0]
    a, b = operands
    return {"+": a + b, "-": a - b, "*": a * b}[e[0]]


def cells(array, ints):
    """How many cells an array has."""
    count = 1
    for extent in array[2]:
        count *= value(extent, ints)
    return count


# ---- the tree that is written: a node is its kind, a slot, a number, and lists of parts in parentheses

SIGNED = {"+": "PLUS", "-": "MINUS", "*": "TIMES", "bal_min": "LEAST", "bal_max": "GREATEST"}
SIGNED_TESTS = {"<": "BELOW", "<=": "UP_TO", ">": "ABOVE", ">=": "FROM", "==": "EQUAL", "!=": "UNEQUAL"}
WORD = {
    "+": "SUM", "-": "DIFFERENCE", "*": "PRODUCT", "/": "QUOTIENT", "%": "REMAINDER", "<<": "LEFT", ">>": "RIGHT",
    "&": "AND", "^": "XOR", "|": "OR", "umin": "MIN", "umax": "MAX",
    "<": "IS_BELOW", "<=": "IS_UP_TO", ">": "IS_ABOVE", ">=": "IS_FROM", "==": "IS_EQUAL", "!=": "IS_UNEQUAL",
}
WIDE = {"+": "WIDE_SUM", "*": "WIDE_PRODUCT", "/": "WIDE_QUOTIENT"}


def node(kind, slot=0, number=0, *parts):
    return " ".join([kind, str(slot), str(number)] + [f"( {part} )" for part in parts])


class Writer:
    """Writes nodes. Values, words, wides and arrays are numbered apart; loops at one depth share a slot."""

    def __init__(self, unit):
        self.values = {x: k for k, x in enumerate(unit.ints)}
        self.words = {w[0]: k for k, w in enumerate(unit.words)}
        self.wides = {x: k for k, x in enumerate(unit.wides)}
        self.arrays = {a[0]: k for k, a in enumerate(unit.arrays)}
        self.slots = len(self.values)

    def kind(self, e):
        """Signed or word, by the first name in it, and neither where it has literals alone."""
        if e[0] == "number":
            return None
        if e[0] == "name":
            return "signed" if e[1] in self.values else "word"
        if e[0] in OPERATORS:
            return next(filter(None, map(self.kind, e[1:])), None)
        return "signed" if e[0] in ("bal_min", "bal_max") else "word"

    def signed(self, e):
        if e[0] == "number":
            return node("NUMBER", 0, e[1])
        if e[0] == "name":
            return node("VALUE", self.values[e[1]])
        parts = [self.signed(part) for part in e[1:]]
        return node("NEGATED" if e[0] == "-" and len(parts) == 1 else SIGNED[e[0]], 0, 0, *parts)

    def cell(self, e):
        return node("CELL", self.arrays[e[1]], 0, " ".join(self.signed(at) for at in e[2]))

    def word(self, e):
        if e[0] == "number":
            return node("LITERAL", 0, e[1])
        if e[0] == "name":
            return node("WORD", self.words[e[1]])
        if e[0] == "cell":
            return self.cell(e)
        if e[0] == "cast":
            return node("CAST", 0, 0, self.signed(e[1])) if self.kind(e[1]) == "signed" else self.word(e[1])
        parts = [self.word(part) for part in e[1:]]
        return node({"-": "NEGATIVE", "~": "INVERSE"}[e[0]] if len(parts) == 1 else WORD[e[0]], 0, 0, *parts)

    def wide(self, e):
        if e[0] == "number":
            return node("BIG", 0, e[1], node("LITERAL"))
        if e[0] == "bal_wide":
            return node("BIG", 0, e[2][1], node("LITERAL", 0, e[1][1]))
        if e[0] == "name":
            return node("WIDE", self.wides[e[1]])
        if e[0] == "wide":
            if self.kind(e[1]) == "signed":
                return node("WIDENED_VALUE", 0, 0, self.signed(e[1]))
            return node("WIDENED", 0, 0, self.word(e[1]))
        return node(WIDE[e[0]], 0, 0, self.wide(e[1]), self.wide(e[2]))

    def test(self, test):
        relation, left, right = test
        if (self.kind(left) or self.kind(right)) == "word":
            return node("WORDS", 0, 0, node(WORD[relation], 0, 0, self.word(left), self.word(right)))
        return node(SIGNED_TESTS[relation], 0, 0, self.signed(left), self.signed(right))

    def loop(self, name, first, relation, last, body):
        first, last, around = self.signed(first), self.signed(last), self.values
        slot = len(around)
        self.values, self.slots = {**around, name: slot}, max(self.slots, slot + 1)
        text = node("LOOP", slot, int(relation == "<="), first, last, self.list(body))
        self.values = around
        return text

    def assign(self, target, operator, e):
        if target[0] == "cell":
            kind = "UPDATE_" + WORD[operator] if operator else "STORE"
            return node(kind, 0, 0, self.cell(target), self.word(e))
        if target[1] in self.wides:
            return node("ADD_TO_WIDE" if operator else "SET_WIDE", self.wides[target[1]], 0, self.wide(e))
        full = (operator, target, e) if operator not in ("", "+") else e
        return node("ADD_TO_WORD" if operator == "+" else "SET_WORD", self.words[target[1]], 0, self.word(full))

    def statement(self, s):
        if s[0] == "for":
            return self.loop(*s[1:])
        if s[0] == "if":
            return node("CHOICE", 0, 0, " ".join(map(self.test, s[1])), self.list(s[2]), self.list(s[3]))
        if s[0] == "assign":
            return self.assign(*s[1:])
        return node({"begin": "BEGIN", "verdict": "VERDICT"}[s[0]])

    def list(self, statements):
        return "\n".join(map(self.statement, statements))


def tree_of(unit):
    """The head (which text it is; parameters, words, wides and arrays, with their numbers), and the body."""
    writer = Writer(unit)
    pairs = unit.body[-1][1] if unit.printed else []
    lines = ["printed" if unit.printed else "source", f"{len(unit.ints)} {' '.join(unit.ints)}"]
    lines.append(f"{len(unit.words)} {' '.join(str(w[1]) for w in unit.words)}")
    lines.append(f"{len(unit.wides)} {len(unit.arrays)}")
    for k, (name, constant, extents) in enumerate(unit.arrays):
        totals = [writer.wides[x] for x in pairs[k]] if pairs else [0, 0]
        lines.append(f"{name} {int(constant)} {totals[0]} {totals[1]} ( {' '.join(map(writer.signed, extents))} )")
    body = writer.list(unit.body)
    return "\n".join(lines + [str(writer.slots), "(", body, ")", ""])


if __name__ == "__main__":
    sys.stdout.write(tree_of(read(sys.argv[1])))
