"""A model of shell arithmetic, written from docs/ARITHMETIC.md: what a text comes to as a cell or as an expression, and
what an editor may ask of it.

The grammar's levels and signs, and the place of a fault of syntax, are those of tests/arith/against_grammar, which
finds it by Earley's algorithm.
"""

import functools
import importlib.machinery
import operator
import os
import re
import types

TOP = os.path.dirname(os.path.dirname(os.path.dirname(os.path.abspath(__file__))))
LEAST, GREATEST = -(2**63), 2**63 - 1
MOST_OPERATORS = 200
# So many texts are kept with what they are read as.
KEPT = 10_000


def against_grammar():
    """The script of that name, as a module."""
    loader = importlib.machinery.SourceFileLoader("against_grammar", os.path.join(TOP, "tests/arith/against_grammar"))
    module = types.ModuleType(loader.name)
    module.__file__ = loader.path
    loader.exec_module(module)
    return module


GRAMMAR = against_grammar()
# How loosely each operator between two operands binds, from 1 on.
LOOSENESS = {sign: level for level, signs in enumerate(GRAMMAR.LEVELS, 1) for sign in signs}
SIGNS = sorted({*GRAMMAR.TOKENS, ";"}, key=len, reverse=True)
WHITE = re.compile(r"[ \t\n\v\f\r]*")
TOKEN = re.compile("([A-Za-z0-9_]+)|" + "|".join(map(re.escape, SIGNS)))
CONSTANT = re.compile(r"0[xX][0-9A-Fa-f]+|0[0-7]*|[1-9][0-9]*")
RUN_BEFORE, RUN_BEHIND = re.compile(r"[A-Za-z0-9_]*\Z"), re.compile(r"[A-Za-z0-9_]*")


class Fault(Exception):
    """A fault: the name of the error, and what is said of it."""


def syntax_fault(place):
    """The fault of syntax at a place."""
    return Fault("SyntaxError", f"syntax error at {place}")


# How a text is read.


def constant(word):
    """The value of a word that is a constant, or None."""
    if not CONSTANT.fullmatch(word) or word[0] != "0" and len(word) > len(str(GREATEST)):
        return None
    number = int(word, 10 if word[0] != "0" else 16 if word[1:2] in ("x", "X") else 8)
    return number if number <= GREATEST else None


def tokens_of(text):
    """The tokens of a text: the kind of each, its value, and its place."""
    tokens, place = [], WHITE.match(text).end()
    while place < len(text):
        found = TOKEN.match(text, place)
        kind = value = found and found[0]
        if found and found[1]:
            is_name = not value[0].isdigit()
            kind, value = ("name", value) if is_name else ("constant", constant(value))
        if value is None:
            raise syntax_fault(place)
        tokens.append((kind, value, place))
        place = WHITE.match(text, found.end()).end()
    return tokens


def sentences(tokens, end):
    """The tokens of each statement of a cell, and the place of its end."""
    found = [([], end)]
    for token in reversed(tokens):
        if token[0] == ";":
            found.append(([], token[2]))
        else:
            found[-1][0].append(token)
    return [(its[::-1], place) for its, place in reversed(found) if its]


class NoStatement(Exception):
    """Tokens aren't a statement."""


class Reader:
    """The tokens of a statement, read from the front."""

    def __init__(self, tokens):
        self.tokens, self.place = tokens, 0

    def kind(self, further=0):
        """The kind of the next token, or of one further on; None behind the last."""
        place = self.place + further
        return self.tokens[place][0] if place < len(self.tokens) else None

    def take(self, *kinds):
        """The value of the next token, which has to be of one of these kinds."""
        if self.kind() not in kinds:
            raise NoStatement
        self.place += 1
        return self.tokens[self.place - 1][1]

    def statement(self):
        """The tree of all tokens."""
        tree = self.assignment()
        if self.kind() is not None:
            raise NoStatement
        return tree

    def assignment(self):
        """The tree of an assignment."""
        if self.kind() == "name" and self.kind(1) in GRAMMAR.ASSIGNING:
            name, sign = self.take("name"), self.take(*GRAMMAR.ASSIGNING)
            return "assignment", name, sign[:-1], self.assignment()
        return self.conditional()

    def conditional(self):
        """The tree of a conditional."""
        tree = self.binary(len(GRAMMAR.LEVELS))
        if self.kind() != "?":
            return tree
        self.take("?")
        if_so = self.assignment()
        self.take(":")
        return "conditional", tree, if_so, self.conditional()

    def binary(self, loosest):
        """The tree of operands and of the operators between them that bind no more loosely than this."""
        tree = self.unary()
        while LOOSENESS.get(self.kind(), loosest + 1) <= loosest:
            sign = self.take(self.kind())
            tree = "binary", sign, tree, self.binary(LOOSENESS[sign] - 1)
        return tree

    def unary(self):
        """The tree of an operand, with the operators before it."""
        if self.kind() in GRAMMAR.BEFORE:
            return "unary", self.take(*GRAMMAR.BEFORE), self.unary()
        if self.kind() != "(":
            return self.kind(), self.take("name", "constant")
        self.take("(")
        tree = self.assignment()
        self.take(")")
        return tree


def tree_of(tokens, end):
    """The tree of a statement that ends at a place."""
    kinds = [kind for kind, _, _ in tokens]
    if sum(kind not in ("name", "constant") for kind in kinds) > MOST_OPERATORS:
        raise Fault("TooDeep", f"more than {MOST_OPERATORS} operators")
    try:
        return Reader(tokens).statement()
    except NoStatement:
        places = [place for _, _, place in tokens] + [end]
        raise syntax_fault(places[GRAMMAR.fault(kinds)]) from None


@functools.lru_cache(KEPT)
def read(text, is_cell):
    """The trees of a text's statements, and its fault or None; what is no cell is one statement, whatever it has."""
    try:
        tokens = tokens_of(text)
        cut = sentences(tokens, len(text)) if is_cell else [(tokens, len(text))]
        return [tree_of(its, end) for its, end in cut], None
    except Fault as fault:
        return [], Fault(*fault.args)


# What trees are worth.


def fitting(number):
    """A result, which has to fit into 64 bits."""
    if not LEAST <= number <= GREATEST:
        raise Fault("OverflowError", "result outside 64 bits")
    return number


def quotient(a, b):
    """The quotient, rounded towards zero."""
    if not b:
        raise Fault("ZeroDivisionError", "division by zero")
    magnitude = abs(a) // abs(b)
    return fitting(magnitude if (a < 0) == (b < 0) else -magnitude)


def shifted(shift, a, b):
    """A value that is shifted, if it and the count may be."""
    if not 0 <= b <= 63 or shift is operator.lshift and a < 0:
        raise Fault("ShiftError", "shift refused")
    return shift(a, b)


OPERATIONS = {
    "*": operator.mul, "/": quotient, "%": lambda a, b: a - b * quotient(a, b), "+": operator.add, "-": operator.sub,
    "<<": functools.partial(shifted, operator.lshift), ">>": functools.partial(shifted, operator.rshift),
    "<": operator.lt, "<=": operator.le, ">": operator.gt, ">=": operator.ge, "==": operator.eq, "!=": operator.ne,
    "&": operator.and_, "^": operator.xor, "|": operator.or_,
    "&&": lambda a, b: a != 0 and b != 0, "||": lambda a, b: a != 0 or b != 0,
}  # fmt: skip
OPERATIONS_BEFORE = {"+": operator.pos, "-": operator.neg, "~": operator.inv, "!": operator.not_}


def applied(sign, a, b):
    """The value of an operator between two values."""
    return fitting(int(OPERATIONS[sign](a, b)))


def worth(tree, variables):
    """What a tree is worth; what it assigns is in the variables then, also if it has a fault."""
    kind, *parts = tree
    if kind == "constant":
        return parts[0]
    if kind == "name":
        return variables.get(parts[0], 0)
    if kind == "unary":
        return fitting(int(OPERATIONS_BEFORE[parts[0]](worth(parts[1], variables))))
    if kind == "conditional":
        return worth(parts[1] if worth(parts[0], variables) else parts[2], variables)
    if kind == "assignment":
        name, sign, operand = parts
        result = worth(operand, variables)
        variables[name] = applied(sign, variables.get(name, 0), result) if sign else result
        return variables[name]
    sign, left, right = parts
    a = worth(left, variables)
    if sign == "&&" and not a or sign == "||" and a:
        return int(sign == "||")
    return applied(sign, a, worth(right, variables))


# What is asked.


def run(text, variables):
    """What a cell prints, and how it ends: with a value, with None if it is empty, or with a fault."""
    trees, fault = read(text, True)
    values = []
    try:
        for tree in trees:
            values.append(worth(tree, variables))
    except Fault as found:
        return values, found
    return values[:-1], values[-1] if values else fault


def evaluated(text, variables):
    """What an expression comes to: a value or a fault."""
    trees, fault = read(text, False)
    try:
        return fault or worth(trees[0], variables)
    except Fault as found:
        return found


def completeness(text):
    """Whether a cell is complete, incomplete or invalid."""
    _, fault = read(text, True)
    if not fault:
        return "complete"
    return "incomplete" if fault.args == syntax_fault(len(text)).args else "invalid"


def completion(text, cursor, variables):
    """The assigned names that begin with the word before a cursor, and the place at which that begins."""
    word = RUN_BEFORE.search(text[:cursor])[0]
    return sorted(name for name in variables if name.startswith(word)), cursor - len(word)


def inspection(text, cursor, variables):
    """The assigned variable at a cursor with its value, or None."""
    word = RUN_BEFORE.search(text[:cursor])[0] + RUN_BEHIND.match(text, cursor)[0]
    return f"{word} = {variables[word]}" if word in variables else None
