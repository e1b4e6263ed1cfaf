#!/usr/bin/env python3
"""A second reader of the texts of docs/SPECIFICATION.md.

number(kind, data) is 0 for a text that is well formed and within the bounds,
1 for a malformed one and 2 for one over a bound; 14 for a namespace table of which
a line is unsorted or overlaps another. The kinds are tree, query, joins, constants,
mapping, bindings, filters and namespaces. A tree may be an empty file, and so may
what follows a query's head line.

Written from the rules alone, and
sharing no code with the product: here each function takes its own line, checks
it against the forms of that place and then reads what stands below it. The
first thing wrong ends the reading, so the order of the numbers is the order
of the statements: whole length; then line by line, on a line first its form
(1) and then the bounds (2); then missing and left-over lines (1).

    python3 second_reader.py KIND FILE      prints the number, and on standard error at which line the text
                                            was refused and what was wanted there
"""
import re
import sys


class Malformed(Exception):
    """With what was wanted."""


class OverBound(Exception):
    """With the bound."""


class NotInOrder(Exception):
    """With a line's number, and why it may not stand there."""


# Fields. Any byte but 9 and 10 may stand in one.

def variable(f):
    return f.startswith(b"?") and 1 <= len(f) - 1 <= 128


def iri(f):
    return f.startswith(b"<") and f.endswith(b">")


def constant(f):
    return iri(f) or f.startswith(b'"')


def cell(f):
    return constant(f) or f == b"-"


def operand(f):
    return constant(f) or variable(f)


def term(f):
    return operand(f) or f.startswith(b"_:")


def name(f):
    return iri(f) or variable(f)


def integer(f):
    return bool(re.fullmatch(rb"0|[1-9][0-9]{0,9}", f)) and int(f) <= 4294967295


def length(f):
    return integer(f) or f == b"-"


def flag(f):
    return f == b"0" or f == b"1"


def opaque(f):
    return f != b""


def start(f):
    return 1 <= len(f) <= 128 and b">" not in f


def value(domain, lexical, extra):
    """Three fields of a value; the lexical form is free."""
    match domain:
        case b"LanguageTaggedString":
            return bool(re.fullmatch(rb"[a-z][a-z][a-z]?(-[a-z][a-z])?", extra))
        case b"PlainString" | b"Iri" | b"Null" | b"Tuple" | b"Map":
            return extra == b"-"
        case (b"Float" | b"Double" | b"UnsignedLong" | b"NonNegativeLong" | b"UnsignedInt"
              | b"NonNegativeInt" | b"Long" | b"Int" | b"Boolean" | b"Other"):
            return (iri(extra)
                    and extra != b"<http://www.w3.org/2001/XMLSchema#string>"
                    and extra != b"<http://www.w3.org/1999/02/22-rdf-syntax-ns#langString>")
    return False


class Text:
    """A text that is read from the top, and the names met so far."""

    def __init__(self, data):
        self.data = data
        self.place = 0
        self.lines = 0
        self.names = set()

    def more(self):
        return self.place < len(self.data)

    def line(self):
        """The fields of the next line; a missing or an unended one is malformed."""
        end = self.data.find(b"\n", self.place)
        if end < 0:
            raise Malformed("a line end" if self.more() else "one more line")
        fields = self.data[self.place:end].split(b"\t")
        self.place = end + 1
        self.lines += 1
        return fields

    def within(self, *terms, depth=1, columns=0, entry=1):
        """The bounds, for a line that is well formed; terms may be variables."""
        self.names.update(t for t in terms if variable(t))
        bounds = {"2048 lines": self.lines > 2048, "depth 64": depth > 64, "256 columns": columns > 256,
                  "256 entries": entry > 256, "1024 variables": len(self.names) > 1024}
        for bound, passed in bounds.items():
            if passed:
                raise OverBound(bound)

    # Patterns

    def pattern(self, depth=1):
        below = depth + 1
        match self.line():
            case [b"bgp", n] if integer(n):
                self.within(depth=depth)
                for _ in range(int(n)):
                    self.triple()
            case [b"path", s, text, o] if term(s) and opaque(text) and term(o):
                self.within(s, o, depth=depth)
            case [b"join" | b"union" | b"minus"]:
                self.within(depth=depth)
                self.pattern(below)
                self.pattern(below)
            case [b"leftjoin", with_expression] if flag(with_expression):
                self.within(depth=depth)
                self.pattern(below)
                self.pattern(below)
                if with_expression == b"1":
                    self.expression(below)
            case [b"filter"]:
                self.within(depth=depth)
                self.pattern(below)
                self.expression(below)
            case [b"graph", g] if name(g):
                self.within(g, depth=depth)
                self.pattern(below)
            case [b"extend", v] if variable(v):
                self.within(v, depth=depth)
                self.pattern(below)
                self.expression(below)
            case [b"values", m, k] if integer(m) and integer(k):
                self.within(depth=depth)
                self.columns(int(m))
                for _ in range(int(k)):
                    self.row(int(m))
            case [b"orderby", n] if integer(n):
                self.within(depth=depth)
                self.pattern(below)
                for _ in range(int(n)):
                    self.condition(below)
            case [b"project", *columns] if all(map(variable, columns)):
                self.within(*columns, depth=depth, columns=len(columns))
                self.pattern(below)
            case [b"distinct" | b"reduced"]:
                self.within(depth=depth)
                self.pattern(below)
            case [b"slice", start, size] if integer(start) and length(size):
                self.within(depth=depth)
                self.pattern(below)
            case [b"group", g, a] if integer(g) and integer(a):
                self.within(depth=depth)
                self.columns(int(g))
                self.pattern(below)
                for _ in range(int(a)):
                    self.aggregate(below)
            case [b"service", s, silent] if name(s) and flag(silent):
                self.within(s, depth=depth)
                self.pattern(below)
            case _:
                raise Malformed("a pattern")

    # Lines that add no depth: those of a bgp, values, orderby or group

    def triple(self):
        match self.line():
            case [b"t", s, p, o] if term(s) and name(p) and term(o):
                self.within(s, p, o)
            case _:
                raise Malformed("`t`, subject, predicate, object")

    def columns(self, width):
        match self.line():
            case [b"cols", *columns] if len(columns) == width and all(map(variable, columns)):
                self.within(*columns)
            case _:
                raise Malformed("`cols` and as many variables as said above")

    def row(self, width):
        match self.line():
            case [b"row", *cells] if len(cells) == width and all(map(cell, cells)):
                self.within()
            case _:
                raise Malformed("`row` and as many cells as columns")

    def condition(self, below):
        match self.line():
            case [b"asc" | b"desc"]:
                self.within()
                self.expression(below)
            case _:
                raise Malformed("`asc` or `desc`")

    def aggregate(self, below):
        match self.line():
            case [b"agg", v, function, distinct] if variable(v) and opaque(function) and flag(distinct):
                self.within(v)
                self.expression(below)
            case [b"aggall", v, distinct] if variable(v) and flag(distinct):
                self.within(v)
            case _:
                raise Malformed("`agg`, variable, name, 0 or 1; or `aggall`, variable, 0 or 1")

    # Expressions

    def expression(self, depth):
        match self.line():
            case [b"term", x] if operand(x):
                names, children = [x], 0
            case [b"bound", v] if variable(v):
                names, children = [v], 0
            case [b"or" | b"and" | b"eq" | b"same" | b"gt" | b"ge" | b"lt" | b"le"
                  | b"add" | b"sub" | b"mul" | b"div"]:
                names, children = [], 2
            case [b"in", n] if integer(n):
                names, children = [], 1 + int(n)
            case [b"plus" | b"neg" | b"not"]:
                names, children = [], 1
            case [b"exists"]:
                self.within(depth=depth)
                return self.pattern(depth + 1)
            case [b"if"]:
                names, children = [], 3
            case [b"coalesce", n] if integer(n):
                names, children = [], int(n)
            case [b"call", function, n] if opaque(function) and integer(n):
                names, children = [], int(n)
            case _:
                raise Malformed("an expression")
        self.within(*names, depth=depth)
        for _ in range(children):
            self.expression(depth + 1)

    # Whole texts

    def tree(self):
        if not self.more():
            return
        self.pattern()
        if self.more():
            raise Malformed("the end of the text")

    def query(self):
        match self.line():
            case [b"query", b"select" | b"ask" | b"construct" | b"describe", dataset, base] \
                    if opaque(dataset) and opaque(base):
                self.within()
            case _:
                raise Malformed("`query`, kind, dataset, base")
        self.tree()

    def joins(self):
        entry = 0
        while self.more():
            entry += 1
            match self.line():
                case [left, right] if integer(left) and integer(right):
                    self.within(entry=entry)
                case _:
                    raise Malformed("two positions")

    def constants(self):
        positions = []
        while self.more():
            match self.line():
                case [position, x] if integer(position) and constant(x) and position not in positions:
                    positions.append(position)
                    self.within(entry=len(positions))
                case _:
                    raise Malformed("a new position and an IRI or literal")

    def mapping(self):
        sources = []
        while self.more():
            match self.line():
                case [source, target] if variable(source) and variable(target) and source not in sources:
                    sources.append(source)
                    self.within(source, target, entry=len(sources))
                case _:
                    raise Malformed("a new variable and a variable")

    def bindings(self):
        entry = 0
        while self.more():
            entry += 1
            self.binding_set(entry)

    def binding_set(self, entry):
        match self.line():
            case [b"set", m, k] if integer(m) and integer(k):
                self.within(entry=entry)
                width, rows = int(m), int(k)
            case _:
                raise Malformed("`set` and two numbers")
        match self.line():
            case [b"at", *positions] if len(positions) == width and all(map(integer, positions)):
                self.within()
            case _:
                raise Malformed("`at` and as many positions as said above")
        for _ in range(rows):
            match self.line():
                case [b"row", *fields] if len(fields) == 3 * width and all(
                        value(*fields[i:i + 3]) for i in range(0, len(fields), 3)):
                    self.within()
                case _:
                    raise Malformed("`row` and as many values as positions")

    def filters(self):
        entry = 0
        while self.more():
            entry += 1
            self.part(1, entry)

    def part(self, depth, entry):
        match self.line():
            case [b"leaf", domain, lexical, extra] if value(domain, lexical, extra):
                parts = 0
            case [b"ref", k] if integer(k):
                parts = 0
            case [b"un", function] if opaque(function):
                parts = 1
            case [b"bin", function] if opaque(function):
                parts = 2
            case [b"tern", function] if opaque(function):
                parts = 3
            case [b"nary", function, n] if opaque(function) and integer(n):
                parts = int(n)
            case _:
                raise Malformed("a filter")
        self.within(depth=depth, entry=entry)
        for _ in range(parts):
            self.part(depth + 1, entry)

    def namespaces(self):
        olds = []
        while self.more():
            match self.line():
                case [old, new] if start(old) and start(new):
                    olds.append(old)
                    self.within()
                    if len(olds) > 64:
                        raise OverBound("64 lines of a namespace table")
                case _:
                    raise Malformed("two starts of 1 to 128 bytes without >")
        for line, old in enumerate(olds, 1):
            for above, other in enumerate(olds[:line - 1], 1):
                if old.startswith(other) or other.startswith(old):
                    raise NotInOrder(line, "overlaps that of line %d" % above)
            if line > 1 and old < olds[line - 2]:
                raise NotInOrder(line, "is unsorted")


KINDS = ["tree", "query", "joins", "constants", "mapping", "bindings", "filters", "namespaces"]


def number(kind, data):
    return explained(kind, data)[0]


def explained(kind, data):
    """The number, and where and why the text was refused."""
    if kind not in KINDS:
        raise ValueError("no such kind of text: " + kind)
    if len(data) > 16384:
        return 2, "the text has more than 16384 bytes"
    text = Text(data)
    try:
        getattr(text, kind)()
    except Malformed as wanted:
        line = text.lines + (str(wanted) in ("a line end", "one more line", "the end of the text"))
        found = data.split(b"\n")[line - 1].decode("utf-8", "replace").replace("\t", " ")
        return 1, "line %d: wanted %s, found: %s" % (line, wanted, found or "nothing")
    except OverBound as bound:
        return 2, "line %d: over the bound of %s" % (text.lines, bound)
    except NotInOrder as order:
        return 14, "line %d: its old start %s" % order.args
    return 0, None


if __name__ == "__main__":
    if len(sys.argv) != 3 or sys.argv[1] not in KINDS:
        sys.exit("usage: second_reader.py " + "|".join(KINDS) + " FILE")
    with open(sys.argv[2], "rb") as file:
        found, reason = explained(sys.argv[1], file.read())
    if reason:
        print(reason, file=sys.stderr)
    print(found)
