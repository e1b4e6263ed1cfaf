#!/usr/bin/env python3
"""Random well-formed trees and mappings in the layout, within the bounds; some are empty files. A seed always gives the same texts.

    trees.py COUNT SEED    prints COUNT cases (a tree, a line --, a mapping), each followed by a line ====
"""

import random
import sys

BYTES, LINES, DEPTH, NAMES, COLUMNS, ENTRIES, NAME = 16384, 2048, 64, 1024, 256, 256, 128

# Words whose fields may be variables, and which fields those are; None for all.
SLOTS = {
    b"t": (1, 2, 3), b"path": (1, 3), b"graph": (1,), b"service": (1,), b"extend": (1,), b"cols": None,
    b"project": None, b"agg": (1,), b"aggall": (1,), b"term": (1,), b"bound": (1,),
}

BINARY = b"or and eq same gt ge lt le add sub mul div".split()
UNARY = b"plus neg not".split()

PLAIN = [b"?a", b"?b", b"?c", b"?s", b"?event", b"?relay", b"?breaker1", b"?x"]
LABELS = [
    b"?x", b"?xLabel", b"?xLabelLabel", b"?Label", b"?LabelLabel", b"?l0", b"?j0", b"?v0", b"?v1", b"?v1Label",
    b"?r0Label", b"?v10", b"?y", b"?yLabel", b"?label", b"?Labe", b"?xLabelx", b"?v", b"?vLabel",
]
ODD = [
    b"? ", b"??", b"?-", b"?--", b"?====", b"?\r", b"?\0", b"?\xff", b"?a b", b'?"a"', b"?<a>", b"?_:a", b"?a?b",
    "?é".encode(), "?éLabel".encode(), b"? Label", b"?\xc3Label", b"?Label\r", b"?Label ", b"?\rLabel", b"?0",
    b"?" + b"n" * NAME, b"?" + b"n" * (NAME - 5) + b"Label", b"?" + b"n" * (NAME - 5),
]
IRIS = [b"<by>", b"<in>", b"<>", b"<http://example.org/a#b>", b"<?x>", b"<a>b>", "<é>".encode(), b"<a b>"]
LITERALS = [b'"', b'""', b'"a"', b'"a b"@en', b'"1"^^<http://www.w3.org/2001/XMLSchema#int>', b'"?x"', b'"\xff"', b'"\\t"']
BLANKS = [b"_:", b"_:a", b"_:b0", b"_:?x"]
OPAQUE = [
    b"?x", b"?xLabel", b"?v0", b"<p>/<q>*", b"^<p>", b"!(<p>|^<q>)", b"COUNT", b"SUM", b"LANG", b"DATATYPE", b"-", b"0", b"?",
]
INTEGERS = [b"0", b"1", b"2", b"10", b"100", b"4294967295"]


def records(text):
    """The lines of a text, each as its fields."""
    return [line.split(b"\t") for line in text.split(b"\n")[:-1]]


def places(fields):
    """The numbers of a line's fields that hold variables."""
    slots = SLOTS.get(fields[0], ())
    slots = range(1, len(fields)) if slots is None else slots
    return [slot for slot in slots if fields[slot].startswith(b"?")]


def names(text):
    """The distinct variables of a tree by first place."""
    return list(dict.fromkeys(fields[slot] for fields in records(text) for slot in places(fields)))


def words(text):
    """The words that begin a tree's lines."""
    return {fields[0] for fields in records(text)}


def within_bounds(text):
    """Whether a tree keeps the bounds that its making doesn't keep by itself."""
    return len(text) <= BYTES and text.count(b"\n") <= LINES and len(names(text)) <= NAMES


def odd_name(rng):
    allowed = [byte for byte in range(256) if byte not in (9, 10)]
    return b"?" + bytes(rng.choices(allowed, k=rng.randint(1, 8)))


def family(rng):
    """A name and its Label partners."""
    base = rng.choice([b"?", b"?x", b"?node", b"?v0", b"?l0", b"?j1", b"?\xe2\x82", odd_name(rng)])
    chosen = [base + b"Label" * count for count in range(4)]
    return [name for name in chosen if len(name) > 1]


def name_pool(rng):
    """The names that one tree draws from."""
    pool = rng.choice([PLAIN, LABELS, LABELS, ODD, family(rng), [odd_name(rng) for _ in range(6)], numbered(rng)])
    pool = rng.sample(pool, rng.randint(1, len(pool)))
    if rng.random() < 0.3:
        pool = pool + family(rng)
    return pool


def numbered(rng):
    return [b"?n%d" % number for number in range(rng.choice([10, 60, 300]))]


class Maker:
    """Makes one tree, line by line. Sizes are wishes about the number of lines."""

    def __init__(self, rng, pool, depth):
        self.rng, self.pool, self.depth = rng, pool, depth
        self.lines = []

    def text(self):
        return b"".join(line + b"\n" for line in self.lines)

    def line(self, *fields):
        self.lines.append(b"\t".join(fields))

    def number(self, most):
        return self.rng.randint(0, most)

    def variable(self):
        return self.rng.choice(self.pool)

    def variables(self, count):
        return [self.variable() for _ in range(count)]

    def flag(self):
        return self.rng.choice([b"0", b"1"])

    def iri_or_variable(self):
        return self.rng.choice([self.variable(), self.rng.choice(IRIS)])

    def any_term(self):
        return self.rng.choice([self.variable()] * 4 + [self.rng.choice(kind) for kind in (IRIS, LITERALS, BLANKS)])

    def opaque(self):
        """A path, or the name of a call or aggregate; it may look like one of the variables."""
        return self.rng.choice([self.variable(), self.rng.choice(OPAQUE)])

    def cell(self):
        return self.rng.choice([b"-", self.rng.choice(IRIS), self.rng.choice(LITERALS)])

    def below(self, kinds, depth, size):
        """Children of the kinds named, sharing the size."""
        cuts = sorted(self.number(max(size - 1, 0)) for _ in kinds[1:])
        for kind, low, high in zip(kinds, [0] + cuts, cuts + [max(size - 1, 0)]):
            kind(depth + 1, high - low)

    def pattern(self, depth, size):
        if depth >= self.depth or size <= 1:
            kinds = (self.bgp, self.bgp, self.path, self.values)
        else:
            kinds = (
                self.bgp, self.two, self.two, self.leftjoin, self.filter, self.filter, self.graph, self.extend,
                self.orderby, self.project, self.project, self.bare, self.slice, self.group, self.service,
            )
        self.rng.choice(kinds)(depth, size)

    def bgp(self, depth, size):
        count = self.number(min(max(size, 2), 30))
        self.line(b"bgp", b"%d" % count)
        for _ in range(count):
            self.line(b"t", self.any_term(), self.iri_or_variable(), self.any_term())

    def path(self, depth, size):
        self.line(b"path", self.any_term(), self.opaque(), self.any_term())

    def values(self, depth, size):
        columns, rows = self.number(4), self.number(min(max(size, 2), 20))
        self.line(b"values", b"%d" % columns, b"%d" % rows)
        self.line(b"cols", *self.variables(columns))
        for _ in range(rows):
            self.line(b"row", *[self.cell() for _ in range(columns)])

    def two(self, depth, size):
        self.line(self.rng.choice([b"join", b"union", b"minus"]))
        self.below([self.pattern, self.pattern], depth, size)

    def leftjoin(self, depth, size):
        conditional = self.flag()
        self.line(b"leftjoin", conditional)
        self.below([self.pattern, self.pattern] + [self.expression] * int(conditional), depth, size)

    def filter(self, depth, size):
        self.line(b"filter")
        self.below([self.pattern, self.expression], depth, size)

    def graph(self, depth, size):
        self.line(b"graph", self.iri_or_variable())
        self.below([self.pattern], depth, size)

    def extend(self, depth, size):
        self.line(b"extend", self.variable())
        self.below([self.pattern, self.expression], depth, size)

    def orderby(self, depth, size):
        count = self.number(3)
        self.line(b"orderby", b"%d" % count)
        self.below([self.pattern] + [self.order] * count, depth, size)

    def order(self, depth, size):
        self.line(self.rng.choice([b"asc", b"desc"]))
        self.expression(depth, size)

    def project(self, depth, size):
        most = COLUMNS if self.rng.random() < 0.05 else 5
        self.line(b"project", *self.variables(self.number(most)))
        self.below([self.pattern], depth, size)

    def bare(self, depth, size):
        self.line(self.rng.choice([b"distinct", b"reduced"]))
        self.below([self.pattern], depth, size)

    def slice(self, depth, size):
        self.line(b"slice", self.rng.choice(INTEGERS), self.rng.choice(INTEGERS + [b"-"] * 4))
        self.below([self.pattern], depth, size)

    def group(self, depth, size):
        columns, aggregates = self.number(3), self.number(3)
        self.line(b"group", b"%d" % columns, b"%d" % aggregates)
        self.line(b"cols", *self.variables(columns))
        self.below([self.pattern] + [self.aggregate] * aggregates, depth, size)

    def aggregate(self, depth, size):
        if self.rng.random() < 0.3:
            self.line(b"aggall", self.variable(), self.flag())
        else:
            self.line(b"agg", self.variable(), self.opaque(), self.flag())
            self.expression(depth, size)

    def service(self, depth, size):
        self.line(b"service", self.iri_or_variable(), self.flag())
        self.below([self.pattern], depth, size)

    def expression(self, depth, size):
        if depth >= self.depth or size <= 1:
            kinds = (self.term, self.term, self.bound, self.bound, self.none)
        else:
            kinds = (self.term, self.bound, self.plain, self.plain, self.plain, self.within, self.exists, self.exists, self.some)
        self.rng.choice(kinds)(depth, size)

    def term(self, depth, size):
        self.line(b"term", self.rng.choice([self.variable(), self.rng.choice(IRIS), self.rng.choice(LITERALS)]))

    def bound(self, depth, size):
        self.line(b"bound", self.variable())

    def none(self, depth, size):
        self.line(*self.rng.choice([(b"coalesce",), (b"call", self.opaque())]), b"0")

    def plain(self, depth, size):
        word, count = self.rng.choice([(word, 2) for word in BINARY] + [(word, 1) for word in UNARY] + [(b"if", 3)] * 3)
        self.line(word)
        self.below([self.expression] * count, depth, size)

    def within(self, depth, size):
        count = self.number(3)
        self.line(b"in", b"%d" % count)
        self.below([self.expression] * (count + 1), depth, size)

    def exists(self, depth, size):
        self.line(b"exists")
        self.below([self.pattern], depth, size)

    def some(self, depth, size):
        count = self.rng.randint(1, 4)
        self.line(*self.rng.choice([(b"coalesce",), (b"call", self.opaque())]), b"%d" % count)
        self.below([self.expression] * count, depth, size)


def deep(maker):
    """Depth 64 exactly."""
    for _ in range(DEPTH - 1):
        maker.rng.choice([
            lambda: maker.line(b"distinct"), lambda: maker.line(b"slice", b"0", b"-"),
            lambda: maker.line(b"project", *maker.variables(2)), lambda: maker.line(b"graph", maker.iri_or_variable()),
        ])()
    maker.bgp(DEPTH, 5)


def wide(maker):
    """A projection of 256 columns."""
    maker.line(b"project", *maker.variables(COLUMNS))
    maker.pattern(2, 20)


def many_names(maker):
    """1,024 distinct variables in a joined pattern."""
    pool = [b"?%x" % number for number in range(NAMES)]
    maker.rng.shuffle(pool)
    maker.line(maker.rng.choice([b"join", b"minus", b"union"]))
    maker.line(b"bgp", b"%d" % (NAMES // 2))
    for subject in pool[: NAMES // 2]:
        maker.line(b"t", subject, b"<>", maker.rng.choice(pool[: NAMES // 2]))
    maker.line(b"values", b"%d" % (NAMES // 2), b"0")
    maker.line(b"cols", *pool[NAMES // 2:])


def many_lines(maker):
    """2,048 lines."""
    maker.line(b"values", b"0", b"%d" % (LINES - 2))
    maker.line(b"cols")
    for _ in range(LINES - 2):
        maker.line(b"row")


def full(maker):
    """16,384 bytes exactly."""
    maker.line(b"filter")
    maker.pattern(2, 30)
    maker.line(b"coalesce", b"1000")
    for _ in range(999):
        maker.line(b"bound", maker.rng.choice([b"?a", b"?b", b"?c"]))
    left = BYTES - len(maker.text()) - len(b'term\t""\n')
    maker.line(b"term", b'"%s"' % (b"a" * max(left, 0)))


EDGES = [deep, deep, wide, wide, many_names, many_lines, full]


def tree(rng):
    """A random tree."""
    while True:
        maker = Maker(rng, name_pool(rng), rng.choice([3, 6, 12, DEPTH]))
        if rng.random() < 0.01:
            rng.choice(EDGES)(maker)
        else:
            maker.pattern(1, rng.choice([1, 3, 6, 10, 10, 20, 20, 40, 80, 200]))
        if within_bounds(maker.text()):
            return maker.text()


def targets(rng, sources, pool):
    """A replacement for each source: a permutation, a chain, or any of the pool."""
    style = rng.choice(["permutation", "chain", "one", "any", "any"])
    if style == "permutation":
        return rng.sample(sources, len(sources))
    if style == "chain":
        return sources[1:] + [rng.choice(pool)]
    if style == "one":
        return [rng.choice(pool)] * len(sources)
    return [rng.choice(pool) for _ in sources]


def mapping(rng, text):
    """A random mapping for a tree: of its names and others, onto its names and others."""
    own = names(text)
    pool = list(dict.fromkeys(own + name_pool(rng) + LABELS))
    sources = rng.choice([own or pool, pool])
    sources = rng.sample(sources, min(rng.choice([0, 1, 2, 3, 8, ENTRIES]), len(sources)))
    pairs = list(zip(sources, targets(rng, sources, pool))) if sources else []
    return entries(pairs)


def entries(pairs):
    """A mapping's text, cut to its bounds."""
    lines = [b"%s\t%s\n" % pair for pair in pairs][:ENTRIES]
    while sum(map(len, lines)) > BYTES:
        lines.pop()
    return b"".join(lines)


def cases(count, seed):
    """Pairs of a tree, now and then an empty file, and a mapping."""
    rng, other = random.Random(seed), random.Random(f"{seed}, empty files")
    for _ in range(count):
        text = tree(rng)
        renaming = mapping(rng, text)
        yield b"" if other.random() < 0.003 else text, renaming


def main():
    count, seed = int(sys.argv[1]), int(sys.argv[2])
    for text, renaming in cases(count, seed):
        sys.stdout.buffer.write(text + b"--\n" + renaming + b"====\n")


if __name__ == "__main__":
    main()
