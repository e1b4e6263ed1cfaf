#!/usr/bin/env python3
"""Random texts of every kind, for comparing readers at scale.

    python3 random_texts.py SEED COUNT OUTDIR

writes OUTDIR/texts and OUTDIR/expected. Most texts are small; about half are
damaged copies of well-formed ones, and some stand close to a bound. The
expected numbers are those of second_reader.py and of nothing else.

texts: for each record a line `DIGIT TAB LENGTH TAB LABEL`, then LENGTH bytes
and a line end; DIGIT is the kind: 0 tree, 1 query, 2 joins, 3 constants,
4 mapping, 5 bindings, 6 filters, 7 namespaces. expected: a line `LABEL TAB NUMBER` each.
"""
import os
import random
import re
import sys

from second_reader import KINDS, number

DASHED = [b"PlainString", b"Iri", b"Null", b"Tuple", b"Map"]
TYPED = [b"Float", b"Double", b"UnsignedLong", b"NonNegativeLong", b"UnsignedInt",
         b"NonNegativeInt", b"Long", b"Int", b"Boolean", b"Other"]
BINARY = b"or and eq same gt ge lt le add sub mul div".split()
WORDS = (b"bgp t path join union minus leftjoin filter graph extend values cols row orderby asc desc "
         b"project distinct reduced slice group agg aggall service term bound or and eq same gt ge lt "
         b"le add sub mul div in plus neg not exists if coalesce call query set at leaf ref un bin "
         b"tern nary").split()


def write(records, outdir):
    """The two files, for records of kind, label, text and expected number."""
    os.makedirs(outdir, exist_ok=True)
    with open(os.path.join(outdir, "texts"), "wb") as texts, \
            open(os.path.join(outdir, "expected"), "w", newline="\n") as expected:
        for kind, label, data, expect in records:
            texts.write(b"%d\t%d\t%s\n" % (KINDS.index(kind), len(data), label.encode()))
            texts.write(data + b"\n")
            expected.write("%s\t%d\n" % (label, expect))


class Maker:
    """Makes well-formed texts, as lists of lines, a line being a list of fields."""

    def __init__(self, rng):
        self.rng = rng

    def some(self, most):
        return min(self.rng.randrange(most + 1), self.rng.randrange(most + 2))

    def chance(self, share):
        return self.rng.random() < share

    # Fields

    def opaque(self):
        pool = [b"count", b"DATATYPE", b"<p>*", b"?x", b"-", b"^<p>/<q>", b"a b", b"\x00", b"f\r", b"\xff"]
        return self.rng.choice(pool)

    def variable(self):
        if self.chance(0.05):
            return b"?" + self.rng.choice([b"n" * 128, b"?", b"\x00", b" ", b"\xff\xfe", b"a" * 127])
        return b"?" + self.rng.choice([b"x", b"y", b"z", b"s", b"xLabel", b"sLabel", b"Label", b"v0", b"l1"])

    def iri(self):
        return self.rng.choice([b"<k>", b"<p>", b"<>", b"<http://a/b>", b"<a>b>", b"<\r>"])

    def literal(self):
        return self.rng.choice([b'"a"', b'"', b'"a"@en', b'"1"^^<int>', b'"\\t"', b'"\x00\xff'])

    def blank(self):
        return self.rng.choice([b"_:b", b"_:", b"_:b1"])

    def constant(self):
        return self.rng.choice([self.iri, self.literal])()

    def name(self):
        return self.rng.choice([self.iri, self.variable])()

    def operand(self):
        return self.rng.choice([self.iri, self.variable, self.variable, self.literal])()

    def term(self):
        return self.blank() if self.chance(0.1) else self.operand()

    def integer(self):
        return self.rng.choice([b"0", b"1", b"2", b"7", b"10", b"64", b"4294967295"])

    def flag(self):
        return self.rng.choice([b"0", b"1"])

    def value(self):
        lexical = self.rng.choice([b"", b"a", b"true", b"1", b"-", b'\\"', b"\x00\xff"])
        if self.chance(0.2):
            return [b"LanguageTaggedString", lexical, self.rng.choice([b"en", b"deu", b"en-gb", b"zho-cn"])]
        if self.chance(0.5):
            return [self.rng.choice(DASHED), lexical, b"-"]
        return [self.rng.choice(TYPED), lexical, self.iri()]

    # Trees. Size falls, so that a tree ends.

    def pattern(self, size):
        r = self.rng.randrange(6) if size <= 0 else self.rng.randrange(22)
        less = size - 1 - self.rng.randrange(2)
        inner = lambda: self.pattern(less)
        if r < 3:
            n = self.some(3)
            return [[b"bgp", b"%d" % n]] + [[b"t", self.term(), self.name(), self.term()] for _ in range(n)]
        if r == 3:
            return [[b"path", self.term(), self.opaque(), self.term()]]
        if r < 6:
            m, k = self.some(3), self.some(3)
            row = lambda: [b"-" if self.chance(0.2) else self.constant() for _ in range(m)]
            return [[b"values", b"%d" % m, b"%d" % k], [b"cols"] + [self.variable() for _ in range(m)]] + \
                   [[b"row"] + row() for _ in range(k)]
        if r < 9:
            return [[self.rng.choice([b"join", b"union", b"minus"])]] + inner() + inner()
        if r < 11:
            f = self.flag()
            return [[b"leftjoin", f]] + inner() + inner() + (self.expression(less) if f == b"1" else [])
        if r < 13:
            return [[b"filter"]] + inner() + self.expression(less)
        if r == 13:
            return [[b"graph", self.name()]] + inner()
        if r == 14:
            return [[b"extend", self.variable()]] + inner() + self.expression(less)
        if r == 15:
            n = self.some(3)
            conditions = [[[self.rng.choice([b"asc", b"desc"])]] + self.expression(less) for _ in range(n)]
            return [[b"orderby", b"%d" % n]] + inner() + sum(conditions, [])
        if r < 18:
            return [[b"project"] + [self.variable() for _ in range(self.some(4))]] + inner()
        if r == 18:
            return [[self.rng.choice([b"distinct", b"reduced"])]] + inner()
        if r == 19:
            return [[b"slice", self.integer(), b"-" if self.chance(0.5) else self.integer()]] + inner()
        if r == 20:
            g, a = self.some(3), self.some(3)
            lines = [[b"group", b"%d" % g, b"%d" % a], [b"cols"] + [self.variable() for _ in range(g)]] + inner()
            for _ in range(a):
                if self.chance(0.4):
                    lines += [[b"aggall", self.variable(), self.flag()]]
                else:
                    lines += [[b"agg", self.variable(), self.opaque(), self.flag()]] + self.expression(less)
            return lines
        return [[b"service", self.name(), self.flag()]] + inner()

    def expression(self, size):
        r = self.rng.randrange(3) if size <= 0 else self.rng.randrange(14)
        less = size - 1 - self.rng.randrange(2)
        few = lambda n: sum([self.expression(less) for _ in range(n)], [])
        if r < 2:
            return [[b"term", self.operand()]]
        if r == 2:
            return [[b"bound", self.variable()]]
        if r < 6:
            return [[self.rng.choice(BINARY)]] + few(2)
        if r == 6:
            n = self.some(3)
            return [[b"in", b"%d" % n]] + few(n + 1)
        if r < 9:
            return [[self.rng.choice([b"plus", b"neg", b"not"])]] + few(1)
        if r < 11:
            return [[b"exists"]] + self.pattern(less)
        if r == 11:
            return [[b"if"]] + few(3)
        n = self.some(3)
        return [[b"coalesce", b"%d" % n] if r == 12 else [b"call", self.opaque(), b"%d" % n]] + few(n)

    # Whole texts

    def tree(self, size=4):
        return self.pattern(self.some(size))

    def head(self):
        kind = self.rng.choice([b"select", b"ask", b"construct", b"describe"])
        return [[b"query", kind, self.opaque(), self.opaque()]]

    def query(self):
        return self.head() + self.tree()

    def joins(self):
        return [[self.integer(), self.integer()] for _ in range(self.some(5))]

    def constants(self):
        n = self.some(5)
        return [[b"%d" % p, self.constant()] for p in self.rng.sample(range(12), n)]

    def mapping(self):
        return [[s, self.variable()] for s in dict.fromkeys(self.variable() for _ in range(self.some(5)))]

    def bindings(self):
        lines = []
        for _ in range(self.some(3)):
            m, k = self.some(2), self.some(3)
            lines += [[b"set", b"%d" % m, b"%d" % k], [b"at"] + [self.integer() for _ in range(m)]]
            lines += [[b"row"] + sum([self.value() for _ in range(m)], []) for _ in range(k)]
        return lines

    def part(self, size):
        r = self.rng.randrange(2) if size <= 0 else self.rng.randrange(6)
        less = size - 1 - self.rng.randrange(2)
        few = lambda n: sum([self.part(less) for _ in range(n)], [])
        if r == 0:
            return [[b"leaf"] + self.value()]
        if r == 1:
            return [[b"ref", self.integer()]]
        function = self.rng.choice([b"Equals", b"Unequals", b"Datatype", b"LanguageTag", b"Sum", self.opaque()])
        if r < 5:
            return [[[b"un", b"bin", b"tern"][r - 2], function]] + few(r - 1)
        n = self.some(3)
        return [[b"nary", function, b"%d" % n]] + few(n)

    def filters(self):
        return sum([self.part(self.some(4)) for _ in range(self.some(3))], [])

    def namespaces(self):
        pool = [b"http://a/", b"http://b/", b"http://c/1#", b"http://c/2#", b"urn:x:", b"urn:y:\xff", b"-", b"?x"]
        olds = sorted(self.rng.sample(pool, self.some(5)))
        return [[old, self.rng.choice([*pool, b"a", b"n" * 128, self.opaque().replace(b">", b"")])] for old in olds]


def joined(lines):
    return b"".join(b"\t".join(fields) + b"\n" for fields in lines)


def well_formed(kind, rng):
    """A small text of that kind, well formed and within the bounds."""
    while True:
        data = joined(getattr(Maker(rng), kind)())
        if len(data) <= 2000:
            return data


def damaged(data, rng):
    """The text with one byte, line or field changed."""
    lines = re.findall(rb"[^\n]*\n|[^\n]+", data)
    at = rng.randrange(len(data) + 1)
    byte = bytes([rng.choice(b'\t\t\n\n\r \x00\xff?<>"_:-0019atx')])
    way = rng.randrange(14)
    if way == 0:
        return data[:at] + data[at + 1:]
    if way == 1:
        return data[:at] + byte + data[at:]
    if way == 2:
        return data[:at] + byte + data[at + 1:]
    if way == 3:
        return data[:-1] if rng.random() < 0.5 else data + rng.choice([b"\n", b"x", b"bgp\t0\n", b"ref\t0\n"])
    if not lines:
        return data + byte
    i, j = rng.randrange(len(lines)), rng.randrange(len(lines))
    if way == 4:
        del lines[i]
    elif way == 5:
        lines.insert(j, lines[i])
    elif way == 6:
        lines[i], lines[j] = lines[j], lines[i]
    elif way == 7:
        lines = lines[:i]
    else:
        fields, others = lines[i][:-1].split(b"\t"), lines[j][:-1].split(b"\t")
        k = rng.randrange(len(fields))
        if way == 8:
            del fields[k]
        elif way == 9:
            fields.insert(k, fields[k])
        elif way == 10:
            fields[k] = rng.choice(others)
        elif way == 11:
            fields[0] = rng.choice(WORDS)
        else:
            numbers = [n for n, f in enumerate(fields) if f.isdigit()]
            k = rng.choice(numbers or [k])
            fields[k] = rng.choice([b"0", b"1", b"2", b"3", b"01", b"4294967295", b"4294967296", b"-", b"", b"?", b"?x",
                                    b"_:b", b"<", b"<>", b'"', b"en", b"?" + b"n" * 128, b"?" + b"n" * 129])
        lines[i] = b"\t".join(fields) + b"\n"
    return b"".join(lines)


def close_to_bound(kind, rng):
    """A text of that kind with one measure at, just below or just past its bound."""
    make = Maker(rng)
    near = lambda bound: bound + rng.choice([-2, -1, 0, 0, 0, 1, 1, 1, 2])
    measures = {"tree": "depth depth columns columns names lines bytes", "query": "depth columns names lines bytes",
                "bindings": "entries entries lines bytes", "filters": "depth depth entries entries lines bytes", "namespaces": "entries"}
    measure = rng.choice(measures.get(kind, "entries entries entries bytes").split())
    head = joined(make.head()) if kind == "query" else b""
    if measure == "bytes":
        start, end = {"tree": (b"path\t?x\t", b"\t?x\n"), "query": (b"path\t?x\t", b"\t?x\n"),
                      "joins": (b"0\t0\n1\t", b"\n"), "constants": (b'0\t"', b"\n"),
                      "mapping": (b"?x\t?", b"\n"), "bindings": (b"set\t1\t1\nat\t0\nrow\tIri\t", b"\t-\n"),
                      "filters": (b"leaf\tIri\t", b"\t-\n")}[kind]
        return head + start + b"a" * (near(16384) - len(head + start + end)) + end
    if measure == "lines":
        n = near(2048)
        if kind == "bindings":
            return b"set\t0\t%d\nat\n" % (n - 2) + b"row\n" * (n - 2)
        if kind == "filters":
            return b"nary\tf\t%d\n" % (n - 1) + b"ref\t0\n" * (n - 1)
        n -= 1 if kind == "query" else 0
        return head + b"values\t0\t%d\ncols\n" % (n - 2) + b"row\n" * (n - 2)
    if measure == "names":
        n, lines = near(1024), []
        names = [b"?%x" % i for i in range(n)]
        while names:
            some, names = names[:300], names[300:]
            lines += [b"join\n" if names else b"", b"values\t%d\t0\ncols\t" % len(some) + b"\t".join(some) + b"\n"]
        return head + b"".join(lines)
    if measure == "columns":
        n = near(256)
        above = [b"distinct\n", b"filter\n", b""][rng.randrange(3)]
        after = b"bound\t?x\n" if above == b"filter\n" else b""
        return head + above + b"project" + b"\t?x" * n + b"\nbgp\t0\n" + after
    if measure == "entries":
        n = near(64 if kind == "namespaces" else 256)
        line = {"joins": lambda i: b"0\t1\n", "constants": lambda i: b"%d\t<k>\n" % i,
                "mapping": lambda i: b"?%d\t?x\n" % i, "bindings": lambda i: b"set\t0\t1\nat\nrow\n",
                "filters": lambda i: joined(make.part(1)), "namespaces": lambda i: b"a%03d\tb\n" % i}[kind]
        return b"".join(map(line, range(n)))
    n = near(64)
    if kind == "filters":
        return b"un\tf\n" * (n - 1) + b"ref\t0\n"
    return head + deep(n, rng)


def deep(depth, rng):
    """A tree of that depth, through patterns, exists and expressions."""
    before, after, pattern = [], [], True
    for left in range(depth - 1, 0, -1):
        if pattern:
            way = rng.randrange(7) if left > 1 else rng.randrange(4)
            step = [(b"distinct\n", b""), (b"join\n", b"bgp\t0\n"), (b"join\nbgp\t0\n", b""), (b"project\t?x\n", b""),
                    (b"filter\nbgp\t0\n", b""), (b"orderby\t2\nbgp\t0\nasc\n", b"desc\nbound\t?x\n"),
                    (b"group\t0\t2\ncols\nbgp\t0\nagg\t?x\tf\t0\n", b"aggall\t?y\t0\n")][way]
            pattern = way < 4
        else:
            way = rng.randrange(5)
            step = [(b"not\n", b""), (b"and\n", b"bound\t?x\n"), (b"if\nbound\t?x\nbound\t?x\n", b""),
                    (b"in\t2\n", b"term\t<k>\nterm\t<k>\n"), (b"exists\n", b"")][way]
            pattern = way == 4
        before.append(step[0])
        after.append(step[1])
    return b"".join(before) + (b"bgp\t0\n" if pattern else b"bound\t?x\n") + b"".join(reversed(after))


def late_damage(data, rng):
    """Damage in the last hundred bytes or so, where a bound is passed."""
    cut = max(0, data.rfind(b"\n", 0, max(0, len(data) - rng.randrange(100))) + 1)
    return data[:cut] + damaged(data[cut:], rng)


def records(seed, count, prefix="random"):
    rng = random.Random(seed)
    for i in range(count):
        kind = rng.choice(["tree", "tree", "tree"] + KINDS)
        way = rng.random()
        if way < 0.06:
            what, data = "bound", close_to_bound(kind, rng)
            if rng.random() < 0.4:
                what, data = "bound-damaged", rng.choice([damaged, late_damage])(data, rng)
        else:
            what, data = "good", well_formed(kind, rng)
            if way > 0.35:
                what = "damaged"
                for _ in range(rng.choice([1, 1, 1, 2])):
                    data = damaged(data, rng)
        data = data[:20000]
        yield kind, "%s-%d-%s-%s" % (prefix, i, kind, what), data, number(kind, data)


if __name__ == "__main__":
    if len(sys.argv) != 4:
        sys.exit("usage: random_texts.py SEED COUNT OUTDIR")
    write(records(int(sys.argv[1]), int(sys.argv[2])), sys.argv[3])
