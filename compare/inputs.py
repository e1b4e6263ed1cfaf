#!/usr/bin/env python3
"""Random inputs of the calls but for scope and rename. A seed always gives the same inputs.

    inputs.py PROGRAM COUNT SEED    prints COUNT inputs, each followed by a line ====

Most are well formed, with projects for roots and positions inside. In some a root is something else, a position is outside,
heads differ, a tree is an empty file, a text is damaged or stands at a bound.
"""

import itertools
import pathlib
import random
import sys

sys.dont_write_bytecode = True
sys.path.append(str(pathlib.Path(__file__).resolve().parent.parent / "tests"))

import calls
import random_texts
import trees
import values

# The kinds of text that a call reads, in order.
KINDS = {row.name: row.kinds for row in calls.ROWS}
TEXTS = {name: kinds for name, kinds in KINDS.items() if name not in ("scope", "rename")}
OF_NEMO = [name for name in TEXTS if name not in calls.OURS]
BAR = b"--\n"
EMPTY = b"project\nbgp\t0\n"
HUGE = 4294967295
TERMS = trees.IRIS + trees.LITERALS + [b"<k%d>" % number for number in range(trees.COLUMNS)]


def parted(case):
    """The texts before, between and after lines `--`."""
    texts, start, end = [], 0, 0
    for line in lines(case):
        if line == BAR:
            texts.append(case[start:end])
            start = end + len(line)
        end += len(line)
    return texts + [case[start:]]


def lines(text):
    """The lines of a text with their ends; an unended one too."""
    ended = text.split(b"\n")
    return [line + b"\n" for line in ended[:-1]] + [ended[-1]] * (ended[-1] != b"")


def is_empty(kind, text):
    """Whether a text is a tree of no bytes, or a query of its head line alone."""
    return kind == "tree" and text == b"" or kind == "query" and text.count(b"\n") == 1 and text.endswith(b"\n")


def whole(program, case):
    """The input with the two lines where it has an empty file: what the Rust is given."""
    return BAR.join(text + EMPTY * is_empty(kind, text) for kind, text in zip(KINDS[program], parted(case)))


def columns(tree):
    """The columns of a tree whose root is project, or None."""
    first = trees.records(tree)[0] if tree else [b""]
    return first[1:] if first[0] == b"project" else None


def outermost(tree):
    """The columns of a tree's outermost projection, or None."""
    passed = (b"distinct", b"reduced", b"slice", b"orderby", b"group", b"cols")
    first = next((fields for fields in trees.records(tree) if fields[0] not in passed), [b""])
    return first[1:] if first[0] == b"project" else None


def once(pairs):
    """The pairs neither of whose positions stands in one before them, on its side."""
    kept = []
    for pair in pairs:
        if all(here != there for before in kept for here, there in zip(pair, before)):
            kept.append(pair)
    return kept


class Below(trees.Maker):
    """Trees whose outermost projection stands a number of levels below the root."""

    def pattern(self, depth, size):
        if depth > self.above + 1:
            return super().pattern(depth, size)
        over = (self.bare, self.slice, self.orderby, self.group)
        self.rng.choice(over if depth <= self.above else (self.project,) * 4 + (self.filter,))(depth, size)


class Inputs:
    """Makes inputs from one source of chance."""

    def __init__(self, rng):
        self.rng = rng

    def chance(self, share):
        return self.rng.random() < share

    def projected(self, pool):
        """A tree whose root is project."""
        while True:
            maker = trees.Maker(self.rng, pool, self.rng.choice([3, 6, 12, trees.DEPTH]))
            maker.project(1, self.rng.choice([2, 3, 6, 10, 10, 20, 20, 40, 80]))
            if trees.within_bounds(maker.text()):
                return maker.text()

    def edge(self, pool):
        """A tree at a bound whose root is project."""
        maker = trees.Maker(self.rng, pool, trees.DEPTH)
        self.rng.choice([self.names, self.deep, self.growing, self.growing])(maker)
        return maker.text()

    def names(self, maker):
        """256 columns over 1,024 names."""
        maker.line(b"project", *[b"?%x" % number for number in self.rng.sample(range(trees.NAMES), trees.COLUMNS)])
        trees.many_names(maker)

    def deep(self, maker):
        """Depth 64, the root a project."""
        trees.deep(maker)
        maker.lines[0] = b"\t".join([b"project", *maker.variables(3)])

    def growing(self, maker):
        """Short names with long new ones: two such sides give more than 65,536 bytes."""
        letters = b"abcdefghijklmnopqrstuvwxyz0123456789"
        first = [b"?" + bytes(pair) for pair in itertools.product(letters, repeat=2)][: trees.NAMES - 20]
        short = [b"?" + bytes([letter]) for letter in letters[:20]]
        head = [b"project\t?a", b"values\t", b"cols\t" + b"\t".join(first)]
        room = (trees.BYTES - sum(map(len, head)) - 80) // 3
        maker.lines += [head[0], head[1] + b"%d\t0" % (len(first) + room), head[2] + b"".join(b"\t" + self.rng.choice(short) for _ in range(room))]

    def wide(self, pool):
        """As many columns as there may be, of names that are seen below or not, some more than once."""
        maker = trees.Maker(self.rng, pool, trees.DEPTH)
        names = [b"?%x" % number for number in self.rng.sample(range(2 * trees.COLUMNS), trees.COLUMNS)]
        maker.line(b"project", *(self.rng.choices(names, k=trees.COLUMNS) if self.chance(0.2) else names))
        maker.line(b"join")
        maker.line(b"values", b"%d" % (trees.COLUMNS // 2), b"0")
        maker.line(b"cols", *self.rng.sample(names, trees.COLUMNS // 2))
        maker.bgp(3, 3)
        return maker.text()

    def tree(self, pool):
        """A tree whose root is project, most often."""
        if self.chance(0.01):
            return self.edge(pool)
        if self.chance(0.02):
            return self.wide(pool)
        if self.chance(0.9):
            return self.projected(pool)
        return self.outer(pool) if self.chance(0.5) else trees.tree(self.rng)

    def outer(self, pool):
        """A tree whose outermost projection is further down."""
        while True:
            maker = Below(self.rng, pool, self.rng.choice([6, 12, trees.DEPTH]))
            maker.above = self.rng.choice([0, 1, 1, 2, 3, 4])
            maker.pattern(1, self.rng.choice([3, 6, 10, 20, 40]))
            if trees.within_bounds(maker.text()):
                return maker.text()

    def position(self, width):
        """A position in so many columns; now and then outside."""
        if width == 0 or self.chance(0.003):
            return self.rng.choice([width, width, width + 1, trees.COLUMNS, HUGE])
        return self.rng.randrange(width)

    def joins(self, left, right):
        """Pairs of positions; now and then one stands twice on its side."""
        most = self.rng.choice([0, 1, 1, 1, 2, 2, 3, 5, trees.ENTRIES])
        if 0 in (left, right) and self.chance(0.9):
            most = 0
        pairs = [(self.position(left), self.position(right)) for _ in range(most)]
        if most == trees.ENTRIES and self.chance(0.5):
            pairs = list(zip(*(self.rng.sample(range(width), min(left, right)) for width in (left, right))))
        return b"".join(b"%d\t%d\n" % pair for pair in (pairs if self.chance(0.05) else once(pairs)))

    def constants(self, width):
        most = self.rng.choice([0, 0, 0, 1, 1, 2, 3, trees.ENTRIES])
        if width == 0 and self.chance(0.9):
            most = 0
        places = list(dict.fromkeys(self.position(width) for _ in range(most)))
        if most == trees.ENTRIES and self.chance(0.5):
            places = self.rng.sample(range(width), width)
        terms = self.rng.sample(TERMS, len(places))
        if self.chance(0.1):
            terms = [self.rng.choice(terms[:2]) for _ in places]
        return b"".join(b"%d\t%s\n" % pair for pair in zip(places, terms))

    def head(self):
        kind = self.rng.choice([b"select"] * 9 + [b"ask"] * 6 + [b"construct", b"describe"])
        return [kind, self.opaque(), self.opaque()]

    def opaque(self):
        return self.rng.choice([b"-", b"-", b"-", b"<http://example.org/>", b"d", b"?x", b"--", b"FROM <g>"])

    def other_head(self, head):
        """The head again, or one that differs in a field."""
        place = self.rng.randrange(3)
        return head if self.chance(0.85) else head[:place] + self.head()[place:place + 1] + head[place + 1:]

    def two_trees(self):
        pool = trees.name_pool(self.rng)
        other = pool if self.chance(0.5) else trees.name_pool(self.rng)
        make = self.edge if self.chance(0.01) else self.wide if self.chance(0.03) else self.tree
        return make(pool), make(other)

    def merge(self):
        left, right = self.two_trees()
        widths = [self.width(tree) for tree in (left, right)]
        return [left, right, self.joins(*widths), *map(self.constants, widths)]

    def merge_queries(self):
        left, right, *lists = self.merge()
        head = self.head()
        return [query(head, left), query(self.other_head(head), right), *lists]

    def without(self):
        return self.merge_queries()[:3]

    def push(self):
        tree = self.tree(trees.name_pool(self.rng))
        return [query(self.head(), tree), self.constants(self.width(tree))]

    def negate(self):
        return [query(self.head(), self.placed())]

    def bindings(self):
        tree = self.placed()
        return [tree, values.Values(self.rng).bindings(self.width(tree, outermost))]

    def filters(self):
        tree = self.placed()
        return [tree, values.Values(self.rng).filters(self.width(tree, outermost))]

    def namespaces(self):
        """A tree, most often without the IRI that no start covers, and a table, most often in order and of all that it needs."""
        tree = self.tree(trees.name_pool(self.rng))
        return [tree.replace(b"\t<>", b"\t<c>") if self.chance(0.9) else tree, self.table()]

    def table(self):
        wholes = [b"by", b"in", b"c", b"http://example.org/a#b", b"?x", b"a", "é".encode()]
        olds = [whole[:self.rng.randint(1, len(whole))] for whole in wholes]
        olds += [b"z%d:" % number for number in range(self.rng.choice([0, 0, 3, 10, 57]))]
        if self.chance(0.1):
            olds.remove(self.rng.choice(olds))
        if self.chance(0.05):
            olds.append(self.rng.choice(olds) + self.rng.choice([b"", b"x"]))
        if self.chance(0.05):
            self.rng.shuffle(olds)
        else:
            olds.sort()
        return b"".join(b"%s\t%s\n" % (old, self.rng.choice([old, b"n:", b"a", b"<", b"n" * 128])) for old in olds)

    def placed(self):
        """A tree, most often with an outermost projection."""
        return self.rng.choice([self.outer, self.outer, self.tree])(trees.name_pool(self.rng))

    def width(self, tree, of=columns):
        found = of(tree or EMPTY)
        return self.rng.randint(1, 3) if found is None else len(found)

    def spoiled(self, kinds, texts):
        """The texts with one damaged, or one at a bound, now and then."""
        place = self.rng.randrange(len(texts))
        if self.chance(0.05):
            texts[place] = random_texts.damaged(texts[place], self.rng)
        elif self.chance(0.01):
            texts[place] = random_texts.close_to_bound(kinds[place], self.rng)
        return texts


class WithEmpty(Inputs):
    """The same, with an empty file for every other tree."""

    def tree(self, pool):
        return b"" if self.chance(0.5) else super().tree(pool)

    def placed(self):
        return b"" if self.chance(0.5) else super().placed()


def query(head, tree):
    return b"\t".join([b"query", *head]) + b"\n" + tree


def cases(program, count, seed):
    """That many inputs of a program, one in twenty made with empty files."""
    make, other = Inputs(random.Random(f"{program} {seed}")), WithEmpty(random.Random(f"{program} {seed}, empty files"))
    for _ in range(count):
        made = make.spoiled(TEXTS[program], getattr(make, program)())
        yield BAR.join(getattr(other, program)() if other.chance(0.05) else made)


def main():
    program, count, seed = sys.argv[1], int(sys.argv[2]), int(sys.argv[3])
    for case in cases(program, count, seed):
        sys.stdout.buffer.write(case + b"====\n")


if __name__ == "__main__":
    main()
