#!/usr/bin/env python3
"""merges.py PROGRAMS_FOLDER [--merges N] [--seed S] [--keep N FILE]: demand 3 from outside.

Makes random merges that meet demand 3's premises, lets the product's program `merge` write each merged tree, has Apache Jena's
reference engine evaluate left, right and merged tree over random triples (arq.py), and holds the merged answer against demand 3's
sum, computed here from Jena's two single answers. The names of the merged columns are computed here too.

--keep writes N of Jena's evaluations to FILE, for evaluations.py. The gate does not run this script; docs/COUNTING.md has a record."""
import argparse, collections, os, random, sys

sys.dont_write_bytecode = True
HERE = os.path.dirname(os.path.abspath(__file__))
sys.path.append(os.path.join(HERE, '..', '..', 'compare'))

import sides
from arq import answers
from compare import Maker, TERMS
from evaluations import save
from layout import text, tree
from semantics import agree, evaluate, is_var

# Names of a side; the last two have names that a merge generates.
POOLS = [['?a', '?b', '?c', '?d'], ['?c', '?d', '?e', '?f'], ['?j0', '?l1', '?r0', '?a'], ['?r1', '?b', '?l0', '?j1']]
EXPRESSIONS = ('bound', 'same', 'and', 'or', 'not')
ROWS = 400  # at most so many pairs of rows in a merge


def patterns(p):
    """The patterns right below a pattern."""
    return [q for q in p[1:] if isinstance(q, tuple) and q[0] not in EXPRESSIONS]


def leaves(e):
    return {e} if isinstance(e, str) else set().union(*map(leaves, e[1:]))


def in_expressions(p):
    """The variables in a tree's expressions; an extend's term is one."""
    own = [p[3]] if p[0] == 'extend' else [q for q in p[1:] if isinstance(q, tuple) and q[0] in EXPRESSIONS]
    return {x for e in own for x in leaves(e) if is_var(x)}.union(*map(in_expressions, patterns(p)))


def scoped_or_hidden(p):
    """The variables that stand in a tree's own lines, not in its expressions."""
    if p[0] == 'bgp': return {x for t in p[1] for x in t if is_var(x)}
    own = set(p[1]) if p[0] in ('project', 'values') else {p[1]} if p[0] == 'extend' else set()
    return own.union(*map(scoped_or_hidden, patterns(p)))


def departs(p):
    """Whether the tree has the one form in which Jena departs from section 18.5: a leftjoin with an expression over a single line of `-`."""
    if not isinstance(p, tuple): return False
    odd = p[0] == 'leftjoin' and p[3] is not None and p[2][0] == 'values' and len(p[2][2]) == 1 and set(p[2][2][0]) == {'-'}
    return odd or any(departs(q) for q in p[1:])


class Merge:
    """One merge: two trees, pairs of positions, constants by position, triples."""

    def __init__(self, rng, depth):
        self.rng = rng
        self.triples = Maker(rng).triples()
        self.trees = [self.side(rng.choice(POOLS), depth) for _ in range(2)]
        self.single = [evaluate(self.triples, p) for p in self.trees]
        widths = [len(p[1]) for p in self.trees]
        count = rng.choice([0, 1, 1, 1, 2, 2, 3])
        self.joins = list(zip(*(rng.sample(range(w), min(count, *widths)) for w in widths)))
        self.constants = [self.some_constants(p[1], rows) for p, rows in zip(self.trees, self.single)]

    def side(self, names, depth):
        """A tree under a project that meets the premises."""
        while True:
            found = 'project', self.rng.sample(names, self.rng.choice([1, 2, 2, 3, 4])), Maker(self.rng, names).tree(depth)
            if in_expressions(found) <= scoped_or_hidden(found) and not departs(found):
                return found

    def some_constants(self, columns, rows):
        """Constants, most of them terms that their column has."""
        count = min(len(columns), self.rng.choice([0, 0, 0, 1, 1, 2]))
        there = {i: sorted(row[columns[i]] for row in rows if columns[i] in row) for i in self.rng.sample(range(len(columns)), count)}
        return {i: self.rng.choice(found if found and self.rng.random() < 0.7 else TERMS) for i, found in there.items()}

    def input(self):
        lists = [''.join(f'{a}\t{b}\n' for a, b in self.joins)] + [''.join(f'{i}\t{x}\n' for i, x in c.items()) for c in self.constants]
        return '--\n'.join([*map(text, self.trees), *lists]).encode()

    def names(self, side):
        """The merge's names of a side's columns: a column of a project is numbered by its place."""
        index = {pair[side]: i for i, pair in enumerate(self.joins)}
        return [f'?j{index[i]}' if i in index else f"?{'lr'[side]}{i}" for i in range(len(self.trees[side][1]))]

    def columns(self):
        left, right = self.names(0), self.names(1)
        joined = {b for _, b in self.joins}
        return [x for i, x in enumerate(left) if i not in self.constants[0]] \
            + [x for i, x in enumerate(right) if i not in self.constants[1] and i not in joined]

    def rows(self, side, answer, variables):
        """The rows of a single answer under the merge's names, with their counts."""
        columns, names = self.trees[side][1], self.names(side)
        places = [variables.index(c) for c in columns]
        return [({name: row[at] for name, at in zip(names, places) if row[at] != '-'}, n) for row, n in answer.items()]

    def expected(self, left, right, variables):
        """Demand 3's sum, for all rows."""
        fixed = [{self.names(side)[i]: x for i, x in self.constants[side].items()} for side in (0, 1)]
        found = collections.Counter()
        for x, n in self.rows(0, left, variables):
            for y, m in self.rows(1, right, variables):
                four, union = [x, fixed[0], y, fixed[1]], {}
                if all(agree(a, b) for i, a in enumerate(four) for b in four[:i]):
                    for row in four: union |= row
                    found[tuple(union.get(c, '-') for c in self.columns())] += n * m
        return found


def made(rng, count):
    """So many merges, few with an empty side, none with more pairs of rows than ROWS."""
    found = []
    while len(found) < count:
        merge = Merge(rng, 1 + len(found) % 4)
        pairs = len(merge.single[0]) * len(merge.single[1])
        if pairs <= ROWS and (pairs > 0 or rng.random() < 0.1): found.append(merge)
    return found


def main():
    ap = argparse.ArgumentParser()
    ap.add_argument('programs')
    ap.add_argument('--merges', type=int, default=1000)
    ap.add_argument('--seed', type=int, default=1)
    ap.add_argument('--keep', nargs=2)
    a = ap.parse_args()
    merges = made(random.Random(a.seed), a.merges)
    written = sides.ours(a.programs).answers('merge', [m.input() for m in merges])
    refused = [w for w in written if w.startswith((b'refused', b'no answer', b'stopped'))]
    assert not refused, f'{len(refused)} merges have no answer: {refused[0]}'
    merged = [tree(w.decode()) for w in written]
    variables = sorted(set().union(*POOLS, *(m.names(0) + m.names(1) for m in merges)))
    trees = [p for m, p in zip(merges, merged) for p in (*m.trees, p)]
    graphs = [m.triples for m in merges for _ in range(3)]
    found = answers(list(zip(graphs, trees)), variables, 'ref')
    same = differ = failed = full = several = 0
    for i, (m, p) in enumerate(zip(merges, merged)):
        left, right, both = found[3 * i:3 * i + 3]
        if any(isinstance(x, str) for x in (left, right, both)): failed += 1; print('not answered', left, right, both); continue
        places = [variables.index(c) for c in m.columns()]
        got = collections.Counter()
        for row, n in both.items(): got[tuple(row[at] for at in places)] += n
        want = m.expected(left, right, variables)
        if got == want and list(p[1]) == m.columns(): same += 1; full += bool(got); several += max(got.values(), default=0) > 1; continue
        differ += 1
        if differ <= 3: print(f'--- differ\n{m.input().decode()}->\n{text(p)}triples {sorted(m.triples)}\nwant {dict(want)}\ngot  {dict(got)}')
    print(f'seed {a.seed}: {len(merges)} merges, {same} same ({full} of them with rows, {several} with a row more than once), '
          f'{differ} differ, {failed} not answered; {sum(bool(m.joins) for m in merges)} with join pairs, '
          f'{sum(any(m.constants) for m in merges)} with constants')
    if a.keep:
        kept = [(p, g, f) for p, g, f in zip(trees, graphs, found) if not isinstance(f, str)]
        save(a.keep[1], kept, variables, int(a.keep[0]))
    sys.exit(1 if differ or failed else 0)


if __name__ == '__main__':
    main()
