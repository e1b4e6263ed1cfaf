#!/usr/bin/env python3
"""withouts.py [--cases N] [--seed S] [--programs FOLDER] [--jena] [--keep N FILE]: what without promises of rows, from outside.

Makes random inputs of without that meet demand 3's premises, as merges.py makes merges, with at least one join pair and no constants. The
tree is written by second_calls.py, or by the product's program in FOLDER; left, right and written tree are evaluated over random triples by
semantics.py, or by Apache Jena's reference engine (arq.py). From the two single answers the rows are computed that have to be there: those
of the left answer that no row of the right one matches, each as often as on the left.

--keep writes N of Jena's evaluations of written trees to FILE, for evaluations.py. `./test` runs it without any argument."""
import argparse, collections, os, random, sys

sys.dont_write_bytecode = True
HERE = os.path.dirname(os.path.abspath(__file__))
sys.path += [os.path.join(HERE, '..'), os.path.join(HERE, '..', '..', 'compare')]

import second_calls
from evaluations import save
from layout import text, tree
from merges import Merge, POOLS, ROWS
from second_calls import answer
from semantics import agree, evaluate, pairs as joined

HEADS = ['query\tselect\t-\t-\n', 'query\task\t<d>\t<b>\n']


class Without(Merge):
    """One input: two trees, pairs of positions, triples; no constants."""

    def __init__(self, rng, depth):
        super().__init__(rng, depth)
        self.head = rng.choice(HEADS)
        if rng.random() < 0.8: self.joins = self.alike() or self.joins

    def alike(self):
        """Some pairs of columns that have a term in common, no column twice."""
        terms = [[{row[c] for row in rows if c in row} for c in p[1]] for p, rows in zip(self.trees, self.single)]
        pairs = [(a, b) for a, left in enumerate(terms[0]) for b, right in enumerate(terms[1]) if left & right]
        found = []
        for a, b in self.rng.sample(pairs, len(pairs))[:self.rng.choice([1, 1, 2, 4])]:
            if all(a != c and b != d for c, d in found): found.append((a, b))
        return found

    def some_constants(self, columns, rows):
        return {}

    def input(self):
        pairs = ''.join(f'{a}\t{b}\n' for a, b in self.joins)
        return '--\n'.join([*(self.head + text(p) for p in self.trees), pairs]).encode()

    def matches(self, x, y):
        """A left and a right row, by position: some pair is bound alike, none is bound to two terms."""
        cells = [(x[a], y[b]) for a, b in self.joins]
        bound = [(a, b) for a, b in cells if '-' not in (a, b)]
        return bool(bound) and all(a == b for a, b in bound)

    def expected(self, left, right):
        """The rows that have to be there, with their counts."""
        return collections.Counter({x: n for x, n in left.items() if not any(self.matches(x, y) for y in right)})


def made(rng, count):
    """So many inputs with a pair, few with an empty side."""
    found = []
    while len(found) < count:
        case = Without(rng, 1 + len(found) % 4)
        pairs = len(case.single[0]) * len(case.single[1])
        if case.joins and pairs <= ROWS and (pairs > 0 or rng.random() < 0.1): found.append(case)
    return found


def by_columns(columns, rows):
    return collections.Counter(tuple(row.get(c, '-') for c in columns) for row in rows)


def by_definition(cases, written):
    """The answers to left, right and written trees, by semantics.py."""
    return [[by_columns(p[1], evaluate(case.triples, p)) for p in (*case.trees, q)] for case, q in zip(cases, written)]


def by_jena(cases, written, keep):
    """The same by Jena; an answer that it doesn't give is None."""
    from arq import answers
    variables = sorted(set().union(*POOLS, *(case.names(0) + case.names(1) for case in cases)))
    trees = [p for case, q in zip(cases, written) for p in (*case.trees, q)]
    graphs = [case.triples for case in cases for _ in range(3)]
    found = answers(list(zip(graphs, trees)), variables, 'ref')
    if keep:
        save(keep[1], [(p, g, f) for i, (p, g, f) in enumerate(zip(trees, graphs, found)) if i % 3 == 2 and not isinstance(f, str)], variables, int(keep[0]))
    cut = []
    for p, rows in zip(trees, found):
        if isinstance(rows, str): cut.append(None); continue
        places = [variables.index(c) for c in p[1]]
        cut.append(sum((collections.Counter({tuple(row[at] for at in places): n}) for row, n in rows.items()), collections.Counter()))
    return [cut[i:i + 3] for i in range(0, len(cut), 3)]


def merged_negation(store, left, right, joins):
    """The number of rows of the left query merged with the right one negated, by the tree that both calls write. Its filter asks whether a pattern has a
    row, which is no expression of semantics.py: that is evaluated here, for each row that the filter is asked of."""
    head = HEADS[0]
    negation = answer('negate', (head + text(right)).encode())
    merged = answer('merge_queries', b'--\n'.join([(head + text(left)).encode(), negation, joins, b'', b'']))
    kept, asked = second_calls.tree(merged.removeprefix(head.encode())).below[0].below
    over, condition = asked.below
    assert (asked.word, condition.word, condition.below[0].word) == (b'filter', b'not', b'exists'), merged
    rows, found = (evaluate(store, tree(node.text().decode())) for node in (over, condition.below[0].below[0]))
    passed = [row for row in rows if not any(agree(row, other) for other in found)]
    return sum(len(joined(None, row, passed)) for row in evaluate(store, tree(kept.text().decode())))


def negated():
    """Why it is no merged negation: two triples on which the two differ, and no store of fewer does, for these two queries. Events of relays; relays that
    tripped a breaker. The negation's filter asks whether any relay did; joined to the left rows it keeps all of them or none."""
    left = 'project', ['?event', '?relay'], ('bgp', [('?event', '<by>', '?relay')])
    right = 'project', ['?relay'], ('bgp', [('?relay', '<tripped>', '?breaker')])
    event, tripped, joins = ('<e>', '<by>', '<r1>'), ('<r2>', '<tripped>', '<b>'), b'1\t0\n'

    def both(store):
        head = HEADS[0]
        without = answer('without', b'--\n'.join([(head + text(left)).encode(), (head + text(right)).encode(), joins])).decode().removeprefix(head)
        return len(evaluate(store, tree(without))), merged_negation(store, left, right, joins)

    assert [both(store) for store in (set(), {event}, {tripped}, {event, tripped})] == [(0, 0), (1, 1), (0, 0), (1, 0)]


def main():
    ap = argparse.ArgumentParser()
    ap.add_argument('--cases', type=int, default=1000)
    ap.add_argument('--seed', type=int, default=1)
    ap.add_argument('--programs')
    ap.add_argument('--jena', action='store_true')
    ap.add_argument('--keep', nargs=2)
    a = ap.parse_args()
    cases = made(random.Random(a.seed), a.cases)
    inputs = [case.input() for case in cases]
    if a.programs:
        import sides
        said = sides.ours(a.programs).answers('without', inputs)
    else:
        said = [answer('without', given) for given in inputs]
    for case, given in zip(cases, said): assert given.decode().startswith(case.head), given
    written = [tree(given.decode().removeprefix(case.head)) for case, given in zip(cases, said)]
    found = by_jena(cases, written, a.keep) if a.jena else by_definition(cases, written)
    same = differ = failed = full = several = some = 0
    for case, p, (left, right, got) in zip(cases, written, found):
        if None in (left, right, got): failed += 1; continue
        want = case.expected(left, right)
        if got == want and list(p[1]) == case.names(0):
            same += 1; full += bool(got); several += max(got.values(), default=0) > 1; some += got.total() < left.total()
            continue
        differ += 1
        if differ <= 3: print(f'--- differ\n{case.input().decode()}->\n{text(p)}triples {sorted(case.triples)}\nwant {dict(want)}\ngot  {dict(got)}')
    negated()
    print(f'without, seed {a.seed}: {len(cases)} inputs, {same} same ({full} of them with rows, {several} with a row more than once, '
          f'{some} with a row less than on the left), {differ} differ, {failed} not answered')
    sys.exit(1 if differ or failed else 0)


if __name__ == '__main__':
    main()
