#!/usr/bin/env python3
"""compare.py [--trees N] [--seed S] [--engine ref|main|rdflib]: random trees of the counting part, over random triples, evaluated by
semantics.py (the definitions of crates/counting, transcribed) and by an independent SPARQL engine, compared as rows with their counts.

ref and main are Apache Jena ARQ's reference engine and its usual one, given the algebra itself (arq.py). rdflib is given query text:
every pattern in braces of its own, an inner project as a subselect; it does not hand out a row that binds nothing, so these are left out.
The trees meet demand 3's premises on extend and values. The gate does not run this script; docs/COUNTING.md has a record."""
import argparse, collections, random, sys
from semantics import evaluate, in_scope, is_var

VARS = ['?a', '?b', '?c', '?d']
TERMS = ['<http://x/1>', '<http://x/2>', '"u"', '"v"']
NODES = TERMS[:2]


class Maker:
    def __init__(self, rng, names=VARS):
        self.rng, self.names = rng, names

    def term(self):
        return self.rng.choice(self.names if self.rng.random() < 0.6 else TERMS)

    def node(self, rate):
        return self.rng.choice(self.names) if self.rng.random() < rate else self.rng.choice(NODES)

    def triple(self):
        o = self.rng.choice(self.names) if self.rng.random() < 0.6 else self.rng.choice(TERMS)
        return (self.node(0.7), self.node(0.3), o)

    def expression(self, depth):
        k = self.rng.choice(['bound', 'same', 'same', 'and', 'or', 'not'] if depth else ['bound', 'same'])
        if k == 'bound': return (k, self.rng.choice(self.names))
        if k == 'same': return (k, self.term(), self.term())
        if k == 'not': return (k, self.expression(depth - 1))
        return (k, self.expression(depth - 1), self.expression(depth - 1))

    def leaf(self):
        if self.rng.random() < 0.7:
            return ('bgp', [self.triple() for _ in range(self.rng.choice([0, 1, 1, 1, 2]))])
        cols = self.rng.sample(self.names, self.rng.choice([1, 1, 2]))
        return ('values', cols, [[self.rng.choice(TERMS + ['-']) for _ in cols] for _ in range(self.rng.choice([0, 1, 2, 3]))])

    def tree(self, depth):
        if depth == 0: return self.leaf()
        k = self.rng.choice(['join', 'join', 'leftjoin', 'leftjoin', 'filter', 'filter', 'union', 'minus', 'extend', 'project', 'distinct', 'leaf'])
        if k == 'leaf': return self.leaf()
        p = self.tree(depth - 1)
        if k in ('join', 'union', 'minus'): return (k, p, self.tree(depth - 1))
        if k == 'leftjoin': return (k, p, self.tree(depth - 1), self.expression(2) if self.rng.random() < 0.5 else None)
        if k == 'filter': return (k, p, self.expression(2))
        if k == 'extend':
            fresh = [v for v in self.names if v not in in_scope(p)]
            return (k, self.rng.choice(fresh), p, self.term()) if fresh else p
        cols = self.rng.sample(self.names, self.rng.choice([1, 2, 3]))
        return ('project', cols, p) if k == 'project' else ('distinct', ('project', cols, p))

    def triples(self):
        n = self.rng.choice([0, 2, 4, 6])
        return {(self.rng.choice(NODES), self.rng.choice(NODES), self.rng.choice(TERMS)) for _ in range(n)}


def expression_text(e):
    k = e[0]
    if k == 'bound': return f'bound({e[1]})'
    if k == 'same': return f'sameTerm({e[1]}, {e[2]})'
    if k == 'not': return f'(! {expression_text(e[1])})'
    return f"({expression_text(e[1])} {'&&' if k == 'and' else '||'} {expression_text(e[2])})"


def group(p):
    """The text between the braces of a group whose algebra is p."""
    k = p[0]
    if k == 'bgp': return ' '.join(' '.join(t) + ' .' for t in p[1])
    if k == 'join': return f'{{ {group(p[1])} }} {{ {group(p[2])} }}'
    if k == 'leftjoin':
        e = '' if p[3] is None else f' FILTER ({expression_text(p[3])})'
        return f'{{ {group(p[1])} }} OPTIONAL {{ {{ {group(p[2])} }}{e} }}'
    if k == 'filter': return f'{{ {group(p[1])} }} FILTER ({expression_text(p[2])})'
    if k == 'union': return f'{{ {group(p[1])} }} UNION {{ {group(p[2])} }}'
    if k == 'minus': return f'{{ {group(p[1])} }} MINUS {{ {group(p[2])} }}'
    if k == 'extend': return f'{{ {group(p[2])} }} BIND ({p[3]} AS {p[1]})'
    if k == 'values':
        lines = ' '.join('(' + ' '.join('UNDEF' if x == '-' else x for x in xs) + ')' for xs in p[2])
        return f"VALUES ({' '.join(p[1])}) {{ {lines} }}"
    if k == 'project': return f"SELECT {' '.join(p[1])} WHERE {{ {group(p[2])} }}"
    if k == 'distinct': return 'SELECT DISTINCT' + group(p[1])[len('SELECT'):]


def query(p):
    return f"SELECT {' '.join(VARS)} WHERE {{ {group(p)} }}"


def bag(rows):
    return collections.Counter(tuple(r.get(v, '-') for v in VARS) for r in rows)


def bound(rows):
    return {r: n for r, n in rows.items() if set(r) != {'-'}}


def by_rdflib(triples, text):
    import rdflib
    g = rdflib.Graph()
    def term(x): return rdflib.URIRef(x[1:-1]) if x.startswith('<') else rdflib.Literal(x[1:-1])
    for t in triples: g.add(tuple(term(x) for x in t))
    return collections.Counter(tuple('-' if x is None else x.n3() for x in row) for row in g.query(text))


def main():
    ap = argparse.ArgumentParser()
    ap.add_argument('--trees', type=int, default=1000)
    ap.add_argument('--seed', type=int, default=1)
    ap.add_argument('--depth', type=int, default=3)
    ap.add_argument('--engine', choices=['ref', 'main', 'rdflib'], default='ref')
    ap.add_argument('--show', type=int, default=5)
    a = ap.parse_args()
    make = Maker(random.Random(a.seed))
    cases = []
    for n in range(a.trees):
        tree, triples = make.tree(1 + n % a.depth), make.triples()
        cases.append((tree, triples, query(tree), bag(evaluate(triples, tree))))
    if a.engine != 'rdflib':
        from arq import answers
        theirs = answers([(t, p) for p, t, _, _ in cases], VARS, a.engine)
    else:
        def one(t, q):
            try: return by_rdflib(t, q)
            except Exception as x: return f'{type(x).__name__}: {x}'
        theirs = [one(t, q) for _, t, q, _ in cases]
    same = differ = failed = full = 0
    for (tree, triples, text, ours), other in zip(cases, theirs):
        if isinstance(other, str): failed += 1; kind = 'engine failed: ' + other
        elif ours == other or (a.engine == 'rdflib' and bound(ours) == bound(other)): same += 1; full += bool(ours); continue
        else: differ += 1; kind = 'differ'
        if differ + failed <= a.show:
            print(f'--- {kind}\ntree    {tree}\ntriples {sorted(triples)}\nquery   {text}\nours    {dict(ours)}')
            if not isinstance(other, str): print(f'theirs  {dict(other)}')
    print(f'engine {a.engine}, seed {a.seed}: {len(cases)} trees, {same} same ({full} of them with rows), {differ} differ, {failed} not answered')
    sys.exit(1 if differ else 0)


if __name__ == '__main__':
    main()
