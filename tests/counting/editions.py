#!/usr/bin/env python3
"""editions.py PROGRAMS_FOLDER [--queries N] [--merges N] [--seed S] [--keep N FILE]: query texts of both editions of SPARQL, from outside.

Makes random queries, most of them of the kinds that an edition can say, and lets the product's program write their texts. Apache Jena's
parser reads each text in that edition's syntax; its algebra is held against the tree's, both printed by Jena, joins with the empty pattern
dropped. What is refused has to be refused by second_calls.py too, and is counted by number and line.

Then the whole way: random merges that meet demand 3's premises, as merges.py makes them, of queries; the merged query and the two
single ones are written as SPARQL 1.1, Jena reads and evaluates the three texts over random triples, and the merged answer is held against
demand 3's sum over the two single answers.

--keep writes N of the texts that Jena read to FILE, which make_vectors.py replays. The gate does not run this script."""
import argparse, collections, os, random, re, sys

sys.dont_write_bytecode = True
HERE = os.path.dirname(os.path.abspath(__file__))
sys.path += [os.path.join(HERE, '..'), os.path.join(HERE, '..', '..', 'compare')]

import sides
from arq import counted, run
from layout import text
from merges import Merge, ROWS
from queries import Queries
from second_calls import answer, nodes, records, split_head
from second_sparql import refused_line

HEAD = b'query\tselect\t-\t-\n'


# ---- the tree's algebra in ARQ's own syntax

def expression(e):
    word = e.word.decode()
    if word == 'term': return e.fields[1].decode()
    if word == 'bound': return f'(bound {e.fields[1].decode()})'
    if word == 'exists': return f'(exists {algebra(e.below[0])})'
    name = {'or': '||', 'and': '&&', 'eq': '=', 'same': 'sameTerm', 'not': '!'}[word]
    return f"({name} {' '.join(map(expression, e.below))})"


def algebra(p):
    word, fields, below = p.word.decode(), [f.decode() for f in p.fields], p.below
    if word == 'bgp': return '(bgp' + ''.join(f" (triple {' '.join(t.fields[i].decode() for i in (1, 2, 3))})" for t in below) + ')'
    if word in ('join', 'union', 'minus', 'distinct', 'reduced'): return f"({word} {' '.join(map(algebra, below))})"
    if word == 'leftjoin': return f"(leftjoin {algebra(below[0])} {algebra(below[1])}{''.join(' ' + expression(e) for e in below[2:])})"
    if word == 'filter': return f'(filter {expression(below[1])} {algebra(below[0])})'
    if word == 'graph': return f'(graph {fields[1]} {algebra(below[0])})'
    if word == 'extend': return f'(extend (({fields[1]} {expression(below[1])})) {algebra(below[0])})'
    if word == 'project': return f"(project ({' '.join(fields[1:])}) {algebra(below[0])})"
    if word == 'slice': return f"(slice {fields[1]} {'_' if fields[2] == '-' else fields[2]} {algebra(below[0])})"
    if word == 'orderby': return f"(order ({' '.join(f'({line.word.decode()} {expression(line.below[0])})' for line in below[1:])}) {algebra(below[0])})"
    names = [f.decode() for f in below[0].fields[1:]]
    rows = ' '.join('(row ' + ' '.join(f'({c} {x.decode()})' for c, x in zip(names, row.fields[1:]) if x != b'-') + ')' for row in below[1:])
    return f"(table (vars {' '.join(names)}) {rows})"


# ---- two lines of algebra as one form

TOKEN = re.compile(r'"(?:[^"\\]|\\.)*"(?:@[\w-]+|\^\^(?:<[^>]*>|[^\s()\[\]]+))?|<[^>]*>|[()\[\]]|[^\s()\[\]]+')


def parsed(line):
    stack = [[]]
    for token in TOKEN.findall(line):
        if token in '([': stack.append([])
        elif token in ')]': stack[-2].append(tuple(stack.pop()))
        else: stack[-1].append(token)
    assert len(stack) == 1 and len(stack[0]) == 1, line
    return stack[0][0]


def plain(x, of_text):
    """Without joins with the empty pattern; filters and extends one by one. A group without elements is `(table unit)` for Jena's translation of a text;
    its reader of algebra makes that of a table of one row without cells."""
    if isinstance(x, str): return x
    x = tuple(plain(y, of_text) for y in x)
    if x == (('table', 'unit') if of_text else ('bgp',)): return 'Z'
    if x == ('table', 'unit') or x[:1] == ('table',) and x[2:] == (('row',),): return 'a row without cells'
    if x[:1] == ('join',):
        return x[2] if x[1] == 'Z' else x[1] if x[2] == 'Z' else x
    if x[:1] == ('filter',):
        inner = x[2]
        for e in x[1][1:] if x[1][0] == 'exprlist' else x[1:2]: inner = ('filter', e, inner)
        return inner
    if x[:1] == ('extend',):
        inner = x[2]
        for pair in x[1]: inner = ('extend', (pair,), inner)
        return inner
    return x


def read_back(cases):
    """Jena's algebra of each (edition, text, tree), and the tree's."""
    given = ''.join(f'algebra {edition}\n{said}\n{algebra(root)}\n' for edition, said, root in cases)
    lines = iter(run('Sparql', [], given).split('\n'))
    for case in cases:
        first = next(lines)
        yield case, first, first if first.startswith('failed') else next(lines)


# ---- the whole way

class Asked(Merge):
    """A merge of two select queries."""

    def input(self):
        parts = super().input().split(b'--\n')
        return b'--\n'.join([HEAD + parts[0], HEAD + parts[1], *parts[2:]])

    def queries(self):
        return [HEAD + text(p).encode() for p in self.trees]


def whole_way(ours, seed, count):
    rng, merges = random.Random(seed), []
    while len(merges) < count:
        merge = Asked(rng, 1 + len(merges) % 4)
        pairs = len(merge.single[0]) * len(merge.single[1])
        if pairs <= ROWS and (pairs > 0 or rng.random() < 0.1): merges.append(merge)
    merged = ours.answers('merge_queries', [m.input() for m in merges])
    queries = [q for m, both in zip(merges, merged) for q in (*m.queries(), both)]
    texts = [t.decode() for t in ours.answers('sparql_1_1', queries)]
    spoken = [all(t.startswith('SELECT') for t in texts[3 * i:3 * i + 3]) for i in range(len(merges))]
    kept = [(m, texts[3 * i:3 * i + 3]) for i, m in enumerate(merges) if spoken[i]]
    variables = [sorted({*m.trees[0][1], *m.trees[1][1], *m.columns()}) for m, _ in kept]
    given = ''
    for (m, three), names in zip(kept, variables):
        triples = ' '.join(' '.join(t) + ' .' for t in sorted(m.triples))
        given += ''.join(f"rows {' '.join(c[1:] for c in names)}\n{triples}\n{said}\n" for said in three)
    lines = iter(run('Sparql', [], given).split('\n'))
    same = differ = full = 0
    for (m, _), names in zip(kept, variables):
        left, right, both = counted(lines), counted(lines), counted(lines)
        assert not any(isinstance(x, str) for x in (left, right, both)), (left, right, both)
        got, want = collections.Counter(), m.expected(left, right, names)
        for row, n in both.items(): got[tuple(row[names.index(c)] for c in m.columns())] += n
        if got == want: same += 1; full += bool(got); continue
        differ += 1
        if differ <= 3: print(f'--- differ\n{m.input().decode()}want {dict(want)}\ngot  {dict(got)}')
    print(f'merges: {len(merges)}, {len(kept)} written as SPARQL 1.1, {same} same ({full} of them with rows), {differ} differ')
    return differ


def main():
    ap = argparse.ArgumentParser()
    ap.add_argument('programs')
    ap.add_argument('--queries', type=int, default=2000)
    ap.add_argument('--merges', type=int, default=500)
    ap.add_argument('--seed', type=int, default=1)
    ap.add_argument('--keep', nargs=2)
    a = ap.parse_args()
    rng, ours = random.Random(a.seed), sides.ours(a.programs)
    bad, kept = 0, []
    for call, edition in (('sparql_1_1', '1.1'), ('sparql_1_0', '1.0')):
        queries = [Queries(rng, edition == '1.1', rng.choice([0, 0, 0, 0.02, 0.1])).query() for _ in range(a.queries)]
        said = ours.answers(call, queries)
        numbers = collections.Counter(t.decode()[:-1] if t.startswith(b'refused') else 'written' for t in said)
        other = [(q, t) for q, t in zip(queries, said) if answer(call, q) != t]
        for q, t in other[:3]: print(f'--- second_calls.py differs\n{q.decode()}{t}\n{answer(call, q)}')
        cases = [(edition, t.decode(), nodes(records(q))[1], q) for q, t in zip(queries, said) if not t.startswith(b'refused')]
        same = differ = 0
        for case, first, second in read_back([c[:3] for c in cases]):
            if not first.startswith('failed') and plain(parsed(first), True) == plain(parsed(second), False): same += 1; continue
            differ += 1
            if differ <= 3: print(f'--- differ\n{case[1]}\nJena {first}\ntree {second}')
        bad += differ + len(other)
        kept += [(call, q, t.encode()) for _, t, _, q in cases]
        words = collections.Counter('%d %s' % (n, w.decode()) for n, w in (refused_line(*split_head(q), edition == '1.1') for q in queries) if n)
        print(f'{call}, seed {a.seed}: {len(queries)} queries, {dict(sorted(numbers.items()))}; read by Jena: {same} same, {differ} differ; '
              f'{len(other)} differ from second_calls.py; refused at: {dict(sorted(words.items()))}')
    if a.merges: bad += whole_way(ours, a.seed, a.merges)
    if a.keep:
        with open(a.keep[1], 'wb') as file:
            for call, q, t in random.Random(a.seed).sample(kept, int(a.keep[0])): file.write(b'%s %d\n%s%s\n' % (call.encode(), q.count(b'\n'), q, t))
    sys.exit(bool(bad))


if __name__ == '__main__':
    main()
