#!/usr/bin/env python3
"""pushes.py --programs FOLDER [--cases N] [--seed S]: rows after a push, by another engine.

Makes random trees with constants, as merges.py makes a merge's left side, in queries of two heads. The product's program in FOLDER writes the
pushed tree; Apache Jena's reference engine (arq.py) evaluates both trees over random triples. From its answer before the rows are computed
that have to be there, by the rule that tests/laws.py has. It is run by hand."""
import argparse, collections, os, random, sys

sys.dont_write_bytecode = True
HERE = os.path.dirname(os.path.abspath(__file__))
sys.path += [os.path.join(HERE, '..'), os.path.join(HERE, '..', '..', 'compare')]

import sides
from arq import answers
from laws import HEADS, pushed_counts
from layout import text, tree
from merges import POOLS, made


def given(rng, merge):
    """The head and the input of a push into a merge's left tree, the constants in any order."""
    head, constants = rng.choice(HEADS), merge.constants[0]
    listed = rng.sample(sorted(constants.items()), len(constants))
    return head, head + text(merge.trees[0]).encode() + b'--\n' + ''.join(f'{i}\t{t}\n' for i, t in listed).encode()


def rows_of(columns, found, variables):
    """An answer's rows as dictionaries, each as often as it is there."""
    at = {c: variables.index(c) for c in columns}
    return [{c: row[at[c]] for c in columns if row[at[c]] != '-'} for row, n in found.items() for _ in range(n)]


def main():
    ap = argparse.ArgumentParser()
    ap.add_argument('--cases', type=int, default=2000)
    ap.add_argument('--seed', type=int, default=1)
    ap.add_argument('--programs', required=True)
    a = ap.parse_args()
    rng = random.Random(a.seed)
    cases = made(rng, a.cases)
    heads, inputs = zip(*[given(rng, case) for case in cases])
    said = sides.ours(a.programs).answers('push', inputs)
    for head, each in zip(heads, said): assert each.startswith(head), each
    written = [tree(each[len(head):].decode()) for head, each in zip(heads, said)]
    variables = sorted(set().union(*POOLS, *(p[1] for case in cases for p in case.trees), *(q[1] for q in written)))
    variables = sorted(set(variables) | {'?v%d' % i for i in range(64)})
    trees = [p for case, q in zip(cases, written) for p in (case.trees[0], q)]
    found = answers(list(zip([case.triples for case in cases for _ in range(2)], trees)), variables, 'ref')
    same = differ = failed = full = several = held = 0
    for n, (case, q) in enumerate(zip(cases, written)):
        before, after = found[2 * n], found[2 * n + 1]
        if isinstance(before, str) or isinstance(after, str): failed += 1; continue
        root, constants = case.trees[0], case.constants[0]
        free = [i for i in range(len(root[1])) if i not in constants]
        want = pushed_counts(root[1], rows_of(root[1], before, variables), constants)
        got = collections.Counter(frozenset((i, row['?v%d' % i]) for i in free if '?v%d' % i in row) for row in rows_of(q[1], after, variables))
        if got == want and list(q[1]) == ['?v%d' % i for i in free]:
            same += 1; full += bool(got); several += max(got.values(), default=0) > 1; held += bool(constants)
            continue
        differ += 1
        if differ <= 3: print(f'--- differ\n{inputs[n].decode()}->\n{text(q)}triples {sorted(case.triples)}\nwant {dict(want)}\ngot  {dict(got)}')
    print(f'push, seed {a.seed}: {len(cases)} inputs, {same} same ({held} of them with constants, {full} with rows, {several} with a row more than once), '
          f'{differ} differ, {failed} not answered')
    sys.exit(1 if differ or failed else 0)


if __name__ == '__main__':
    main()
