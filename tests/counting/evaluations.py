#!/usr/bin/env python3
"""evaluations.py [FILE]: replays recorded evaluations by Apache Jena's reference engine against semantics.py; Jena is not needed.

FILE, evaluations.txt beside this script if none is named, has a head, then the evaluations; a line ==== follows each. An evaluation
is a tree in the layout, a line --, the triples, a line ->, the columns, and for each row its count and its cells, `-`
for unbound. merges.py writes it. The one form in which Jena departs from section 18.5 (docs/COUNTING.md) is kept out."""
import collections, os, sys

sys.dont_write_bytecode = True

from layout import line, text, tree
from semantics import evaluate

FILE = os.path.join(os.path.dirname(os.path.abspath(__file__)), 'evaluations.txt')
SMALL = 500  # bytes of an evaluation that is kept


def words(p):
    """The words of a tree's operators and expressions, each with the one above it."""
    return {(p[0], q[0]) for q in p[1:] if isinstance(q, tuple)}.union({p[0]}, *(words(q) for q in p[1:] if isinstance(q, tuple)))


def features(p, rows):
    """What an evaluation shows: its words, a row more than once, an unbound cell."""
    return words(p) | {(w, 'more than once') for w in words(p) if max(rows.values(), default=0) > 1} \
        | {(w, 'unbound') for w in words(p) if any('-' in row for row in rows)}


def cut(p, rows, variables):
    """The columns of a project, and its rows cut to them."""
    columns = [v for v in variables if v in p[1]]
    places = [variables.index(v) for v in columns]
    return columns, collections.Counter({tuple(row[at] for at in places): n for row, n in rows.items()})


def evaluation(p, triples, rows, variables):
    columns, rows = cut(p, rows, variables)
    return text(p) + '--\n' + ''.join(line(*t) for t in sorted(triples)) + '->\n' + line(*columns) \
        + ''.join(line(str(n), *row) for row, n in sorted(rows.items()))


def save(file, found, variables, count):
    """Writes so many small evaluations, chosen so that rare features are frequent."""
    left, seen, chosen = {}, collections.Counter(), []
    for p, triples, rows in found:
        written = evaluation(p, triples, rows, variables)
        if len(written) <= SMALL: left[written] = features(p, cut(p, rows, variables)[1])
    while left and len(chosen) < count:
        best = max(left, key=lambda w: sum(1000000 // (1 + seen[f]) ** 2 for f in left[w]))
        seen.update(left.pop(best))
        chosen.append(best)
    head = f"{len(chosen)} trees of the counting part, evaluated by Apache Jena ARQ's reference engine. Layout: evaluations.py.\n"
    open(file, 'w').write(head + '====\n' + ''.join(w + '====\n' for w in sorted(chosen, key=lambda w: (len(w), w))))


def load(file):
    """Each evaluation as tree, triples, columns and rows with their counts."""
    parts = open(file).read().split('\n====\n')
    assert parts.pop() == ''
    for part in parts[1:]:
        given, rows = part.split('\n->\n')
        written, triples = (given + '\n').split('\n--\n')
        columns, *rows = (row.split('\t') if row else [] for row in rows.split('\n'))
        triples = {tuple(t.split('\t')) for t in triples.split('\n')[:-1]}
        yield tree(written + '\n'), triples, columns, collections.Counter({tuple(cells): int(n) for n, *cells in rows})


def main():
    cases = list(load(sys.argv[1] if len(sys.argv) > 1 else FILE))
    differ = 0
    for p, triples, columns, rows in cases:
        ours = collections.Counter(tuple(row.get(v, '-') for v in columns) for row in evaluate(triples, p))
        if ours != rows:
            differ += 1
            print(f'--- differ\n{text(p)}triples {sorted(triples)}\nours   {dict(ours)}\nJena   {dict(rows)}')
    print(f'recorded evaluations: {len(cases)}, {differ} differ')
    sys.exit(1 if differ or not cases else 0)


if __name__ == '__main__':
    main()
