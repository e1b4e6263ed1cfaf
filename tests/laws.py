#!/usr/bin/env python3
"""The laws of crates/laws from outside, over random inputs.

    python3 -B tests/laws.py [SEED]

Renaming by one mapping and then by another is held to renaming by their composition, byte for byte: the composed list as
docs/SPECIFICATION.md, "Renaming twice", has it, and the same in another order, without lines that change nothing. Merges
of trees and of queries are made both ways, and the rows of the two answers, each cell read by its column's side and
position, have to have the same counts. After a push each row has to have the count that "Counts after a push" of
docs/SPECIFICATION.md says. The calls are second_calls.py's, the counts those of counting/semantics.py. Last come the two
inputs of docs/DECISIONS.md that show why a premise stands.
"""
import collections
import os
import random
import sys

import random_texts
from second_calls import answer
from second_reader import number

HERE = os.path.dirname(os.path.abspath(__file__))
sys.path.append(os.path.join(HERE, "counting"))

from layout import text, tree
from merges import made
from semantics import evaluate

RENAMES, MERGES, PUSHES = 3000, 400, 600
HEADS = [b"query\tselect\t-\t-\n", b"query\task\t<d>\t<b>\n"]
NAMES = [b"?x", b"?y", b"?z", b"?s", b"?xLabel", b"?sLabel", b"?Label", b"?v0", b"?l1", b"?new"]


def lines(rows):
    return b"".join(b"\t".join(row) + b"\n" for row in rows)


def call(name, *texts):
    return answer(name, b"--\n".join(texts))


# Renaming twice

def mapping(rng):
    return [(name, rng.choice(NAMES)) for name in rng.sample(NAMES, rng.randrange(1, 9))]


def composed(first, second):
    """The first list's lines, taken through the second; then the second's for names that the first doesn't list."""
    onward, known = dict(second), dict(first)
    return [(name, onward.get(to, to)) for name, to in first] + [line for line in second if line[0] not in known]


def without_idle_lines(rng, pairs):
    kept = [pair for pair in pairs if pair[0] != pair[1]]
    return rng.sample(kept, len(kept))


def renamed_twice(rng):
    """Whether the mappings of a random tree change it both times; None where the law says nothing."""
    start = lines(random_texts.Maker(rng).tree(6))
    first, second = mapping(rng), mapping(rng)
    middle = call("rename", start, lines(first))
    if number("tree", start) or number("tree", middle):
        return None
    last = call("rename", middle, lines(second))
    both = composed(first, second)
    for third in (both, without_idle_lines(rng, both)):
        assert call("rename", start, lines(third)) == last, (start, first, second, third)
    return middle != start and last != middle


def renames(rng):
    found = [renamed_twice(rng) for _ in range(RENAMES)]
    return sum(each is not None for each in found), sum(each is True for each in found)


# A merge with its sides swapped

def both_or_neither(merge):
    """Constants of which one stands on one half of a join pair only get their other half."""
    left, right = merge.constants
    for a, b in merge.joins:
        if a in left or b in right:
            left.setdefault(a, right.get(b))
            right.setdefault(b, left[a])


def shown(merge, left, right):
    """Each column of the merge by its side and position; a join column by its left one. Sides 0, 1, or 1, 0 for the swapped merge."""
    joined = {pair[right]: pair for pair in merge.joins}
    first = [position for position in range(len(merge.trees[left][1])) if position not in merge.constants[left]]
    second = [position for position in range(len(merge.trees[right][1]))
              if position not in merge.constants[right] and position not in joined]
    sides = [(left, position) for position in first] + [(right, position) for position in second]
    partner = {(1, b): (0, a) for a, b in merge.joins}
    return [partner.get(place, place) for place in sides]


def counts(merge, written, places):
    """The rows of a written tree's answer, their cells by side and position, with their counts."""
    root = tree(written.decode())
    assert len(root[1]) == len(places), (root[1], places)
    rows = evaluate(merge.triples, root)
    return collections.Counter(frozenset((place, row[name]) for place, name in zip(places, root[1]) if name in row) for row in rows)


def texts(merge, left, right, head=b""):
    pairs = [(b"%d" % pair[left], b"%d" % pair[right]) for pair in merge.joins]
    fixed = [lines((b"%d" % position, term.encode()) for position, term in merge.constants[side].items()) for side in (left, right)]
    return [head + text(merge.trees[left]).encode(), head + text(merge.trees[right]).encode(), lines(pairs), *fixed]


def swapped(rng, merge):
    """The counts of a merge, the same both ways, for trees and for queries."""
    head = rng.choice(HEADS)
    found = []
    for sides in ((0, 1), (1, 0)):
        written = call("merge", *texts(merge, *sides))
        assert call("merge_queries", *texts(merge, *sides, head)) == head + written, written
        found.append(counts(merge, written, shown(merge, *sides)))
    assert found[0] == found[1], (texts(merge, 0, 1), found)
    return found[0]


def swaps(rng):
    tried = made(rng, MERGES)
    for merge in tried:
        both_or_neither(merge)
    found = [swapped(rng, merge) for merge in tried]
    held = sum(any(a in merge.constants[0] for a, _ in merge.joins) for merge in tried)
    return len(found), sum(map(bool, found)), sum(max(each.values(), default=0) > 1 for each in found), held


# Rows after a push

def pushed_counts(columns, rows, constants):
    """The rows of an answer that agree with the constants wherever they are bound, cut to the remaining columns, with their counts."""
    found = collections.Counter()
    for row in rows:
        if all(row.get(columns[position], term) == term for position, term in constants.items()):
            found[frozenset((i, row[name]) for i, name in enumerate(columns) if i not in constants and name in row)] += 1
    return found


def pushed(rng, merge, side):
    """The counts of a side's tree after a push of its constants, which are those that the rule says."""
    root, constants, head = merge.trees[side], merge.constants[side], rng.choice(HEADS)
    listed = rng.sample(sorted(constants.items()), len(constants))
    written = call("push", head + text(root).encode(), lines((b"%d" % position, term.encode()) for position, term in listed))
    assert written.startswith(head), written
    after = tree(written[len(head):].decode())
    free = [i for i in range(len(root[1])) if i not in constants]
    assert after[1] == ["?v%d" % i for i in free], (root, constants, after)
    found = collections.Counter(frozenset((i, row["?v%d" % i]) for i in free if "?v%d" % i in row) for row in evaluate(merge.triples, after))
    assert found == pushed_counts(root[1], merge.single[side], constants), (text(root), constants, merge.triples)
    return found


def pushes(rng):
    tried = [(merge, side) for merge in made(rng, PUSHES // 2) for side in (0, 1)]
    found = [pushed(rng, *each) for each in tried]
    held = [merge.constants[side] for merge, side in tried]
    unbound = sum(any(merge.trees[side][1][i] not in row for row in merge.single[side] for i in merge.constants[side]) for merge, side in tried)
    return len(found), sum(map(bool, held)), sum(map(bool, found)), sum(max(each.values(), default=0) > 1 for each in found), unbound


# Why a premise stands

def too_many_names():
    """A service's name stays, so of 1,024 variables a renaming can make 1,025: the middle text is over its bound."""
    names = [b"?a"] + [b"?%d" % i for i in range(1023)]
    start = lines([[b"service", b"?a", b"0"], [b"values", b"1024", b"0"], [b"cols", *names]])
    middle = call("rename", start, b"?a\t?b\n")
    assert (number("tree", start), number("tree", middle)) == (0, 2)
    assert call("rename", middle, b"?b\t?c\n") == b"refused\t2\n"
    assert call("rename", start, lines(composed([(b"?a", b"?b")], [(b"?b", b"?c")]))) == middle.replace(b"\t?b\t", b"\t?c\t")


def one_half():
    """A constant on one half of a join pair only: the join column is gone one way, and stands the other way."""
    left, right, pair, constant = b"project\t?a\nbgp\t0\n", b"project\t?b\nbgp\t0\n", b"0\t0\n", b"0\t<k>\n"
    assert call("merge", left, right, pair, constant, b"").startswith(b"project\njoin\n")
    assert call("merge", right, left, pair, b"", constant).startswith(b"project\t?j0\njoin\n")


def main():
    seed = int(sys.argv[1]) if len(sys.argv) > 1 else 1
    rng = random.Random(seed)
    print("laws, seed %d: %d trees renamed twice and by the composed list, %d of them changed by both; " % (seed, *renames(rng)), end="")
    print("%d merges with their sides swapped, %d with rows, %d with a row more than once, %d with constants on a join pair; " % swaps(rng), end="")
    print("%d pushes, %d with constants, %d with rows, %d with a row more than once, %d with a constant's column unbound in a row" % pushes(rng))
    too_many_names()
    one_half()


if __name__ == "__main__":
    main()
