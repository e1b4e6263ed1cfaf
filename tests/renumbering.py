#!/usr/bin/env python3
"""Holds compare/renumbering.py to answers whose constants' columns stand in another order: the Rust's may, ours may not."""

import itertools
import pathlib
import sys

sys.path.insert(0, str(pathlib.Path(__file__).resolve().parent.parent / "compare"))

import renumbering  # noqa: E402

HEAD = b"query\tselect\t-\t-\n"
TREE = b"project\t?a\t?b\t?c\nbgp\t0\n"
NAMES = renumbering.renamed(b"in\t?a\t?b\t?c\nhid\n")
LIST = b"2\t<m>\n0\t<k>\n1\t<l>\n"
TERMS = [b"<k>", b"<l>", b"<m>"]


def side(prefix, order):
    """A side with its constants in this order of their columns."""
    columns = b"\t".join(b"?%s%d" % (prefix, column) for column in order)
    row = b"\t".join(TERMS[column] for column in order)
    return b"join\nbgp\t0\nvalues\t3\t1\ncols\t%s\nrow\t%s\n" % (columns, row)


def push(order, _):
    return HEAD + b"project\n" + side(b"v", order)


def merge(left, right):
    return b"project\njoin\n" + side(b"l", left) + side(b"r", right)


CASES = [("push", b"--\n".join([HEAD + TREE, LIST]), push), ("merge", b"--\n".join([TREE, TREE, b"", LIST, LIST]), merge)]
orders = list(itertools.permutations(range(3)))
wrong = 0
for program, case, answer in CASES:
    for ours in itertools.product(orders, orders):
        for theirs in itertools.product(orders, orders):
            told = renumbering.renumbered(program, case, [NAMES, NAMES], answer(*ours), answer(*theirs))
            rising = answer(*ours) == answer(orders[0], orders[0])
            if told != rising:
                wrong += 1
                print(f"{program}: ours {ours}, the Rust's {theirs}: {'taken' if told else 'not taken'} for the same")
print(f"renumbering: {len(CASES)} calls, constants in every order, {wrong} told wrong")
sys.exit(wrong > 0)
