"""Answers of nemo's Rust with its own sets beside ours: the same up to a bijection of generated numbers.

What a text has at generated names is its numbers; all else is its shape. The numbers behind `j` come from the join list and
have to be the same. The Rust has constants' columns in the order of a hash map, so its columns are put by rising position; ours
are taken as they stand.
"""

import itertools
import re

import inputs
import refusals
import trees


def generated(field):
    """The prefix and number, and the suffix, of a generated name; None if it is none."""
    match = re.fullmatch(rb"\?([jlrv])(0|[1-9][0-9]*)(Label)?", field)
    return ((match[1], match[2]), match[3]) if match else (None, field)


def renamed(scope):
    """The names that standardize_variables has in its mapping, from an answer of `scope`."""
    bases = {name.removesuffix(b"Label") for fields in trees.records(scope) for name in fields[1:]}
    return bases | {base + b"Label" for base in bases}


class Shape:
    """The shape of an answer and its generated numbers, taken line by line; `rust` tells whose answer it is."""

    def __init__(self, text, rust=False):
        self.lines, self.rust = iter(trees.records(text)), rust
        self.fixed, self.numbers = [], []

    def name(self, field):
        number, suffix = generated(field)
        self.numbers.append(number)
        self.fixed.append(suffix)

    def line(self):
        """A line without generated names."""
        self.fixed.append(next(self.lines, None))

    def project(self):
        word, *columns = next(self.lines, [None])
        self.fixed.append([word, len(columns)])
        for column in columns:
            self.name(column)

    def pattern(self, lines, names):
        """The lines of a pattern whose names of the mapping have been renamed."""
        for before in lines:
            after = next(self.lines, [])
            slots = [] if before[0] == b"service" else trees.places(before)
            self.fixed.append(len(after))
            for slot, field in enumerate(after):
                if slot in slots and before[slot] in names:
                    self.name(field)
                else:
                    self.fixed.append(field)

    def bound(self, lines, names, constants):
        """A pattern, joined with its constants if there are any."""
        if not constants:
            return self.pattern(lines, names)
        self.line()
        self.pattern(lines, names)
        self.line()
        columns, row = next(self.lines, []), next(self.lines, [])
        self.fixed.append([len(columns), len(row)])
        pairs = list(zip(columns[1:], row[1:]))
        if self.rust:
            positions = {term: int(position) for position, term in trees.records(constants)}
            pairs.sort(key=lambda pair: positions.get(pair[1], -1))
        for column, term in pairs:
            self.name(column)
            self.fixed.append(term)

    def end(self):
        self.fixed.append(list(self.lines))


def shape_of_tree(text, tree, names):
    """Of a tree that was renamed as a whole."""
    shape = Shape(text)
    shape.pattern(trees.records(tree), names)
    shape.end()
    return shape


def shape_of_merge(text, texts, names, rust):
    """Of two merged trees."""
    shape = Shape(text, rust)
    shape.project()
    shape.line()
    for tree, own, constants in zip(texts[:2], names, texts[3:]):
        shape.bound(trees.records(tree)[1:], own, constants)
    shape.end()
    return shape


def shape_of_push(text, tree, names, constants, rust):
    """Of a tree with pushed constants."""
    shape = Shape(text, rust)
    shape.project()
    shape.bound(trees.records(tree)[1:], names, constants)
    shape.end()
    return shape


def same(ours, theirs):
    """Whether two shapes are one, up to a bijection of the numbers that leaves those behind `j` alone."""
    pairs = set(itertools.zip_longest(ours.numbers, theirs.numbers))
    bijective = len(pairs) == len(set(ours.numbers)) == len(set(theirs.numbers))
    fitting = all(a and b and a[0] == b[0] and (a == b or a[0] != b"j") for a, b in pairs)
    return ours.fixed == theirs.fixed and bijective and fitting


def without_head(text):
    return text.split(b"\n", 1)[1]


def own_trees(program, texts):
    """The trees among the texts of `merge`, `merge_queries` or `push`."""
    return list(texts[:2]) if program == "merge" else [without_head(text) for text in texts if text.startswith(b"query\t")]


def comparable(program, case, answer):
    """Whether the answer is a renamed tree whose names and columns can be told: no name ends in LabelLabel, no term stands
    twice in a constant list."""
    texts = inputs.parted(case)
    if answer.startswith(b"refused"):
        return False
    if program == "push" and (refusals.head_and_tree(texts[0])[0][0] not in refusals.MERGEABLE or inputs.columns(own_trees(program, texts)[0]) is None):
        return False
    lists = texts[1:] if program == "push" else texts[3:]
    terms = [[fields[1] for fields in trees.records(text)] for text in lists]
    names = [name for tree in own_trees(program, texts) for name in trees.names(tree)]
    return not any(name.endswith(b"LabelLabel") for name in names) and all(len(set(row)) == len(row) for row in terms)


def shape(program, case, names, answer, rust):
    texts = inputs.parted(case)
    if program == "push":
        return shape_of_push(without_head(answer), without_head(texts[0]), names[0], texts[1], rust)
    if program == "merge_queries":
        return shape_of_merge(without_head(answer), [*map(without_head, texts[:2]), *texts[2:]], names, rust)
    return shape_of_merge(answer, texts, names, rust)


def renumbered(program, case, names, ours, theirs):
    """Whether two answers to a case are the same up to a renumbering; `names` are each tree's renamed names."""
    heads = program == "merge" or ours.split(b"\n")[0] == theirs.split(b"\n")[0]
    return heads and same(shape(program, case, names, ours, False), shape(program, case, names, theirs, True))
