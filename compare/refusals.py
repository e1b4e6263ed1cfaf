"""The numbers by which docs/SPECIFICATION.md refuses the inputs of `merge` to `filters`: the input itself, its texts in their order (by the
second reader of tests/), then 5, 4, 3, 10, 7. Whether the answer is too long (6) is for its length to say. And what the Rust does there.
"""

import inputs
import second_reader
import trees
import values

ROOM = 65536  # bytes of an input, and of an answer
MERGEABLE = (b"select", b"ask")
REPEATED = 10  # which the Rust knows nothing of


def malformed(program, case):
    """1 or 2 for the input or one of its texts, or 0."""
    if len(case) > ROOM:
        return 2
    kinds, texts = inputs.TEXTS[program], inputs.parted(case)
    if len(texts) != len(kinds):
        return 1
    return next(filter(None, map(second_reader.number, kinds, texts)), 0)


def head_and_tree(query):
    line, tree = query.split(b"\n", 1)
    return line.split(b"\t")[1:], tree


def outside(columns, positions):
    return any(position >= len(columns) for position in positions)


def positions(text, side=0):
    return [int(fields[side]) for fields in trees.records(text)]


def repeated(joins):
    """Whether a position stands twice on its side."""
    return any(len(set(side)) < len(side) for side in (positions(joins), positions(joins, 1)))


def of_trees(left, right, joins, left_constants, right_constants):
    """4, 3, 10 or 0 for a merge of trees."""
    left, right = inputs.columns(left), inputs.columns(right)
    if left is None or right is None:
        return 4
    of_left = positions(joins) + positions(left_constants)
    of_right = positions(joins, 1) + positions(right_constants)
    return 3 if outside(left, of_left) or outside(right, of_right) else REPEATED * repeated(joins)


def of_queries(left, right, *lists):
    """5, 4, 3, 10 or 0 for a merge of queries."""
    (left_head, left_tree), (right_head, right_tree) = head_and_tree(left), head_and_tree(right)
    if left_head != right_head or left_head[0] not in MERGEABLE:
        return 5
    return of_trees(left_tree, right_tree, *lists)


def of_push(query, constants):
    """3 or 0."""
    head, tree = head_and_tree(query)
    columns = inputs.columns(tree)
    return 3 if head[0] in MERGEABLE and columns is not None and outside(columns, positions(constants)) else 0


def of_negate(query):
    return 0


def of_bindings(tree, sets):
    """3, 7 or 0."""
    columns, records = inputs.outermost(tree), trees.records(sets)
    if columns is None or not records:
        return 0
    if outside(columns, (int(field) for fields in records if fields[0] == b"at" for field in fields[1:])):
        return 3
    return 7 if any(domain in values.UNUSABLE for fields in records if fields[0] == b"row" for domain in fields[1::3]) else 0


def of_filters(tree, filters):
    """3 or 0."""
    columns = inputs.outermost(tree)
    references = (int(fields[1]) for fields in trees.records(filters) if fields[0] == b"ref")
    return 3 if columns is not None and outside(columns, references) else 0


OF = {"merge": of_trees, "merge_queries": of_queries, "push": of_push, "negate": of_negate, "bindings": of_bindings, "filters": of_filters}
RUST = {3: b"panicked\n", 4: b"none\n", 5: b"none\n", 7: b"panicked\n"}


def number(program, case):
    """The number of an input, 0 if there is to be an answer of whatever length."""
    return malformed(program, case) or OF[program](*inputs.parted(inputs.whole(program, case)))


class Filter:
    """Goes through filters as functions.rs does, and keeps the references that it looks up."""

    def __init__(self, text):
        self.lines, self.seen = iter(trees.records(text)), []
        for fields in self.lines:
            self.part(fields, True)

    def part(self, fields, looking):
        """Whether a part can be expressed; it is looked at only if the parts before it could be."""
        word = fields[0]
        if word == b"ref":
            self.seen += [int(fields[1])] * looking
            return True
        if word == b"leaf":
            return fields[1] not in values.UNUSABLE + [b"Null", b"Other"]
        count = values.PARTS.get(word) or int(fields[2])
        fine, looking = True, looking and word in (b"un", b"bin")
        for _ in range(count):
            fine = self.part(next(self.lines), looking and fine) and fine
        return fine and fields[1] in EXPRESSED.get(word, ())


EXPRESSED = {b"un": (b"Datatype", b"LanguageTag"), b"bin": (b"Equals", b"Unequals")}


def rust(program, case):
    """What the Rust writes for an input that is refused by 3, 4, 5 or 7; None where it has an answer all the same."""
    found = RUST.get(number(program, case))
    if found is None or program != "filters":
        return found
    tree, filters = inputs.parted(inputs.whole(program, case))
    return found if outside(inputs.outermost(tree), Filter(filters).seen) else None
