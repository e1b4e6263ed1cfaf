#!/usr/bin/env python3
"""The calls a second time, from docs/SPECIFICATION.md alone.

answer(program, data) is what the call of that name writes, left(program, data)
the line `left` that goes to standard error, and shown(program, data) is both. It
shares no code with the product: texts are judged by second_reader.py, a tree is a
line's fields with the nodes below it, and every rule is told as its section tells it.

    python3 second_calls.py PROGRAM FILE    writes both
"""
import sys

import calls
from second_reader import number

ROOM = 65536
TEXTS = {row.name: row.kinds for row in calls.ROWS}  # what each call reads
ONE = b"graph project distinct reduced slice service exists plus neg not asc desc agg un".split()
TWO = b"join union minus filter extend or and eq same gt ge lt le add sub mul div bin".split()
THREE = b"if tern".split()
THROUGH = b"distinct reduced slice orderby group".split()


class Refused(Exception):
    """A call's own refusal, by its number."""


class Node:
    """A line and the lines directly below it, each with those below it."""

    def __init__(self, fields, below=()):
        self.fields, self.below, self.word = list(fields), list(below), fields[0]

    def text(self):
        return b"\t".join(self.fields) + b"\n" + b"".join(node.text() for node in self.below)


def width(fields):
    """How many lines stand directly below a line."""
    word, count = fields[0], lambda place: int(fields[place])
    if word in (b"bgp", b"coalesce"):
        return count(1)
    if word in (b"in", b"orderby"):
        return 1 + count(1)
    if word in (b"values", b"set"):
        return 1 + count(2)
    if word in (b"call", b"nary"):
        return count(2)
    if word in (b"leftjoin", b"group"):
        return 2 + count(-1)
    return 1 if word in ONE else 2 if word in TWO else 3 if word in THREE else 0


def records(text):
    return [line.split(b"\t") for line in text.split(b"\n")[:-1]]


def nodes(lines):
    """The trees of a text, one after the other."""
    lines = iter(lines)

    def node(fields):
        return Node(fields, [node(next(lines)) for _ in range(width(fields))])

    return [node(fields) for fields in lines]


def tree(text):
    """The tree of a text; that of an empty file has no columns over no triples."""
    return nodes(records(text))[0] if text else Node([b"project"], [Node([b"bgp", b"0"])])


# Scope, order of numbering

def is_variable(field):
    return field.startswith(b"?")


def term_places(node):
    """The fields of a line that may be variables."""
    ends = {b"t": [1, 2, 3], b"path": [1, 3], b"project": range(1, len(node.fields)), b"cols": range(1, len(node.fields))}
    alone = b"graph service extend agg aggall term bound".split()
    return ends.get(node.word, [1] if node.word in alone else [])


def own(node):
    """The variables of a line."""
    return [node.fields[place] for place in term_places(node) if is_variable(node.fields[place])]


def by_place(node):
    """All variables by first place."""
    found = own(node) + [name for below in node.below for name in by_place(below)]
    return list(dict.fromkeys(found))


def scope(node):
    """The variables in scope and the hidden ones, as sets."""
    word, below = node.word, node.below
    if word == b"bgp":
        return {name for line in below for name in own(line)}, set()
    if word == b"path":
        return set(own(node)), set()
    if word == b"values":
        return set(own(below[0])), set()
    if word in (b"join", b"leftjoin", b"union", b"minus"):
        (left, left_hidden), (right, right_hidden) = scope(below[0]), scope(below[1])
        hidden = left_hidden | right_hidden
        return (left, hidden | right) if word == b"minus" else (left | right, hidden)
    seen, hidden = scope(below[1] if word == b"group" else below[0])
    if word in (b"graph", b"extend"):
        return seen | set(own(node)), hidden
    if word == b"project":
        return set(own(node)), seen | hidden
    if word == b"group":
        return {name for line in below[:1] + below[2:] for name in own(line)}, seen | hidden
    return seen, hidden


def both_sets(root):
    seen, hidden = scope(root)
    places = by_place(root)
    return [name for name in places if name in seen], [name for name in places if name in hidden]


# Naming, renaming

def standardized(prefix, root, join_variables):
    names = {}

    def push(prefix, count, name):
        base = name[:-5] if name.endswith(b"Label") else name
        if base not in names:
            names[base] = b"?%s%d" % (prefix, count)
            names[base + b"Label"] = b"?%s%dLabel" % (prefix, count)

    for count, name in enumerate(join_variables):
        push(b"j", count, name)
    seen, hidden = both_sets(root)
    for count, name in enumerate(seen + hidden):
        push(prefix, count, name)
    return names


def renamed(node, names):
    fields = list(node.fields)
    for place in term_places(node) if node.word != b"service" else []:
        fields[place] = names.get(fields[place], fields[place])
    return Node(fields, [renamed(below, names) for below in node.below])


# Merging, pushing, negating

def pairs(text):
    return [(int(first), second) for first, second in records(text)]


def columns(root):
    return root.fields[1:]


def inside(positions, names):
    if any(position >= len(names) for position in positions):
        raise Refused(3)


def once(positions):
    if len(set(positions)) < len(positions):
        raise Refused(10)


def values(names, rows):
    return Node([b"values", b"%d" % len(names), b"%d" % len(rows)],
                [Node([b"cols", *names])] + [Node([b"row", *row]) for row in rows])


def side(root, names, constants):
    """A side's free columns and its pattern."""
    root, constants = renamed(root, names), sorted(constants)
    pattern, fixed = root.below[0], [position for position, _ in constants]
    if constants:
        bound = values([columns(root)[position] for position in fixed], [[term for _, term in constants]])
        pattern = Node([b"join"], [pattern, bound])
    return [name for place, name in enumerate(columns(root)) if place not in fixed], pattern


def projects(left, right):
    if left.word != b"project" or right.word != b"project":
        raise Refused(4)


def both_named(left, right, joins, left_constants, right_constants):
    """The columns at the left join positions, and the new names of both sides."""
    lefts, rights = [first for first, _ in joins], [int(second) for _, second in joins]
    inside(lefts + [position for position, _ in left_constants], columns(left))
    inside(rights + [position for position, _ in right_constants], columns(right))
    once(lefts)
    once(rights)
    join_variables = [columns(left)[position] for position in lefts]
    return join_variables, standardized(b"l", left, join_variables), standardized(b"r", right, [columns(right)[position] for position in rights])


def merged(left, right, joins, left_constants, right_constants):
    projects(left, right)
    join_variables, left_names, right_names = both_named(left, right, joins, left_constants, right_constants)
    left_free, left_pattern = side(left, left_names, left_constants)
    right_free, right_pattern = side(right, right_names, right_constants)
    gone = {left_names.get(name, name) for name in join_variables}
    free = left_free + [name for name in right_free if name not in gone]
    return Node([b"project", *free], [Node([b"join"], [left_pattern, right_pattern])])


def without(left, right, joins):
    projects(left, right)
    if not joins:
        raise Refused(11)
    _, left_names, right_names = both_named(left, right, joins, [], [])
    left, right = renamed(left, left_names), renamed(right, right_names)
    return Node(left.fields, [Node([b"minus"], left.below + right.below)])


def pushed(root, constants):
    if root.word != b"project":
        return root
    inside([position for position, _ in constants], columns(root))
    free, pattern = side(root, standardized(b"v", root, []), constants)
    return Node([b"project", *free], [pattern])


def projection(root):
    """The outermost projection, or None."""
    while root.word in THROUGH:
        root = root.below[1 if root.word == b"group" else 0]
    return root if root.word == b"project" else None


def negated(root):
    found = projection(root)
    if found:
        found.below = [Node([b"filter"], [Node([b"bgp", b"0"]), Node([b"not"], [Node([b"exists"], found.below)])])]
    return root


# Bindings, filters

def value_term(domain, lexical, extra, in_filter):
    """The term of a value, or None."""
    if domain in (b"Tuple", b"Map") or in_filter and domain in (b"Other", b"Null"):
        return None
    if domain == b"Null":
        return b"-"
    if domain == b"Iri":
        return b"<" + lexical + b">"
    behind = b"" if domain == b"PlainString" else b"@" + extra if domain == b"LanguageTaggedString" else b"^^" + extra
    return b'"' + lexical + b'"' + behind


def with_bindings(root, sets):
    found = projection(root)
    if not found:
        return root
    names, bound = columns(found), []
    for entry in sets:
        positions = [int(field) for field in entry.below[0].fields[1:]]
        inside(positions, names)
        rows = [[value_term(*row.fields[i:i + 3], False) for i in range(1, len(row.fields), 3)] for row in entry.below[1:]]
        bound.append(([names[position] for position in positions], rows))
    if any(cell is None for _, rows in bound for row in rows for cell in row):
        raise Refused(7)
    for entry in bound:
        found.below = [Node([b"join"], [*found.below, values(*entry)])]
    return root


def references(part):
    return ([int(part.fields[1])] if part.word == b"ref" else []) + [found for below in part.below for found in references(below)]


def expression(part, names):
    """A filter part as an expression, or None."""
    if part.word == b"ref":
        return Node([b"term", names[int(part.fields[1])]])
    if part.word == b"leaf":
        term = value_term(*part.fields[1:], True)
        return Node([b"term", term]) if term is not None else None
    below = [expression(inner, names) for inner in part.below]
    if None in below:
        return None
    match part.word, part.fields[1]:
        case b"un", b"Datatype":
            return Node([b"call", b"DATATYPE", b"1"], below)
        case b"un", b"LanguageTag":
            return Node([b"call", b"LANG", b"1"], below)
        case b"bin", b"Equals":
            return Node([b"eq"], below)
        case b"bin", b"Unequals":
            return Node([b"not"], [Node([b"eq"], below)])
    return None


def placed_expression(part, names):
    """The expression of a filter that is placed, or None: one that is always true isn't."""
    return None if part.fields[:3] == [b"leaf", b"Boolean", b"true"] else expression(part, names)


def not_placed(root, filters):
    """The numbers of the filters that are not placed."""
    found = projection(root)
    return [number for number, part in enumerate(filters) if not found or placed_expression(part, columns(found)) is None]


def with_filters(root, filters):
    found = projection(root)
    if not found:
        return root
    for part in filters:
        inside(references(part), columns(found))
    placed = [placed_expression(part, columns(found)) for part in filters]
    placed = [each for each in placed if each]
    if placed:
        condition = placed[0]
        for each in placed[1:]:
            condition = Node([b"and"], [condition, each])
        found.below = [Node([b"filter"], [*found.below, condition])]
    return root


# Namespaces

def new_start(iri, table):
    """An IRI by the line of the table that covers it."""
    for old, new in table:
        if iri[1:].startswith(old):
            return b"<" + new + iri[1 + len(old):]
    raise Refused(15)


def converted(node, table):
    places = range(1, len(node.fields)) if node.word == b"row" else term_places(node)
    iris = [place for place in places if node.fields[place].startswith(b"<")]
    fields = [new_start(field, table) if place in iris else field for place, field in enumerate(node.fields)]
    return Node(fields, [converted(below, table) for below in node.below])


# The calls and the programs

def split_head(query):
    head, body = query.split(b"\n", 1)
    return head + b"\n", tree(body)


def rewritten(program, texts):
    first = texts[0]
    if program == "scope":
        seen, hidden = both_sets(tree(first))
        return b"\t".join([b"in", *seen]) + b"\n" + b"\t".join([b"hid", *hidden]) + b"\n"
    if program == "rename":
        return renamed(tree(first), dict(records(texts[1]))).text()
    if program == "merge":
        return merged(tree(first), tree(texts[1]), *map(pairs, texts[2:])).text()
    if program == "bindings":
        return with_bindings(tree(first), nodes(records(texts[1]))).text()
    if program == "filters":
        return with_filters(tree(first), nodes(records(texts[1]))).text()
    if program == "namespaces":
        return converted(tree(first), records(texts[1])).text()
    head, root = split_head(first)
    select_or_ask = head.split(b"\t")[1] in (b"select", b"ask")
    if program in ("merge_queries", "without"):
        other, right = split_head(texts[1])
        if not select_or_ask or head != other:
            raise Refused(5)
        return head + (merged if program == "merge_queries" else without)(root, right, *map(pairs, texts[2:])).text()
    if not select_or_ask:
        return head + root.text()
    return head + (pushed(root, pairs(texts[1])) if program == "push" else negated(root)).text()


def parted(data):
    """The texts before, between and after lines `--`."""
    texts, start = [b""], 0
    while start < len(data):
        end = data.find(b"\n", start) + 1 or len(data)
        line = data[start:end]
        texts = texts + [b""] if line == b"--\n" else texts[:-1] + [texts[-1] + line]
        start = end
    return texts


def answer(program, data):
    """What the program writes for this input."""
    try:
        if len(data) > ROOM:
            raise Refused(2)
        texts, kinds = parted(data), TEXTS[program]
        if len(texts) != len(kinds):
            raise Refused(1)
        for kind, text in zip(kinds, texts):
            if number(kind, text):
                raise Refused(number(kind, text))
        written = rewritten(program, texts)
        if len(written) > ROOM:
            raise Refused(6)
        return written
    except Refused as refusal:
        return b"refused\t%d\n" % refusal.args[0]


def left(program, data):
    """The line `left` of the filters that were not placed, if there are any."""
    if program != "filters" or answer(program, data).startswith(b"refused\t"):
        return b""
    first, second = parted(data)
    numbers = not_placed(tree(first), nodes(records(second)))
    return b"\t".join([b"left", *(b"%d" % number for number in numbers)]) + b"\n" if numbers else b""


def shown(program, data):
    """What the program `vectors` shows of an input: the answer, and behind it the line `left`."""
    return answer(program, data) + left(program, data)


if __name__ == "__main__":
    if len(sys.argv) != 3 or sys.argv[1] not in TEXTS:
        sys.exit("usage: second_calls.py " + "|".join(TEXTS) + " FILE")
    with open(sys.argv[2], "rb") as file:
        sys.stdout.buffer.write(shown(sys.argv[1], file.read()))
