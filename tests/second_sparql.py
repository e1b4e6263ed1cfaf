#!/usr/bin/env python3
"""A query's text for an edition of SPARQL a second time, from docs/EDITIONS.md alone.

refusal(head, root, eleven) is 12 or 13, or 0 where nothing is refused; text(root) is what is written then. Trees are
nodes as second_calls.py has them; `eleven` says SPARQL 1.1 for True and 1.0 for False. It shares no code with the product.
"""
import re

NAME = re.compile(rb"\?[A-Za-z0-9_]+")
IRI = rb"<[^\x00-\x20<>\"{}|^`\\]*>"
LITERAL = re.compile(rb'"(?:[^"\\\n\r]|\\[tbnrf\\"\'])*"(?:@[A-Za-z]+(?:-[A-Za-z0-9]+)*|\^\^' + IRI + rb")?")
GROUPS = b"bgp join leftjoin filter union graph".split()
NEWER = b"minus extend values".split()
SPOKEN = b"term bound or and eq same not t cols row asc desc".split()
UNDER = {b"slice": "slice", b"distinct": "distinct", b"reduced": "distinct", b"project": "project"}


def is_utf8(field):
    try:
        field.decode("utf8")
    except UnicodeDecodeError:
        return False
    return True


def is_allowed(field):
    """A name, an IRI or a literal that the grammar allows."""
    if field.startswith(b"?"):
        return bool(NAME.fullmatch(field))
    if len(field) > 1 and field[:1] == b"<" and field[-1:] == b">":
        return bool(re.fullmatch(IRI, field)) and is_utf8(field)
    return bool(LITERAL.fullmatch(field)) and is_utf8(field) and not re.search(rb"\\[uU]", field)


def in_scope(node):
    """The variables in scope, by the standard's section 18.2.1."""
    word, below = node.word, node.below
    named = {field for field in node.fields[1:] if field.startswith(b"?")}
    if word in (b"project", b"cols", b"t"):
        return named
    if word == b"path":
        return {field for field in (node.fields[1], node.fields[3]) if field.startswith(b"?")}
    if word in (b"bgp", b"join", b"union"):
        return set().union(*map(in_scope, below))
    if word == b"leftjoin":
        return in_scope(below[0]) | in_scope(below[1])
    if word == b"values":
        return in_scope(below[0])
    if word == b"group":
        return in_scope(below[0]) | {line.fields[1] for line in below[2:]}
    here = {node.fields[1]} & named if word in (b"graph", b"service", b"extend") else set()
    return here | in_scope(below[0])


def is_said(node, place, eleven):
    """The edition can say this line."""
    word, fields = node.word, node.fields
    free = place in ("inner", "project")
    stack = place == "root" or eleven and free
    if word in GROUPS:
        return free
    if word in NEWER:
        return free and eleven and not (word == b"extend" and fields[1] in in_scope(node.below[0]))
    if word == b"slice":
        return stack
    if word in (b"distinct", b"reduced"):
        return stack or place == "slice"
    if word == b"project":
        return (stack or place in ("slice", "distinct")) and len(fields) > 1
    if word == b"orderby":
        return place == "project" and fields[1] != b"0"
    if word == b"t":
        return not any(field.startswith(b"_:") for field in fields)
    if word == b"cols":
        return len(set(fields)) == len(fields)
    return word in SPOKEN or word == b"exists" and eleven


def is_fine(node):
    """Its names, IRIs and literals are allowed."""
    terms = node.fields[1:] if node.word in (b"t", b"project", b"cols", b"row") else []
    if node.word in (b"term", b"bound", b"graph", b"extend"):
        terms = node.fields[1:2]
    return all(is_allowed(field) for field in terms if not (node.word == b"row" and field == b"-"))


def first_refused(node, place, eleven):
    """The first line from the top that is refused, 12 before 13 on a line: its number and its word; 0 where none is."""
    if not is_said(node, place, eleven):
        return 12, node.word
    if not is_fine(node):
        return 13, node.word
    found = (first_refused(below, UNDER.get(node.word, "inner"), eleven) for below in node.below)
    return next((pair for pair in found if pair[0]), (0, b""))


def refused_line(head, root, eleven):
    return first_refused(root, "root", eleven) if head == b"query\tselect\t-\t-\n" else (12, b"query")


def refusal(head, root, eleven):
    return refused_line(head, root, eleven)[0]


# The text

def group(node):
    return b"{ " + spelled(node) + b"} "


def cells(fields):
    return b"".join((b"UNDEF" if field == b"-" else field) + b" " for field in fields)


def select(node, manner=b""):
    inner, order = node.below[0], b""
    if inner.word == b"orderby":
        order = b"ORDER BY " + b"".join(b"%s ( %s) " % (line.word.upper(), spelled(line.below[0])) for line in inner.below[1:])
        inner = inner.below[0]
    return b"SELECT " + manner + cells(node.fields[1:]) + b"WHERE " + group(inner) + order


def spelled(node):
    """What stands in a group's braces, or an expression; a space behind each token."""
    word, fields, below = node.word, node.fields, node.below
    if word == b"bgp":
        return b"".join(cells(line.fields[1:]) + b". " for line in below)
    if word == b"join":
        return group(below[0]) + group(below[1])
    if word in (b"union", b"minus"):
        return group(below[0]) + word.upper() + b" " + group(below[1])
    if word == b"leftjoin":
        condition = b"FILTER ( " + spelled(below[2]) + b") " if len(below) == 3 else b""
        return group(below[0]) + b"OPTIONAL { " + group(below[1]) + condition + b"} "
    if word == b"filter":
        return group(below[0]) + b"FILTER ( " + spelled(below[1]) + b") "
    if word == b"graph":
        return b"GRAPH " + fields[1] + b" " + group(below[0])
    if word == b"extend":
        return group(below[0]) + b"BIND ( " + spelled(below[1]) + b"AS " + fields[1] + b" ) "
    if word == b"values":
        rows = b"".join(b"( " + cells(row.fields[1:]) + b") " for row in below[1:])
        return b"VALUES ( " + cells(below[0].fields[1:]) + b") { " + rows + b"} "
    if word == b"project":
        return select(node)
    if word in (b"distinct", b"reduced"):
        return select(below[0], word.upper() + b" ")
    if word == b"slice":
        return spelled(below[0]) + b"OFFSET %s " % fields[1] + (b"" if fields[2] == b"-" else b"LIMIT %s " % fields[2])
    if word == b"term":
        return fields[1] + b" "
    if word == b"bound":
        return b"BOUND ( " + fields[1] + b" ) "
    if word == b"exists":
        return b"EXISTS " + group(below[0])
    if word == b"not":
        return b"( ! " + spelled(below[0]) + b") "
    if word == b"same":
        return b"sameTerm ( " + spelled(below[0]) + b", " + spelled(below[1]) + b") "
    between = {b"or": b"|| ", b"and": b"&& ", b"eq": b"= "}[word]
    return b"( " + spelled(below[0]) + between + spelled(below[1]) + b") "


def text(root):
    return spelled(root)
