#!/usr/bin/env python3
"""Inputs for timing the calls, the same every time.

    bench_texts.py FOLDER

writes NAME.scope, NAME.rename, NAME.merge, NAME.push, NAME.bindings, NAME.filters, NAME.without and NAME.namespaces, what the program of that name
reads, for each NAME:
lines10, lines50, lines200   ordinary queries of that many lines
names1024                    16,384 bytes but for less than a line, with 1,024 short names
names12                      16,384 bytes but for less than a line, with 12 names
columns256                   16,384 bytes but for less than a line, with 300 names and 256 columns, where the others at the bounds have 64
A mapping renames every third name of an ordinary query, and 64 names (256, or all) at the bounds. A merge has two such trees, without
the `distinct` of the others. For an ordinary query it joins the first columns and has a constant on the left's last column; at the
bounds it joins half of the columns (all of 256), and a quarter has constants, on both sides. A push has the left side's constants, without
the merge's trees behind a head, and its pairs. Bindings are a set of four rows at the first two columns, and at the bounds one of 16 rows at
the first eight; filters are three, and at the bounds 64 (256). A namespace table has 64 lines.
"""

import itertools
import pathlib
import string
import sys

sys.dont_write_bytecode = True

import trees

ONTOLOGY = "<http://example.org/grid/%s>"
PROPERTIES = "by in at zone phase cause time operator station line".split()
THINGS = "event relay breaker bay feeder bus trip zone phase station".split()


def laid(*lines):
    """Lines with spaces for tabs."""
    return "".join(line.replace(" ", "\t") + "\n" for line in lines)


HEAD = laid("query select - -")


def thing(number):
    return "?" + THINGS[number % len(THINGS)] + (str(number // len(THINGS)) if number >= len(THINGS) else "")


def triples(number, count):
    """A basic graph pattern about one thing, with a label."""
    subject = thing(number)
    lines = [f"t {subject} {ONTOLOGY % PROPERTIES[entry % 10]} {thing(number + entry + 1)}" for entry in range(count - 1)]
    return laid(f"bgp {count}", *lines, f"t {subject} <http://www.w3.org/2000/01/rdf-schema#label> {subject}Label")


def block(number):
    """Ten lines: a filtered optional part."""
    other = thing(number + 1)
    return laid("filter", "leftjoin 0") + triples(number, 2) + triples(number + 1, 1) + laid("gt", f"term {other}", 'term "5"')


def joined(parts):
    """Patterns in a balanced tree of joins."""
    if len(parts) == 1:
        return parts[0]
    half = len(parts) // 2
    return "join\n" + joined(parts[:half]) + joined(parts[half:])


def projected(lines, first=0):
    """A tree of that many lines: a projection over blocks and one larger basic graph pattern, from some thing on."""
    blocks = (lines - 9) // 11
    columns = " ".join(f"{thing(number)} {thing(number)}Label" for number in range(first, first + min(blocks + 1, 8)))
    last = triples(first + blocks, lines - 2 - 11 * blocks)
    return laid(f"project {columns}") + joined([block(number) for number in range(first, first + blocks)] + [last])


def ordinary(lines):
    """A query of that many lines."""
    return laid("distinct") + projected(lines - 1)


def short_names():
    letters = string.ascii_lowercase + string.digits
    return ["?" + first + second for first, second in itertools.product(letters, repeat=2)][: trees.NAMES]


def at_bounds(names, columns, room=trees.BYTES):
    """A projection over triples that go round the names, as long as whole lines allow."""
    head, source, lines, text = laid("project " + " ".join(names[:columns])), itertools.cycle(names), [], ""
    while len(text) <= room:
        shorter = text
        lines.append(f"t {next(source)} <{PROPERTIES[len(lines) % 10]}> {next(source)}")
        text = head + joined(list(patterns(lines)))
    return shorter


def patterns(lines):
    """Basic graph patterns of 40 lines each."""
    for start in range(0, len(lines), 40):
        part = lines[start : start + 40]
        yield laid(f"bgp {len(part)}", *part)


def mapping(tree, step):
    own = [name.decode() for name in trees.names(tree.encode())]
    return "".join(f"{name}\t?renamed{number}\n" for number, name in enumerate(own[::step][: trees.ENTRIES]))


def constants(positions):
    return "".join(f"{position}\t<http://example.org/grid/constant{position}>\n" for position in positions)


def lists_of_ordinary(tree):
    """The join list, and each side's constants, of an ordinary query."""
    return laid("0 0"), constants([tree.split("\n")[0].count("\t") - 1]), ""


def lists_at_bounds(tree, joined):
    """So many joined columns, and constants on the quarter behind the first half."""
    width = tree.split("\n")[0].count("\t")
    quarter = constants(range(width // 2, width // 2 + width // 4))
    return "".join(f"{position}\t{position}\n" for position in range(min(joined, width))), quarter, quarter


def bindings(width, rows):
    """A set at the first columns."""
    row = " ".join(["row"] + ["Iri http://example.org/grid/r%d -", "Int %d <http://www.w3.org/2001/XMLSchema#int>"] * (width // 2))
    places = " ".join(map(str, range(width)))
    return laid(f"set {width} {rows}", f"at {places}", *[row % ((number,) * width) for number in range(rows)])


def filters(width, many):
    """Filters that compare columns with values, and now and then a column's language tag."""
    compare = ["bin Unequals", "ref %d", "leaf Iri http://example.org/grid/r1 -"]
    tag = ["bin Equals", "un LanguageTag", "ref %d", "leaf PlainString en -"]
    return laid(*[line.replace("%d", str(number % width)) for number in range(many) for line in (tag if number % 3 == 2 else compare)])


def namespaces():
    """A table of 64 lines that covers every IRI of these trees."""
    olds = ["http://example.org/grid/", "http://www.w3.org/", *PROPERTIES, *(f"http://example.org/g{number:02}/" for number in range(52))]
    return "".join(f"{old}\t{old.replace('/g', '/2026/g')}\n" for old in sorted(olds))


def input_texts(tree, step, left, right, short, lists, placed):
    """What each program reads; `short` are two trees that leave room for a query's head, `placed` are binding sets and filters."""
    return {
        "scope": [tree],
        "rename": [tree, mapping(tree, step)],
        "merge": [left, right, *lists],
        "push": [HEAD + short[0], lists[1]],
        "bindings": [tree, placed[0]],
        "filters": [tree, placed[1]],
        "without": [HEAD + short[0], HEAD + short[1], lists[0]],
        "namespaces": [tree, namespaces()],
    }


def texts():
    """Each name with what the programs read."""
    for lines in (10, 50, 200):
        left, right = projected(lines), projected(lines, 5)
        yield f"lines{lines}", input_texts(ordinary(lines), 3, left, right, (left, right), lists_of_ordinary(left), (bindings(2, 4), filters(2, 3)))
    few = [thing(number) for number in range(12)]
    for name, own, step, columns, joined in (("names1024", short_names(), 16, 64, 32), ("names12", few, 1, 64, 6), ("columns256", short_names()[:300], 1, 256, 256)):
        tree, right = at_bounds(own, columns), at_bounds(own[::-1], columns)
        short = [at_bounds(names, columns, trees.BYTES - len(HEAD)) for names in (own, own[::-1])]
        yield name, input_texts(tree, step, tree, right, short, lists_at_bounds(tree, joined), (bindings(8, 16), filters(8, columns)))


def main():
    folder = pathlib.Path(sys.argv[1])
    folder.mkdir(parents=True, exist_ok=True)
    for name, inputs in texts():
        for program, parts in inputs.items():
            (folder / f"{name}.{program}").write_bytes("--\n".join(parts).encode())


if __name__ == "__main__":
    main()
